"""Random sheets with their lists of calls, and random values for value files."""

from .cases import Survey, ValueFile
from .fields import field
from .sheets import TABLE, Assign, Enter, Extend, Public, Quotient, Refused, Sheet

FIELDS = ((97, 0), (97, 1), (97, 2), (12289, 0), (12289, 1))
HUGE = 2**32 - 1

# Numbers of sheets at and past the limits, and where a field has the subgroup and the next does not.
EDGES = [
    (0, 1, 0), (1, 0, 0), (2049, 1, 0), (2048, 257, 0), (300, 257, 0), (2, 3, 1), (2, 1, 513), (HUGE, HUGE, HUGE), (1, 1, HUGE), (0, 0, 513),
    (1, 1, 0), (2048, 1, 0), (2, 2, 14), (2, 2, 15), (2, 2, 30), (2, 2, 31), (2, 2, 62), (1, 1, 15), (1, 1, 16), (16, 16, 0), (17, 17, 0), (3, 1, 512), (256, 256, 0),
]  # fmt: skip


def random_element(rng, f):
    if rng.random() < 0.2:
        return f.of(rng.choice((0, 1, f.p - 1)))
    return f.from_coordinates([rng.randrange(f.p) for _ in range(f.width)])


def linear(rng, f, sheet, most):
    return [(rng.randrange(sheet.m), random_element(rng, f)) for _ in range(rng.randrange(most + 1))]


def value_of(f, line, values):
    return f.dot([x for _, x in line], [values[wire] for wire, _ in line])


def satisfied_enters(rng, f, sheet, values):
    """Entries of every row: A and B at random, C at random and then put right by what it has on wire 0."""
    enters = []
    for row in range(sheet.rows):
        a, b, c = (linear(rng, f, sheet, most) for most in (3, 3, 2))
        missing = f.sub(f.mul(value_of(f, a, values), value_of(f, b, values)), value_of(f, c, values))
        if missing != f.zero or rng.random() < 0.2:
            part = random_element(rng, f)
            c += [(0, missing)] if rng.random() < 0.7 else [(0, part), (0, f.sub(missing, part))]
        enters += [Enter(TABLE, i, row, wire, x) for i, line in enumerate((a, b, c)) for wire, x in line]
    return enters


def wrong_length(rng, stated):
    return rng.choice([x for x in (0, 1, stated - 1, stated + 1, 2 * stated, TABLE, 2100, 2101, HUGE) if x != stated])


def reads(sheet):
    return [
        Extend(TABLE, sheet.m, sheet.columns),
        Quotient(TABLE, sheet.m, sheet.n - 1, sheet.columns + 4 * sheet.n),
        Public(sheet.m, sheet.n),
    ]


def outside(rng, f, sheet):
    """A call that is refused with 3."""
    x = random_element(rng, f)
    far = rng.choice((0, 1, HUGE // 2))
    return rng.choice(
        [
            Enter(TABLE, 3 + far, 0, 0, x),
            Enter(TABLE, 0, sheet.rows + far, 0, x),
            Enter(TABLE, 1, 0, sheet.m + far, x),
            Assign(sheet.m, 0, x),
            Assign(sheet.m, sheet.m + far, x),
        ]
    )


def misfit(rng, f, sheet):
    """A call that is refused with 5, wherever else it may be wrong."""
    call = rng.choice([outside(rng, f, sheet), Enter(TABLE, 0, 0, 0, f.one), Assign(sheet.m, sheet.m - 1, f.one), *reads(sheet)])
    lengths = [i for i, name in enumerate(call._fields) if name in ("entries", "values", "out", "work")]
    for i in rng.sample(lengths, rng.randrange(1, len(lengths) + 1)):
        call = call._replace(**{call._fields[i]: wrong_length(rng, call[i])})
    return call


def calls(rng, f, sheet, satisfied):
    """Every row's entries and every wire's value, in any order, with values that are replaced later, reads in between and refused calls."""
    values = [f.one] + [random_element(rng, f) for _ in range(sheet.m - 1)]
    enters = satisfied_enters(rng, f, sheet, values)
    assigns = [Assign(sheet.m, wire, x) for wire, x in enumerate(values) if wire > 0 and (x != f.zero or rng.random() < 0.5)]
    early = [Assign(sheet.m, a.wire, random_element(rng, f)) for a in assigns if rng.random() < 0.2]
    spoilt = []
    if not satisfied:
        spoilt = [Enter(TABLE, rng.randrange(3), rng.randrange(sheet.rows), rng.randrange(sheet.m), random_element(rng, f))] if sheet.rows else []
        spoilt += [Assign(sheet.m, rng.randrange(1, sheet.m), random_element(rng, f))] if sheet.m > 1 else []
    listed = enters + assigns
    rng.shuffle(listed)
    listed = early + listed + spoilt
    extra = [make(rng, f, sheet) for make in (outside, misfit) for _ in range(rng.randrange(3))]
    extra += [rng.choice(reads(sheet)) for _ in range(rng.randrange(3))]
    for call in extra:
        listed.insert(rng.randrange(len(listed) + 1), call)
    return listed


def random_shape(rng, f):
    """Small enough to be reckoned quickly, and with a subgroup in the field."""
    while True:
        m = rng.choice((1, 2, 2, 3, 3, 4, 5, 7, 9))
        shape = (m, rng.randrange(1, min(m, 4) + 1), rng.choice((0, 1, 1, 1, 2, 2, 3, 4, 5, 7)))
        if Sheet(f, *shape).n <= (32 if f.width == 1 else 16):
            return shape


def random_surveys(rng, count):
    for number in range(count):
        p, doublings = rng.choice(FIELDS)
        f = field(p, doublings)
        shape = random_shape(rng, f)
        satisfied = rng.random() < 0.6
        misfits = rng.randrange(1, 256) if rng.random() < 0.03 else 0
        yield Survey(f"sheet {number}", p, doublings, shape, calls(rng, f, Sheet(f, *shape), satisfied), misfits)


def large_surveys(rng):
    """The largest subgroup of each field, or one near it."""
    for p, doublings, shape in ((97, 0, (9, 4, 12)), (97, 1, (6, 2, 30)), (97, 2, (6, 4, 60)), (12289, 0, (40, 8, 120)), (12289, 1, (5, 2, 30))):
        for satisfied in (True, False):
            f = field(p, doublings)
            yield Survey(f"large sheet over {p}, {doublings}", p, doublings, shape, calls(rng, f, Sheet(f, *shape), satisfied))
    yield Survey("the largest sheet", 12289, 0, (256, 256, 512), [Assign(256, 4, 77), Enter(TABLE, 0, 3, 4, 5), Enter(TABLE, 1, 511, 255, 8)])


def edge_surveys():
    """Those over doubled fields of a large subgroup are left out, since they take long to reckon."""
    for p, doublings in FIELDS:
        for shape in EDGES:
            f = field(p, doublings)
            try:
                large = f.width > 1 and Sheet(f, *shape).n > 128
            except Refused:
                large = False
            if not large:
                yield Survey("edge", p, doublings, shape, [])
    for bit in range(8):
        yield Survey("a buffer too long", 97, 0, (3, 2, 1), [Public(3, 8)], 1 << bit)
        yield Survey("a buffer too long where the field has no root", 97, 0, (2, 2, 15), [], 1 << bit)


def full_table(rng):
    """More enters than the table has places, some of them refused before."""
    f = field(97, 0)
    sheet = Sheet(f, 3, 1, 3)
    for spare in (0, 1, 5):
        listed = [Enter(TABLE, i % 3, rng.randrange(3), rng.randrange(3), rng.randrange(97)) for i in range(TABLE - 1 + spare)]
        for make in (outside, misfit):
            for _ in range(4):
                listed.insert(rng.randrange(len(listed)), make(rng, f, sheet))
        listed += [outside(rng, f, sheet), misfit(rng, f, sheet), Assign(3, 1, 5)]
        yield Survey("a full table", 97, 0, (3, 1, 3), listed)


def value_files(rng, count):
    for number in range(count):
        p, doublings = rng.choice(FIELDS)
        f = field(p, doublings)
        shape = random_shape(rng, f) if rng.random() < 0.95 else rng.choice(EDGES)
        m, l, rows = shape
        size = min(m + 2 * l + rows, 3073)
        length = size if rng.random() < 0.9 else max(0, size + rng.choice((-1, 1, 7)))
        plain = doublings == 0 or rng.random() < 0.7
        values = [f.of(rng.randrange(p)) if plain else random_element(rng, f) for _ in range(length)]
        if values and rng.random() < 0.9:
            values[0] = f.one
        room = 52 + 8 * size + rng.choice((0, 0, 0, 1, 9, -1, -52))
        yield ValueFile(f"values {number}", p, doublings, shape, max(room, 0), values)
