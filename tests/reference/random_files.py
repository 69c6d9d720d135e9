"""Random constraint and assignment files, good ones and damaged ones."""

from .cases import AssignmentFile, ConstraintFile
from .files import assignment_file, constraint_file, little

PRIMES = (97, 12289, 2**31 - 1, 2**61 - 1, 2**64 - 59)
LARGE = (0, 1, 2, 3, 4, 7, 8, 9, 12, 16, 40, 41, 97, 98, 255, 256, 2**16, 2**31, 2**32 - 1)


def other_sections(rng):
    return [(rng.choice((0, 3, 3, 4, 5, 2**32 - 1)), rng.randbytes(rng.choice((0, 0, 1, 8, 20)))) for _ in range(rng.choice((0, 0, 0, 1, 2, 3)))]


def good_constraints(rng):
    prime = rng.choice(PRIMES) if rng.random() < 0.3 else 97
    outputs, inputs, private = (rng.randrange(3) for _ in range(3))
    wires = 1 + outputs + inputs + private + rng.choice((0, 0, 1, 3))
    item = lambda: (rng.randrange(wires), rng.choice((0, 1, prime - 1, rng.randrange(prime))))
    rows = [[[item() for _ in range(rng.choice((0, 1, 1, 2, 3)))] for _ in range(3)] for _ in range(rng.choice((0, 1, 1, 2, 3)))]
    labels = rng.choice((wires, 0, 2**64 - 1))
    return prime, constraint_file((prime, wires, outputs, inputs, private, labels, len(rows)), rows, other_sections(rng))


def good_assignment(rng, prime):
    values = [1] + [rng.choice((0, 1, prime - 1, rng.randrange(prime))) for _ in range(rng.choice((0, 1, 2, 3, 6)))]
    return len(values), assignment_file(prime, values, other_sections(rng))


def section_places(data):
    """Where the sections of a good file begin, and where it ends."""
    at, places = 12, []
    while at < len(data):
        places.append(at)
        at += 12 + int.from_bytes(data[at + 4 : at + 12], "little")
    return places + [at]


def flip(rng, data):
    at = rng.randrange(len(data))
    data[at] ^= 1 << rng.randrange(8)


def overwrite(rng, data):
    at = rng.randrange(len(data))
    data[at] = rng.randrange(256)


def truncate(rng, data):
    del data[rng.randrange(len(data)) :]


def insert(rng, data):
    at = rng.randrange(len(data) + 1)
    data[at:at] = rng.randbytes(rng.choice((1, 1, 2, 4, 12)))


def remove(rng, data):
    at = rng.randrange(len(data))
    del data[at : at + rng.choice((1, 1, 2, 4, 8, 12))]


def append(rng, data):
    data += rng.randbytes(rng.choice((1, 4, 11, 12, 13)))


def write_number(rng, data, at, size):
    """Another number at a place: near the old one, or any."""
    old = int.from_bytes(data[at : at + size], "little")
    new = rng.choice((old + 1, old - 1, old + 8, rng.choice(LARGE), rng.randrange(256**size))) % 256**size
    data[at : at + size] = little(new, size)


def change_start(rng, data):
    write_number(rng, data, rng.choice((4, 8, 8)), 4)


def change_kind(rng, data):
    write_number(rng, data, rng.choice(section_places(data)[:-1]), 4)


def change_size(rng, data):
    write_number(rng, data, rng.choice(section_places(data)[:-1]) + 4, 8)


def change_header(rng, data):
    at = rng.choice((0, 4, 12, 12, 16, 20, 24, 28, 36, 36))
    write_number(rng, data, 24 + at, 8 if at in (4, 28) else 4)


def change_body(rng, data):
    first, second, third = section_places(data)[:3]
    if third - second > 16:
        at = rng.randrange(second + 12, third - 3, 4)
        write_number(rng, data, at, min(rng.choice((4, 8)), third - at))


def resized(rng, data):
    """A payload made longer or shorter, with the size that tells it."""
    places = section_places(data)
    which = rng.randrange(len(places) - 1)
    at, end = places[which], places[which + 1]
    payload = data[at + 12 : end]
    if payload and rng.random() < 0.5:
        payload = payload[: -rng.choice((1, 4, 8))]
    else:
        payload += rng.randbytes(rng.choice((1, 4, 8, 12)))
    data[at + 4 : end] = little(len(payload), 8) + payload


def swapped(rng, data):
    """Two sections in each other's place."""
    places = section_places(data)
    sections = [data[a:b] for a, b in zip(places, places[1:])]
    i, j = rng.randrange(len(sections)), rng.randrange(len(sections))
    sections[i], sections[j] = sections[j], sections[i]
    data[12:] = b"".join(sections)


def one_more_section(rng, data):
    data[8:12] = little(int.from_bytes(data[8:12], "little") + 1, 4)
    data += little(rng.choice((1, 2, 3)), 4) + little(4, 8) + rng.randbytes(rng.choice((3, 4, 4, 4, 5)))


ANYWHERE = (flip, flip, overwrite, truncate, insert, remove, append)
KNOWING = (change_start, change_kind, change_size, change_header, change_header, change_body, change_body, resized, swapped, one_more_section)


def damaged(rng, data):
    """One damage that knows the layout or one that does not, and at times another on top of it."""
    data = bytearray(data)
    first = rng.choice(ANYWHERE if rng.random() < 0.4 else KNOWING)
    first(rng, data)
    names = [first.__name__]
    while data and rng.random() < 0.25:
        more = rng.choice(ANYWHERE)
        more(rng, data)
        names.append(more.__name__)
    return " + ".join(names), bytes(data)


def constraint_files(rng, count):
    for number in range(count):
        prime, data = good_constraints(rng)
        name = "good"
        if rng.random() < 0.85:
            name, data = damaged(rng, data)
        if rng.random() < 0.05:
            prime = rng.choice((0, 1, prime - 1, prime + 1, *PRIMES))
        yield ConstraintFile(f"constraint file {number}, {name}", prime, data)


def assignment_files(rng, count):
    for number in range(count):
        prime = rng.choice((97, 12289))
        places, data = good_assignment(rng, prime)
        name = "good"
        if rng.random() < 0.85:
            name, data = damaged(rng, data)
        if rng.random() < 0.1:
            places = rng.choice((0, places - 1, places + 1, 3072, 3073))
        if rng.random() < 0.03:
            prime = 97 + 12289 - prime
        yield AssignmentFile(f"assignment file {number}, {name}", prime, rng.choice((0, 0, 0, 1)), places, data)


def every_truncation(rng):
    """Each front part of a good file of either kind, and each with a byte more."""
    prime, circuit = good_constraints(rng)
    places, assignment = good_assignment(rng, 97)
    for size in range(len(circuit) + 1):
        yield ConstraintFile(f"the first {size} bytes", prime, circuit[:size])
        yield ConstraintFile(f"the first {size} bytes and another", prime, circuit[:size] + b"\1")
    for size in range(len(assignment) + 1):
        yield AssignmentFile(f"the first {size} bytes", 97, 0, places, assignment[:size])
        yield AssignmentFile(f"the first {size} bytes and another", 97, 0, places, assignment[:size] + b"\1")


def full_assignments(rng):
    """Tables of the largest length, and of one place more."""
    for places in (3071, 3072, 3073):
        data = assignment_file(12289, [1] + [rng.randrange(12289) for _ in range(places - 1)])
        yield AssignmentFile(f"{places} values", 12289, 0, places, data)
