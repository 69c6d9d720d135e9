"""Worked examples that the reference itself is held to, each worked out by hand."""

from random import Random

from .fields import Pairs, field, root
from .sheets import TABLE, Assign, Enter, Refused, Sheet, row_values


def sheet(shape, entries, values):
    made = Sheet(field(97, 0), *shape)
    for entry in entries:
        made.call(Enter(TABLE, *entry))
    for wire, value in enumerate(values[1:], 1):
        made.call(Assign(shape[0], wire, value))
    return made


def refusal(make):
    try:
        make()
    except Refused as e:
        return e.number, e.at
    return None


SQUARE = [(0, 0, 1, 1), (1, 0, 1, 1), (2, 0, 0, 1)]


def check_sheets():
    empty = sheet((1, 1, 0), [], [1])
    assert (empty.n, empty.quotient(), empty.public()) == (2, [73], [49, 49])
    minus_one = sheet((2, 1, 1), SQUARE, [1, 96])
    assert (minus_one.n, minus_one.extended()) == (4, [1, 96, 1, 0, 0])
    assert (minus_one.quotient(), minus_one.public()) == ([80, 29, 72], [73, 73, 73, 73])
    five = sheet((2, 1, 1), SQUARE, [1, 5])
    assert (refusal(five.quotient), five.extended()) == ((7, 0), [1, 5, 1, 0, 0])
    root_of_nine = sheet((3, 2, 1), [(0, 0, 2, 1), (1, 0, 2, 1), (2, 0, 1, 1)], [1, 9, 3])
    extended = root_of_nine.extended()
    assert (root_of_nine.n, extended) == (8, [1, 9, 3, 1, 0, 25, 16, 0])
    left = row_values(root_of_nine.f, root_of_nine.program().u, extended)
    assert [left.get(r, 0) for r in range(8)] == [1, 0, 0, 6, 5, 0, 4, 0]
    twice = sheet((2, 1, 1), [(0, 0, 1, 50), (0, 0, 1, 48)] + SQUARE[1:], [1, 96])
    assert twice.coefficients() == minus_one.coefficients()


def check_numbers():
    f, doubled, tables = field(97, 0), field(97, 1), field(12289, 0)
    assert Sheet(f, 2, 2, 14).n == 32
    assert refusal(lambda: Sheet(f, 2, 2, 15)) == (2, 0)
    assert Sheet(doubled, 2, 2, 15).n == 64
    assert Sheet(tables, 256, 256, 512).n == 2048
    assert refusal(lambda: Sheet(tables, 256, 256, 513)) == (1, 0)
    assert (root(f, 5), root(f, 6), root(doubled, 6)) == (28, None, doubled.top)
    assert doubled.mul((1, 1), (1, 1)) == (29, 2)
    assert doubled.inverse(doubled.top) == (0, 52)
    assert tables.inverse(11) == 5586


def check_doublings():
    """Polynomials in θ are the pairs by which a doubling is defined."""
    rng = Random(1)
    pairs = {(p, 1): Pairs(field(p, 0)) for p in (97, 12289)}
    pairs |= {(p, 2): Pairs(pairs[p, 1]) for p in (97, 12289)}
    for (p, doublings), by_pairs in pairs.items():
        f = field(p, doublings)
        assert by_pairs.coordinates(by_pairs.top) == f.top
        assert f.pow(f.top, 2 ** (f.adicity - 1)) == f.sub(f.zero, f.one)
        for _ in range(50):
            x, y = (tuple(rng.randrange(p) for _ in range(f.width)) for _ in range(2))
            a, b = by_pairs.from_coordinates(x), by_pairs.from_coordinates(y)
            assert by_pairs.coordinates(a) == x
            assert by_pairs.coordinates(by_pairs.add(a, b)) == f.add(x, y)
            assert by_pairs.coordinates(by_pairs.mul(a, b)) == f.mul(x, y)
            assert f.mul(x, f.inverse(x)) == f.one


def check():
    check_sheets()
    check_numbers()
    check_doublings()
