"""Polynomials as lists of coefficients, lowest first: interpolation by Lagrange's formula, products and long division."""

from .fields import root


def log2(n):
    return n.bit_length() - 1


def points(f, n):
    """The powers of the root of the order n."""
    w = root(f, log2(n))
    xs = [f.one]
    while len(xs) < n:
        xs.append(f.mul(xs[-1], w))
    return xs


def times_linear(f, poly, x):
    """poly · (X − x)"""
    shifted, scaled = [f.zero] + poly, [f.mul(x, c) for c in poly] + [f.zero]
    return [f.sub(a, b) for a, b in zip(shifted, scaled)]


def over_linear(f, poly, x):
    """poly / (X − x), which leaves nothing."""
    quotient, carried = [], f.zero
    for c in reversed(poly):
        carried = f.add(c, f.mul(carried, x))
        quotient.append(carried)
    assert quotient.pop() == f.zero
    return quotient[::-1]


def value_at(f, poly, x):
    value = f.zero
    for c in reversed(poly):
        value = f.add(f.mul(value, x), c)
    return value


class Lagrange:
    """The polynomials that are one at one of the n points and zero at the others."""

    _made = {}

    def __init__(self, f, n):
        self.f, self.n, self.xs, self.basis = f, n, points(f, n), {}
        self.all = [f.one]
        for x in self.xs:
            self.all = times_linear(f, self.all, x)

    @classmethod
    def over(cls, f, n):
        if (f, n) not in cls._made:
            cls._made[f, n] = cls(f, n)
        return cls._made[f, n]

    def element(self, r):
        if r in self.basis:
            return self.basis[r]
        f, x = self.f, self.xs[r]
        others = over_linear(f, self.all, x)
        scale = f.inverse(value_at(f, others, x))
        made = [f.mul(scale, c) for c in others]
        if len(self.basis) < 1024:
            self.basis[r] = made
        return made

    def interpolate(self, values):
        """The polynomial of degree below n with these values, told by the number of the point; it is zero at the others."""
        f = self.f
        rows = [(v, self.element(r)) for r, v in values.items() if v != f.zero]
        vs = [v for v, _ in rows]
        if not rows:
            return [f.zero] * self.n
        return [f.dot(vs, column) for column in zip(*(row for _, row in rows))]


def product(f, a, b):
    backward = b[::-1]
    made = []
    for e in range(len(a) + len(b) - 1):
        low, high = max(0, e - len(b) + 1), min(e, len(a) - 1)
        made.append(f.dot(a[low : high + 1], backward[len(b) - 1 - e + low : len(b) - e + high]))
    return made


def subtract(f, a, b):
    size = max(len(a), len(b))
    pad = lambda c: c + [f.zero] * (size - len(c))
    return [f.sub(x, y) for x, y in zip(pad(a), pad(b))]


def divide(f, a, b):
    """Quotient and remainder by long division; b's leading coefficient is one."""
    assert b[-1] == f.one
    rest, quotient = list(a), [f.zero] * max(0, len(a) - len(b) + 1)
    terms = [(i, c) for i, c in enumerate(b[:-1]) if c != f.zero]
    for e in range(len(quotient) - 1, -1, -1):
        lead = rest[e + len(b) - 1]
        quotient[e], rest[e + len(b) - 1] = lead, f.zero
        for i, c in terms:
            rest[e + i] = f.sub(rest[e + i], f.mul(lead, c))
    return quotient, rest
