"""Fields by coordinates: prime fields, and their doublings as polynomials in θ.

Doubling adjoins a square root θ of the top of the field below, and θ is the top of the new field. So after d doublings of the field of p elements with
top T, θ^(2^d) = T, and an element is a polynomial in θ of degree below 2^d; coordinate i is its coefficient at θ^i.
Over a prime field an element is an int, over a doubled one a tuple of ints.
"""


class Prime:
    width = 1

    def __init__(self, p, top, adicity):
        self.p, self.top, self.adicity = p, top, adicity
        self.zero, self.one = 0, 1

    def of(self, v):
        """The v-fold sum of one."""
        return v % self.p

    def coordinates(self, x):
        return (x,)

    def from_coordinates(self, cs):
        return cs[0]

    def add(self, x, y):
        return (x + y) % self.p

    def sub(self, x, y):
        return (x - y) % self.p

    def mul(self, x, y):
        return x * y % self.p

    def dot(self, xs, ys):
        return sum(x * y for x, y in zip(xs, ys)) % self.p

    def pow(self, x, e):
        return pow(x, e, self.p)

    def inverse(self, x):
        if x == 0:
            raise ZeroDivisionError
        return pow(x, self.p - 2, self.p)


class Doubled:
    def __init__(self, p, top, adicity, doublings):
        self.p, self.lowest_top = p, top
        self.width = 2**doublings
        self.adicity = adicity + doublings
        self.zero = (0,) * self.width
        self.one = self.of(1)
        self.top = (0, 1) + (0,) * (self.width - 2)

    def of(self, v):
        return (v % self.p,) + (0,) * (self.width - 1)

    def coordinates(self, x):
        return x

    def from_coordinates(self, cs):
        return tuple(cs)

    def add(self, x, y):
        return tuple((a + b) % self.p for a, b in zip(x, y))

    def sub(self, x, y):
        return tuple((a - b) % self.p for a, b in zip(x, y))

    def _reduced(self, long):
        w, p, top = self.width, self.p, self.lowest_top
        return tuple((long[i] + top * (long[i + w] if i + w < len(long) else 0)) % p for i in range(w))

    def mul(self, x, y):
        return self.dot((x,), (y,))

    def dot(self, xs, ys):
        long = [0] * (2 * self.width - 1)
        for x, y in zip(xs, ys):
            for i, a in enumerate(x):
                if a:
                    for j, b in enumerate(y):
                        long[i + j] += a * b
        return self._reduced(long)

    def pow(self, x, e):
        result = self.one
        while e:
            if e & 1:
                result = self.mul(result, x)
            x = self.mul(x, x)
            e >>= 1
        return result

    def inverse(self, x):
        if x == self.zero:
            raise ZeroDivisionError
        return self.pow(x, self.p**self.width - 2)


PRIMES = {97: (28, 5), 12289: (1331, 12)}
_made = {}


def field(p, doublings):
    """The field of p elements, doubled so often."""
    if (p, doublings) not in _made:
        top, adicity = PRIMES[p]
        _made[p, doublings] = Prime(p, top, adicity) if doublings == 0 else Doubled(p, top, adicity, doublings)
    return _made[p, doublings]


def root(f, e):
    """The root of one of the order 2^e, or None."""
    return f.pow(f.top, 2 ** (f.adicity - e)) if e <= f.adicity else None


class Pairs:
    """The doubling of any field of this shape as pairs (a, b), standing for a + bθ, by its definition: what `Doubled` is held to."""

    def __init__(self, lower):
        self.lower = lower
        self.zero, self.one = (lower.zero, lower.zero), (lower.one, lower.zero)
        self.top = (lower.zero, lower.one)

    def add(self, x, y):
        return self.lower.add(x[0], y[0]), self.lower.add(x[1], y[1])

    def mul(self, x, y):
        f, (a, b), (c, d) = self.lower, x, y
        return f.add(f.mul(a, c), f.mul(f.top, f.mul(b, d))), f.add(f.mul(a, d), f.mul(b, c))

    def coordinates(self, x):
        a, b = self.lower.coordinates(x[0]), self.lower.coordinates(x[1])
        return tuple((a, b)[i % 2][i // 2] for i in range(2 * len(a)))

    def from_coordinates(self, cs):
        return self.lower.from_coordinates(cs[0::2]), self.lower.from_coordinates(cs[1::2])
