"""Sheets, the model of a list of calls, and the square program by its two matrices."""

from collections import namedtuple

from .polynomials import Lagrange, divide, log2, product, subtract

TABLE = 2048

# The arguments of the calls; a table or buffer is told by its length.
Enter = namedtuple("Enter", "entries matrix row wire coefficient")
Assign = namedtuple("Assign", "values wire value")
Extend = namedtuple("Extend", "entries values out")
Quotient = namedtuple("Quotient", "entries values out work")
Public = namedtuple("Public", "values out")


class Refused(Exception):
    def __init__(self, number, at=0):
        super().__init__(number, at)
        self.number, self.at = number, at


def power_at_least(x):
    power = 1
    while power < x:
        power *= 2
    return power


class Sheet:
    """The model: the numbers, the entries and the values."""

    def __init__(self, f, m, l, rows):
        if not (1 <= m <= 2048 and 1 <= l <= 256 and l <= m and 0 <= rows <= 512):
            raise Refused(1)
        self.f, self.m, self.l, self.rows = f, m, l, rows
        self.k = power_at_least(2 * l)
        self.n = power_at_least(self.k + 2 * rows)
        self.columns = m + 2 * l + rows
        if log2(self.n) > f.adicity:
            raise Refused(2)
        self.entries = []
        self.values = [f.one] + [f.zero] * (m - 1)

    def call(self, c):
        """What the call owes, and what it writes."""
        if isinstance(c, Enter):
            return self.enter(c)
        if isinstance(c, Assign):
            return self.assign(c)
        lengths = {
            Extend: (TABLE, self.m, self.columns),
            Quotient: (TABLE, self.m, self.n - 1, self.columns + 4 * self.n),
            Public: (self.m, self.n),
        }[type(c)]
        if tuple(c) != lengths:
            raise Refused(5)
        return {Extend: self.extended, Quotient: self.quotient, Public: self.public}[type(c)]()

    def enter(self, c):
        if c.entries != TABLE:
            raise Refused(5)
        if c.matrix > 2 or c.row >= self.rows or c.wire >= self.m:
            raise Refused(3)
        if len(self.entries) >= TABLE:
            raise Refused(4)
        self.entries.append((c.matrix, c.row, c.wire, c.coefficient))

    def assign(self, c):
        if c.values != self.m:
            raise Refused(5)
        if c.wire == 0 or c.wire >= self.m:
            raise Refused(3)
        self.values[c.wire] = c.value

    def coefficients(self):
        """For each row its A, B and C, from wire to coefficient; what stands on one position is added up."""
        rows = [({}, {}, {}) for _ in range(self.rows)]
        for matrix, row, wire, x in self.entries:
            line = rows[row][matrix]
            line[wire] = self.f.add(line.get(wire, self.f.zero), x)
        return rows

    def first_failing_row(self):
        f = self.f
        for i, lines in enumerate(self.coefficients()):
            a, b, c = (total(f, line, self.values) for line in lines)
            if f.mul(a, b) != c:
                return i
        return None

    def program(self):
        return Program(self)

    def extended(self):
        return self.program().extended(self.values)

    def quotient(self):
        """The quotient by long division; there is one exactly where every row holds."""
        f, n, program = self.f, self.n, self.program()
        values = program.extended(self.values)
        u, w = (Lagrange.over(f, n).interpolate(row_values(f, side, values)) for side in (program.u, program.w))
        vanishing = [f.sub(f.zero, f.one)] + [f.zero] * (n - 1) + [f.one]
        h, rest = divide(f, subtract(f, product(f, u, u), w), vanishing)
        failing = self.first_failing_row()
        assert (failing is None) == all(c == f.zero for c in rest)
        if failing is not None:
            raise Refused(7, failing)
        assert len(h) == n - 1
        return h

    def public(self):
        """The columns of the public wires in U, each as a polynomial, times the wire's value."""
        f, program = self.f, self.program()
        result = [f.zero] * self.n
        for j in range(self.l):
            column = Lagrange.over(f, self.n).interpolate({r: row[j] for r, row in enumerate(program.u) if j in row})
            result = [f.add(x, f.mul(self.values[j], c)) for x, c in zip(result, column)]
        return result


def total(f, line, values):
    return f.dot(list(line.values()), [values[wire] for wire in line])


def row_values(f, matrix, values):
    return {r: total(f, row, values) for r, row in enumerate(matrix) if row}


class Program:
    """The square program of a sheet: row r says that (U_r · z)² = W_r · z, each row a map from wire to coefficient."""

    def __init__(self, sheet):
        f, m, l = sheet.f, sheet.m, sheet.l
        self.f, self.sheet = f, sheet
        self.u, self.w = [{} for _ in range(sheet.n)], [{} for _ in range(sheet.n)]
        step = sheet.n // sheet.k
        half = f.inverse(f.add(f.one, f.one))
        minus_half = f.sub(f.zero, half)
        self.p = lambda j: m + 2 * j
        self.q = lambda j: m + 2 * j + 1
        self.s = lambda i: m + 2 * l + i
        for j in range(l):
            self.u[2 * j * step] = self.sum((1, {j: half}), (1, {0: half}))
            self.w[2 * j * step] = {self.p(j): f.one}
            self.u[(2 * j + 1) * step] = self.sum((1, {j: half}), (1, {0: minus_half}))
            self.w[(2 * j + 1) * step] = {self.q(j): f.one}
        others = [r for r in range(sheet.n) if r % step != 0]
        for i, lines in enumerate(sheet.coefficients()):
            a, b, c = (self.without_public(line) for line in lines)
            self.u[others[2 * i]] = self.sum((1, a), (-1, b))
            self.w[others[2 * i]] = {self.s(i): f.one}
            self.u[others[2 * i + 1]] = self.sum((1, a), (1, b))
            self.w[others[2 * i + 1]] = self.sum((4, c), (1, {self.s(i): f.one}))
        self.others = others

    def sum(self, *parts):
        """Lines added up, each so many times; zero coefficients are left out."""
        f, made = self.f, {}
        for times, line in parts:
            for wire, x in line.items():
                made[wire] = f.add(made.get(wire, f.zero), f.mul(f.of(times), x))
        return {wire: x for wire, x in made.items() if x != f.zero}

    def without_public(self, line):
        """Each public wire j, wire 0 included, replaced by p_j − q_j."""
        f, parts = self.f, []
        for wire, x in line.items():
            if wire < self.sheet.l:
                parts += [(1, {self.p(wire): x}), (-1, {self.q(wire): x})]
            else:
                parts.append((1, {wire: x}))
        return self.sum(*parts)

    def extended(self, values):
        """The sheet's values, then p, q and s as their rows say."""
        f, sheet = self.f, self.sheet
        z = list(values) + [f.zero] * (sheet.columns - sheet.m)
        square_of_row = lambda r: f.pow(total(f, self.u[r], z), 2)
        step = sheet.n // sheet.k
        for j in range(sheet.l):
            z[self.p(j)] = square_of_row(2 * j * step)
            z[self.q(j)] = square_of_row((2 * j + 1) * step)
        for i in range(sheet.rows):
            z[self.s(i)] = square_of_row(self.others[2 * i])
        return z
