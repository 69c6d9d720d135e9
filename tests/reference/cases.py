"""Cases for the program `batch`: how each is written down, and the line that it must be answered with.

A case is its kind and the size of its payload (4 bytes each), then the payload. All numbers are little-endian, of 4 bytes unless said.

kind 1   prime (8 bytes), then a constraint file
kind 2   field, length of the table, then an assignment file
kind 3   field, m, l, N, misfits, count of calls, then the calls
kind 4   field, m, l, N, length of the buffer, count of values, then the values

A field is its prime and how often it is doubled. An element is the count of its coordinates, then these. Misfits tell by a bit each which of the lent tables and buffers
are a place too long. A call is its number and its arguments: 0 enter, 1 assign, 2 extend, 3 quotient, 4 public.
"""

from .fields import field
from .files import little, read_assignment, read_constraints, write_values
from .sheets import Assign, Enter, Extend, Public, Quotient, Refused, Sheet

CALLS = (Enter, Assign, Extend, Quotient, Public)


def words(*numbers):
    return b"".join(little(x, 4) for x in numbers)


def element(f, x):
    cs = f.coordinates(x)
    return words(len(cs), *cs)


def call_bytes(f, call):
    number = CALLS.index(type(call))
    if number < 2:
        return words(number, *call[:-1]) + element(f, call[-1])
    return words(number, *call)


def shown(f, xs):
    return "".join(" " + ",".join(map(str, f.coordinates(x))) for x in xs)


def refused(e):
    return f"refused {e.number} {e.at}"


class Case:
    """`payload` and `answer` make a case; `name` says what it was made for."""

    def bytes(self):
        payload = self.payload()
        return words(self.kind, len(payload)) + payload

    def line(self):
        try:
            return self.answer()
        except Refused as e:
            return refused(e)


class ConstraintFile(Case):
    kind, title = 1, "constraint files"

    def __init__(self, name, prime, data):
        self.name, self.prime, self.data = name, prime, data

    def payload(self):
        return little(self.prime, 8) + self.data

    def answer(self):
        header, rows = read_constraints(self.data, self.prime)
        lists = "".join(" |" + "".join("".join(f" {w}:{x}" for w, x in line) + ";" for line in row) for row in rows)
        return "granted " + " ".join(map(str, header)) + lists


class AssignmentFile(Case):
    kind, title = 2, "assignment files"

    def __init__(self, name, prime, doublings, places, data):
        self.name, self.prime, self.doublings, self.places, self.data = name, prime, doublings, places, data

    def payload(self):
        return words(self.prime, self.doublings, self.places) + self.data

    def answer(self):
        f = field(self.prime, self.doublings)
        return "granted" + shown(f, map(f.of, read_assignment(self.data, self.prime, self.places)))


class Survey(Case):
    kind, title = 3, "lists of calls"

    def __init__(self, name, prime, doublings, shape, calls, misfits=0):
        self.name, self.prime, self.doublings, self.shape, self.calls, self.misfits = name, prime, doublings, shape, calls, misfits

    def payload(self):
        f = field(self.prime, self.doublings)
        return words(self.prime, self.doublings, *self.shape, self.misfits, len(self.calls)) + b"".join(call_bytes(f, c) for c in self.calls)

    def answer(self):
        f = field(self.prime, self.doublings)
        sheet = Sheet(f, *self.shape)
        if self.misfits:
            raise Refused(5)
        answers = "".join(" " + told(lambda: answered(sheet, c)) for c in self.calls)
        results = [told(lambda: shown(f, result())) for result in (sheet.extended, sheet.quotient, sheet.public)]
        return f"granted {sheet.n} {sheet.k} {sheet.columns} {len(sheet.entries)} |{answers}" + "".join(" | " + r for r in results)


def answered(sheet, call):
    """What a listed call writes goes to a buffer that nobody looks at."""
    sheet.call(call)
    return ""


def told(make):
    try:
        return "granted" + make()
    except Refused as e:
        return refused(e)


class ValueFile(Case):
    kind, title = 4, "value files"

    def __init__(self, name, prime, doublings, shape, room, values):
        self.name, self.prime, self.doublings, self.shape, self.room, self.values = name, prime, doublings, shape, room, values

    def payload(self):
        f = field(self.prime, self.doublings)
        return words(self.prime, self.doublings, *self.shape, self.room, len(self.values)) + b"".join(element(f, x) for x in self.values)

    def answer(self):
        written = write_values(Sheet(field(self.prime, self.doublings), *self.shape), self.values, self.room)
        return f"granted {len(written)} " + (written + b"\xaa" * (self.room - len(written))).hex()
