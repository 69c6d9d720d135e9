"""Constraint files (.r1cs) and assignment files (.wtns), written and read byte by byte. A reader reports the first fault by raising Refused(number, place)."""

from .sheets import Refused

LAYOUT, PRIME, TOO_LARGE, COUNT = 8, 9, 10, 11


def little(value, size):
    return value.to_bytes(size, "little")


def section(kind, payload):
    return little(kind, 4) + little(len(payload), 8) + payload


def framed(magic, version, sections):
    return magic + little(version, 4) + little(len(sections), 4) + b"".join(section(*s) for s in sections)


def list_bytes(items):
    return little(len(items), 4) + b"".join(little(wire, 4) + little(x, 8) for wire, x in items)


def constraint_header(prime, wires, outputs, inputs, private, labels, rows):
    return little(8, 4) + little(prime, 8) + b"".join(little(x, 4) for x in (wires, outputs, inputs, private)) + little(labels, 8) + little(rows, 4)


def constraint_file(header, rows, others=()):
    """`header` as the arguments of constraint_header, each row three lists of (wire, coefficient)."""
    body = b"".join(list_bytes(line) for row in rows for line in row)
    return framed(b"r1cs", 1, [(1, constraint_header(*header)), (2, body), *others])


def assignment_file(prime, values, others=()):
    header = little(8, 4) + little(prime, 8) + little(len(values), 4)
    return framed(b"wtns", 2, [(1, header), (2, b"".join(little(v, 8) for v in values)), *others])


class Bytes:
    """The bytes of a file, and numbers at places of them."""

    def __init__(self, data):
        self.data = data

    def number(self, at, size, fault):
        if at + size > len(self.data):
            raise Refused(*fault)
        return int.from_bytes(self.data[at : at + size], "little")

    def sections(self, magic, version):
        """Kind, its place, the payload's place and the place after it, of each section; magic, version, count, frames, end and kinds are checked."""
        if self.data[:4] != magic:
            raise Refused(LAYOUT, 0)
        if self.number(4, 4, (LAYOUT, 4)) != version:
            raise Refused(LAYOUT, 4)
        count = self.number(8, 4, (LAYOUT, 8))
        if count < 2:
            raise Refused(LAYOUT, 8)
        at, found = 12, []
        for _ in range(count):
            kind, size = self.number(at, 4, (LAYOUT, at)), self.number(at + 4, 8, (LAYOUT, at))
            if at + 12 + size > len(self.data):
                raise Refused(LAYOUT, at)
            found.append((kind, at, at + 12, at + 12 + size))
            at += 12 + size
        if at != len(self.data):
            raise Refused(LAYOUT, at)
        for i, (kind, place, _, _) in enumerate(found):
            if (i < 2 and kind != i + 1) or (i >= 2 and kind in (1, 2)):
                raise Refused(LAYOUT, place)
        return found

    def header(self, at, stop, size):
        if stop - at != size or self.number(at, 4, (LAYOUT, at)) != 8:
            raise Refused(LAYOUT, at)

    def prime(self, at, prime):
        if self.number(at, 8, (LAYOUT, at)) != prime:
            raise Refused(PRIME, at)


def read_constraints(data, prime):
    """The numbers of the header and the rows."""
    file = Bytes(data)
    (_, _, at, stop), (_, _, body, end), *_ = file.sections(b"r1cs", 1)
    file.header(at, stop, 40)
    file.prime(at + 4, prime)
    wires, outputs, inputs, private = (file.number(at + 12 + 4 * i, 4, None) for i in range(4))
    labels, rows = file.number(at + 28, 8, None), file.number(at + 36, 4, None)
    if 1 + outputs + inputs + private > wires:
        raise Refused(LAYOUT, at + 12)
    place, lists = body, []
    for _ in range(3 * rows):
        if place + 4 > end:
            raise Refused(LAYOUT, place)
        count = file.number(place, 4, None)
        if place + 4 + 12 * count > end:
            raise Refused(LAYOUT, place)
        items = []
        for item in range(place + 4, place + 4 + 12 * count, 12):
            wire, x = file.number(item, 4, None), file.number(item + 4, 8, None)
            if wire >= wires:
                raise Refused(TOO_LARGE, item)
            if x >= prime:
                raise Refused(TOO_LARGE, item + 4)
            items.append((wire, x))
        lists.append(items)
        place += 4 + 12 * count
    if place != end:
        raise Refused(LAYOUT, place)
    return (prime, wires, outputs, inputs, private, labels, rows), [lists[i : i + 3] for i in range(0, len(lists), 3)]


def read_assignment(data, prime, places):
    """The values, for a table of so many places."""
    if not 1 <= places <= 3072:
        raise Refused(5)
    file = Bytes(data)
    (_, _, at, stop), (_, _, body, end), *_ = file.sections(b"wtns", 2)
    file.header(at, stop, 16)
    count = file.number(at + 12, 4, None)
    if end - body != 8 * count:
        raise Refused(LAYOUT, body)
    file.prime(at + 4, prime)
    if count != places:
        raise Refused(COUNT, at + 12)
    values = []
    for i in range(count):
        v = file.number(body + 8 * i, 8, None)
        if v >= prime or (i == 0 and v != 1):
            raise Refused(TOO_LARGE, body + 8 * i)
        values.append(v)
    return values


def write_values(sheet, values, room):
    """The values of the square program's wires as an assignment file, for a buffer of so many bytes."""
    f = sheet.f
    if len(values) != sheet.columns:
        raise Refused(5)
    if values[0] != f.one:
        raise Refused(6)
    coordinates = [f.coordinates(x) for x in values]
    if any(any(cs[1:]) for cs in coordinates):
        raise Refused(12)
    file = assignment_file(f.p, [cs[0] for cs in coordinates])
    if room < len(file):
        raise Refused(13)
    return file
