"""The text of two files, from their bytes."""

from .cases import refused, shown
from .fields import field
from .files import read_assignment, read_constraints
from .sheets import TABLE, Assign, Enter, Refused, Sheet

LONGEST = 65536


def short_enough(data):
    if len(data) > LONGEST:
        raise Refused(5)
    return data


def opened(data):
    """Over 97, and over 12289 where 97 is the wrong prime."""
    short_enough(data)
    try:
        return read_constraints(data, 97)
    except Refused as e:
        if e.number != 9:
            raise
    return read_constraints(data, 12289)


def smallest_sheet(prime, *shape):
    """An empty sheet over the field with the fewest doublings that has the subgroup, and how many these are."""
    for doublings in (0, 1, 2):
        try:
            return Sheet(field(prime, doublings), *shape), doublings
        except Refused as e:
            if e.number != 2 or doublings == 2:
                raise


def loaded(header, rows):
    """The sheet of a circuit, every item of it entered."""
    prime, wires, outputs, inputs, _, _, _ = header
    sheet, doublings = smallest_sheet(prime, wires, 1 + outputs + inputs, len(rows))
    items = [Enter(TABLE, matrix, i, wire, sheet.f.of(x)) for i, row in enumerate(rows) for matrix, line in enumerate(row) for wire, x in line]
    if len(items) > TABLE:
        raise Refused(4)
    for item in items:
        sheet.call(item)
    return sheet, doublings


def filled(circuit, witness):
    sheet, doublings = loaded(*opened(circuit))
    for wire, v in enumerate(read_assignment(short_enough(witness), sheet.f.p, sheet.m)):
        if wire > 0:
            sheet.call(Assign(sheet.m, wire, sheet.f.of(v)))
    return sheet, doublings


def lines(circuit, witness):
    try:
        sheet, doublings = filled(circuit, witness)
    except Refused as e:
        return [refused(e)]
    start = [f"field {sheet.f.p} {doublings}", f"rows {sheet.n} {sheet.k}"]
    try:
        return start + ["quotient" + shown(sheet.f, sheet.quotient()), "public" + shown(sheet.f, sheet.public())]
    except Refused as e:
        return start + [refused(e)]


def text(circuit, witness):
    return "".join(line + "\n" for line in lines(circuit, witness))
