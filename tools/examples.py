#!/usr/bin/env python3
"""Writes examples/NAME/{circuit.r1cs,witness.wtns,expected.txt}, and the files that the program sapsheet is run on when it is checked.

The texts come from the reference under tests/reference, not from the program. tests/examples.sh compares the two.
"""

import sys
from pathlib import Path

ROOT = Path(__file__).resolve().parent.parent
sys.dont_write_bytecode = True
sys.path.insert(0, str(ROOT / "tests"))
from reference.files import assignment_file, constraint_file, little
from reference.texts import text


class Circuit:
    """Values on wires, wire 0 being one and the next ones public, and rows A · B = C, each side a map from wire to coefficient."""

    def __init__(self, prime, publics, values, rows):
        self.prime, self.publics, self.values, self.rows = prime, publics, values, rows

    def constraints(self):
        wires = len(self.values)
        header = (self.prime, wires, 0, self.publics - 1, wires - self.publics, wires, len(self.rows))
        return constraint_file(header, [[sorted(side.items()) for side in row] for row in self.rows])

    def assignment(self):
        return assignment_file(self.prime, self.values)


def square(x):
    """x · x = 1, with x on wire 1."""
    return Circuit(97, 1, [1, x], [({1: 1}, {1: 1}, {0: 1})])


def squarings(rows):
    """Over 97: wire 2 is 3, each later wire the square of the one before, and the last square is public, on wire 1."""
    squares = [pow(3, 2**i, 97) for i in range(rows + 1)]
    squared = [*range(3, rows + 2), 1]
    return Circuit(97, 2, [1, squares[rows], *squares[:rows]], [({i + 2: 1}, {i + 2: 1}, {squared[i]: 1}) for i in range(rows)])


def products(prime, publics, rows):
    """All wires are public. Row i is (i + 1)x · y = z + c, with wires x, y and z here and there, and the c that makes it hold: four items a row."""
    values = [1] + [(7 * j * j + 3) % prime for j in range(1, publics)]
    made = []
    for i in range(rows):
        x, y, z = (1 + (step * i + step) % (publics - 1) for step in (1, 5, 11))
        c = (i + 1) * values[x] * values[y] - values[z]
        made.append(({x: i + 1}, {y: 1}, {0: c % prime, z: 1}))
    return Circuit(prime, publics, values, made)


EXAMPLES = {
    "square": square(96),
    "failing": square(5),
    "no_rows": Circuit(97, 1, [1], []),
    "two_publics": Circuit(97, 2, [1, 9, 3], [({2: 1}, {2: 1}, {1: 1})]),
    "fourteen_rows": squarings(14),
    "fifteen_rows": squarings(15),
    "thirty_one_rows": squarings(31),
    "too_many_rows": squarings(63),
    "large": products(12289, 256, 512),
}


def damaged(circuit):
    """The first list says that it has five items, which its section cannot hold. Its count stands behind the start, the header's section and a section's head."""
    data = circuit.constraints()
    at = 12 + (12 + 40) + 12
    return data[:at] + little(5, 4) + data[at + 4 :]


def write(name, circuit, witness):
    folder = ROOT / "examples" / name
    folder.mkdir(parents=True, exist_ok=True)
    (folder / "circuit.r1cs").write_bytes(circuit)
    (folder / "witness.wtns").write_bytes(witness)
    (folder / "expected.txt").write_text(text(circuit, witness))


def write_checked_run(circuit, witness):
    """What the program is run on, without arguments, whenever it is proved and built."""
    data = ROOT / "crates/sapsheet/data"
    data.mkdir(exist_ok=True)
    (data / "circuit.r1cs").write_bytes(circuit)
    (data / "witness.wtns").write_bytes(witness)
    (ROOT / "crates/sapsheet/stdout").write_text(text(circuit, witness))


def main():
    for name, circuit in EXAMPLES.items():
        write(name, circuit.constraints(), circuit.assignment())
    first = EXAMPLES["square"]
    write("damaged", damaged(first), first.assignment())
    write_checked_run(first.constraints(), first.assignment())


if __name__ == "__main__":
    main()
