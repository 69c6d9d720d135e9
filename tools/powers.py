#!/usr/bin/env python3
"""Writes crates/powers/src/tables.rt: the powers of 11 modulo 12289 and their logarithms.

11 generates the 12288 elements other than zero. A constant has at most 10,000
expressions, so each table is two halves. Run from the root of the repository.
"""

PRIME = 12289
BASE = 11
HALF = (PRIME - 1) // 2
PER_LINE = 16

powers = [1]
while len(powers) < PRIME - 1:
    powers.append(powers[-1] * BASE % PRIME)

# At v - 1 stands the logarithm of v: zero has none.
logs = [0] * (PRIME - 1)
for exponent, value in enumerate(powers):
    logs[value - 1] = exponent


def constant(name, what, numbers):
    lines = [numbers[i : i + PER_LINE] for i in range(0, len(numbers), PER_LINE)]
    rows = "\n".join("    " + " ".join(f"{n}," for n in line) for line in lines)
    return f"""
// {what}
#[rattlefmt::skip]
pub(crate) const {name}: [u16; {len(numbers)}] = [
{rows}
];
"""


with open("crates/powers/src/tables.rt", "w") as file:
    file.write("// Written by tools/powers.py: each table in two halves, since one constant has at most 10,000 expressions.\n")
    file.write(constant("POWERS_LOW", f"11 to the 0, .., {HALF - 1}.", powers[:HALF]))
    file.write(constant("POWERS_HIGH", f"11 to the {HALF}, .., {PRIME - 2}.", powers[HALF:]))
    file.write(constant("LOGS_LOW", f"The logarithms of 1, .., {HALF}.", logs[:HALF]))
    file.write(constant("LOGS_HIGH", f"The logarithms of {HALF + 1}, .., {PRIME - 1}.", logs[HALF:]))
