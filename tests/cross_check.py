#!/usr/bin/env python3
"""Compares the program `batch` with the reference under tests/reference/, case by case and byte for byte.

    tests/cross_check.py [--batch PROGRAM] [--seed SEED] [--scale FACTOR]

The cases are the same for the same seed. It ends with status 1 at the first difference, and prints that case.
"""

import argparse
import re
import subprocess
import sys
import tempfile
from collections import Counter
from pathlib import Path
from random import Random

sys.dont_write_bytecode = True
from reference import worked
from reference.cases import Survey
from reference.random_files import assignment_files, constraint_files, every_truncation, full_assignments
from reference.random_sheets import edge_surveys, full_table, large_surveys, random_surveys, value_files

ROOT = Path(__file__).resolve().parent.parent


def all_cases(rng, scale):
    yield from every_truncation(rng)
    yield from constraint_files(rng, int(8000 * scale))
    yield from full_assignments(rng)
    yield from assignment_files(rng, int(6000 * scale))
    yield from edge_surveys()
    yield from full_table(rng)
    yield from large_surveys(rng)
    yield from random_surveys(rng, int(5000 * scale))
    yield from value_files(rng, int(2000 * scale))


def built(crate):
    subprocess.run([ROOT / "tests/build", "run", crate], check=True)
    return str(ROOT / "crates" / crate / "out" / crate)


def answers(program, cases):
    """What the program prints, a line for each case."""
    with tempfile.NamedTemporaryFile(prefix="cases-") as file:
        for case in cases:
            file.write(case.bytes())
        file.flush()
        run = subprocess.run([program, file.name], stdout=subprocess.PIPE, timeout=600)
    lines = run.stdout.decode().split("\n")
    assert lines.pop() == "", "the last line is cut off"
    return lines, run.returncode


def differs(case, expected, found):
    print(f"difference at {case.title}: {case.name}", file=sys.stderr)
    print(f"case     {case.bytes().hex()}", file=sys.stderr)
    print(f"expected {expected}", file=sys.stderr)
    print(f"found    {found}", file=sys.stderr)
    sys.exit(1)


def outcomes(text):
    """The number of each refusal, and 0 for what was granted."""
    return [int(number or 0) for number in re.findall(r"granted|refused (\d+)", text)]


def count(counts, case, line):
    """How many cases there were of a kind, and for lists of calls also how many calls and quotients."""
    counts.setdefault(case.title, Counter()).update(outcomes(line)[:1])
    if isinstance(case, Survey) and line.startswith("granted"):
        _, listed, _, quotient, _ = line.split(" |")
        counts.setdefault("listed calls", Counter()).update(outcomes(listed))
        counts.setdefault("quotients at the end of them", Counter()).update(outcomes(quotient))


def print_counts(counts):
    for title, numbers in counts.items():
        refused = ", ".join(f"{n} refused with {number}" for number, n in sorted(numbers.items()) if number != 0)
        print(f"{title}: {sum(numbers.values())} as said, {numbers[0]} granted" + (", " if refused else "") + refused)


def main():
    parser = argparse.ArgumentParser()
    parser.add_argument("--batch", help="the program; without it the crate batch is built")
    parser.add_argument("--seed", type=int, default=20240229)
    parser.add_argument("--scale", type=float, default=1.0)
    args = parser.parse_args()
    worked.check()
    program = args.batch or built("batch")
    cases = list(all_cases(Random(args.seed), args.scale))
    lines, status = answers(program, cases)
    counts = {}
    for case, found in zip(cases, lines + [None] * (len(cases) - len(lines))):
        expected = case.line()
        if found != expected:
            differs(case, expected, found)
        count(counts, case, expected)
    if status != 0 or len(lines) != len(cases):
        sys.exit(f"{program} ended with status {status} after {len(lines)} lines of {len(cases)}")
    print_counts(counts)


if __name__ == "__main__":
    main()
