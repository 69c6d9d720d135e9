"""Files for the C entry with the answers that they must get: c_entry.py HOST DIRECTORY

The quotient is worked out here from its definition: u takes the left sums of the square
program's rows at the powers of the root, and the quotient is the upper part of u squared.
"""

import os
import random
import subprocess
import sys

# the root of the largest order 2^s, and s
TOPS = {97: (28, 5), 12289: (1331, 12)}


def little(v, n):
    return v.to_bytes(n, "little")


def section(kind, payload):
    return little(kind, 4) + little(len(payload), 8) + payload


def file(magic, version, sections):
    return magic + little(version, 4) + little(len(sections), 4) + b"".join(sections)


def circuit(p, m, l, rows):
    header = little(8, 4) + little(p, 8) + little(m, 4) + little(0, 4) + little(l - 1, 4)
    header += little(0, 4) + little(m, 8) + little(len(rows), 4)
    body = b""
    for row in rows:
        for items in row:
            body += little(len(items), 4)
            for wire, c in items:
                body += little(wire, 4) + little(c, 8)
    return file(b"r1cs", 1, [section(1, header), section(2, body)])


def witness(p, values):
    header = little(8, 4) + little(p, 8) + little(len(values), 4)
    return file(b"wtns", 2, [section(1, header), section(2, b"".join(little(v, 8) for v in values))])


def least_power(x):
    y = 1
    while y < x:
        y *= 2
    return y


def quotient(p, l, rows, z):
    k = least_power(2 * l)
    n = least_power(k + 2 * len(rows))
    top, s = TOPS[p]
    root = pow(top, 2 ** (s - n.bit_length() + 1), p)
    half = pow(2, -1, p)
    sums = [[sum(c * z[w] for w, c in items) for items in row[:2]] for row in rows]
    public = [half * (z[t // 2] + (z[0] if t % 2 == 0 else -z[0])) for t in range(2 * l)]
    product = [sums[t // 2][0] + (sums[t // 2][1] if t % 2 else -sums[t // 2][1]) for t in range(2 * len(rows))]
    left, others = [], 0
    for r in range(n):
        if r % (n // k) == 0:
            t = r // (n // k)
            left.append(public[t] if t < len(public) else 0)
        else:
            left.append(product[others] if others < len(product) else 0)
            others += 1
    powers = [pow(root, -e, p) for e in range(n)]
    inverse = pow(n, -1, p)
    u = [inverse * sum(left[r] * powers[e * r % n] for r in range(n)) % p for e in range(n)]
    return [sum(u[i] * u[e - i] for i in range(e - n + 1, n)) % p for e in range(n, 2 * n - 1)]


def granted(p, l, rows, z):
    return "answer 0\n" + " ".join(map(str, quotient(p, l, rows, z))) + "\nrest untouched\n"


def refused(number):
    return f"answer {number}\nbuffer untouched\n"


def with_byte(xs, at, b):
    return xs[:at] + bytes([b]) + xs[at + 1 :]


# x x = 1 with x on wire 1
SQUARE = [([(1, 1)], [(1, 1)], [(0, 1)])]


def random_sheet(p, m, l, count, rng):
    """Rows at random that hold: of the four items of each, the last is a multiple of wire 0 that makes it hold."""
    z = [1] + [rng.randrange(p) for _ in range(m - 1)]
    rows = []
    for _ in range(count):
        a, b = ([(rng.randrange(m), rng.randrange(p))] for _ in range(2))
        product = a[0][1] * z[a[0][0]] * b[0][1] * z[b[0][0]]
        wire = rng.randrange(m)
        rows.append((a, b, [(wire, 1), (0, (product - z[wire]) % p)]))
    return rows, z


def cases():
    f97 = circuit(97, 2, 1, SQUARE)
    f12289 = circuit(12289, 2, 1, SQUARE)
    good = witness(97, [1, 96])
    yield "x x = 1", f97, good, None, "answer 0\n80 29 72\nrest untouched\n"
    yield "x x = 1, by the definition", f97, good, None, granted(97, 1, SQUARE, [1, 96])
    yield "no row", circuit(97, 1, 1, []), witness(97, [1]), None, "answer 0\n73\nrest untouched\n"
    yield "over 12289", f12289, witness(12289, [1, 12288]), None, granted(12289, 1, SQUARE, [1, 12288])
    yield "a row fails", f97, witness(97, [1, 5]), None, refused(7)
    yield "a row fails over 12289", f12289, witness(12289, [1, 5]), None, refused(7)

    yield "room to the byte", f97, good, 24, granted(97, 1, SQUARE, [1, 96])
    yield "a byte short", f97, good, 23, refused(13)
    yield "no room", f97, good, 0, refused(13)
    yield "a byte short, and a row fails", f97, witness(97, [1, 5]), 23, refused(13)
    yield "no room, and a damaged assignment", f97, with_byte(good, 0, 0), 0, refused(8)

    yield "no byte", b"", b"", None, refused(8)
    yield "magic", with_byte(f97, 0, 0), good, None, refused(8)
    yield "cut off", f97[:-1], good, None, refused(8)
    yield "a byte too many", f97 + b"\0", good, None, refused(8)
    yield "another prime", circuit(101, 2, 1, SQUARE), good, None, refused(9)
    yield "damaged under the other prime", f12289[:-1], good, None, refused(8)
    yield "a large coefficient", circuit(97, 2, 1, [([(1, 97)], [], [])]), good, None, refused(10)
    yield "a large coefficient over 12289", circuit(12289, 2, 1, [([(1, 12289)], [], [])]), good, None, refused(10)
    yield "a wire too many", circuit(97, 2, 1, [([(2, 1)], [], [])]), good, None, refused(10)

    yield "too many wires", circuit(97, 2049, 1, []), good, None, refused(1)
    yield "too many public wires", circuit(12289, 600, 257, []), good, None, refused(1)
    yield "too many rows", circuit(12289, 2, 1, [([], [], [])] * 513), good, None, refused(1)
    yield "no root", circuit(97, 2, 1, [([], [], [])] * 16), good, None, refused(2)
    yield "too many items", circuit(12289, 2, 1, [([(1, 0)] * 2049, [], [])]), good, None, refused(4)
    full = [([(1, 0)] * 2048, [], [])]
    yield "the largest count of items", circuit(12289, 2, 1, full), witness(12289, [1, 3]), None, granted(12289, 1, full, [1, 3])

    yield "assignment: magic", f97, with_byte(good, 0, 0), None, refused(8)
    yield "assignment: cut off", f97, good[:-1], None, refused(8)
    yield "assignment: another prime", f97, witness(12289, [1, 96]), None, refused(9)
    yield "assignment: a value too few", f97, witness(97, [1]), None, refused(11)
    yield "assignment: a value too many", f97, witness(97, [1, 96, 0]), None, refused(11)
    yield "assignment: first value", f97, witness(97, [2, 96]), None, refused(10)
    yield "assignment: a large value", f97, witness(97, [1, 97]), None, refused(10)

    rng = random.Random(1)
    for p, m, l, count in [(97, 5, 2, 3), (97, 20, 8, 8), (12289, 40, 10, 30), (12289, 2048, 256, 512)]:
        rows, z = random_sheet(p, m, l, count, rng)
        n = least_power(least_power(2 * l) + 2 * count)
        name = f"{p}: {m} wires, {l} public, {count} rows"
        yield name, circuit(p, m, l, rows), witness(p, z), 8 * (n - 1), granted(p, l, rows, z)
        yield name + ", a byte short", circuit(p, m, l, rows), witness(p, z), 8 * (n - 1) - 1, refused(13)
        a, b, [first, (wire, c)] = rows[-1]
        wrong = rows[:-1] + [(a, b, [first, (wire, (c + 1) % p)])]
        yield name + ", the last row fails", circuit(p, m, l, wrong), witness(p, z), None, refused(7)


def main():
    host, directory = sys.argv[1:]
    paths = [os.path.join(directory, name) for name in ("circuit", "witness")]
    passed = failed = 0
    for name, xs, ws, room, expected in cases():
        for path, contents in zip(paths, (xs, ws)):
            with open(path, "wb") as f:
                f.write(contents)
        command = [host, *paths] + ([] if room is None else [str(room)])
        got = subprocess.run(command, stdout=subprocess.PIPE, text=True, check=True).stdout
        if got == expected:
            passed += 1
        else:
            failed += 1
            print(f"{name}: expected {expected!r}, got {got!r}")
    print(f"c entry: {passed} passed, {failed} failed")
    sys.exit(failed != 0)


main()
