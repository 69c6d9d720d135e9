#!/usr/bin/env python3
"""Lists the places in crates/*/src that read like an older language, by the points of docs/DESIGN-PASS.md.

tools/places.py [-v]    counts for each point and pattern; with -v each place too
"""
import glob
import re
import sys
from collections import defaultdict

# point, what is looked for, the pattern
PATTERNS = [
    (1, "a refusal handled as its number", r"reason\.number\(\) ==|=> e\.reason\.number\(\)|reason => reason\.number\(\)|Refusal::\w+\.number\(\)"),
    (1, "a value that tells nothing", r"-> u8$"),
    (1, "a number for a matrix, a kind, a flag or doublings", r"\b(matrix|kind|bit|doublings): u(8|32)\b"),
    (1, "an Option or a Result taken apart by hand", r"None => (None|Err\(|F::zero|unreachable|false)|Err\(_\) => |Some\(_\) => "),
    (1, "an else that only hands a failure on", r"let (?:Some|Ok)\([^=]*?= [^;{}]*? else \{\s*return (?:None|false|Err\()"),
    (1, "a bool that means refused", r"fn read_\w+[^{;]*-> bool"),
    (1, "a record as a tuple of numbers", r"\((?:usize, ){3,}"),
    (2, "a macro in place of a type parameter", r"macro_rules!"),
    (3, "a loop by hand", r"^[ ]*while [^\n]*"),
    (3, "an index loop", r"for \w+ in [^\n{]*\.\.[^\n{]*"),
    (4, "a number put together from bytes by index", r"from_le_bytes\(\[\s*bytes|\* 4294967296"),
    (4, "a digit by its code", r"\b48 \+"),
    (4, "printing by hand", r"fn (?:print|show)_(?:refused|answer|element|elements|bytes|header|head)\b|fn (?:show|tell)\b"),
    (4, "a number for each variant", r"^ *Refusal::\w+ => \d+,"),
    (6, "a buffer with a place or a length beside it", r"\b(?:at|from|header_at|body_at|prime_at): usize|used: &\[Entry"),
    (6, "a table filled first and written later", r"= filled\("),
    (7, "a switch on a number", r"match (?:kind|which|matrix|i) \{|if doublings == |if i == 0"),
]


def sources():
    for f in sorted(glob.glob("crates/*/src/**/*.rt", recursive=True)):
        if not f.endswith("tables.rt"):
            yield f, re.sub(r"//[^\n]*", "", open(f).read())


def line(text, at):
    return text.count("\n", 0, at) + 1


def functions():
    head = re.compile(r"^( *)(?:pub(?:\(crate\))? )?(?:extern \"C\" )?fn (\w+)", re.M)
    for f, text in sources():
        for m in head.finditer(text):
            end = re.compile(r"^%s\}" % m.group(1), re.M).search(text, m.end())
            whole = text[m.start() : end.end() if end else len(text)]
            yield f, line(text, m.start()), m.group(2), whole


def shape(whole):
    """The function with numbers, types and names told apart by their order alone."""
    code = re.sub(r"^ *(requires|ensures)[^\n]*\n", "", whole, flags=re.M)
    names = {}
    out = []
    for t in re.findall(r"[A-Za-z_]\w*|\d\w*|[^\s\w]", code):
        if re.match(r"\d", t):
            out.append("N")
        elif re.match(r"[A-Z]|u\d+$|usize$", t):
            out.append("T")
        elif re.match(r"(fn|pub|let|mut|if|else|match|for|in|return|while|self|crate)$", t):
            out.append(t)
        elif re.match(r"[a-z_]", t):
            out.append(str(names.setdefault(t, len(names))))
        else:
            out.append(t)
    return " ".join(out)


def twins():
    groups = defaultdict(list)
    for f, n, name, whole in functions():
        s = shape(whole)
        if len(s.split()) >= 24:
            groups[s].append(f"{f}:{n} {name}")
    return [g for g in groups.values() if len(g) > 1]


def repeated_clauses():
    count = defaultdict(list)
    for f, n, name, whole in functions():
        for c in re.findall(r"requires(?: \w+)? (\{[^\n]*\})", whole):
            count[c].append(f"{f}:{n} {name}")
    return {c: p for c, p in count.items() if len(p) >= 3}


def many_parameters():
    for f, n, name, whole in functions():
        m = re.match(r"[^(]*?(?:<[^(]*>)?\((.*?)\)\s*(?:->|\n|\{|where)", whole, re.S)
        ps = [p for p in re.split(r",(?![^<]*>)(?![^\[]*\])", m.group(1)) if ":" in p] if m else []
        if len(ps) >= 6:
            yield f"{f}:{n} {name} ({len(ps)})"


def main():
    verbose = "-v" in sys.argv
    rows = []
    for point, what, pattern in PATTERNS:
        places = []
        for f, text in sources():
            for m in re.finditer(pattern, text, re.M):
                places.append(f"{f}:{line(text, m.start())} " + " ".join(m.group(0).split())[:90])
        rows.append((point, what, places))
    rows.append((2, "functions alike but for names, types and numbers", [" = ".join(g) for g in twins()]))
    for c, p in repeated_clauses().items():
        rows.append((5, f"in {len(p)} contracts: {c}", p))
    rows.append((5, "six parameters or more", list(many_parameters())))
    for point, what, places in sorted(rows, key=lambda r: r[0]):
        print(f"{point}  {len(places):3}  {what}")
        if verbose:
            for p in places:
                print(f"          {p}")


main()
