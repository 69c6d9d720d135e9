#!/usr/bin/env python3
"""Brings the repository's own names in clauses, specs/ and proofs/ to one spelling: words in snake case, facts and types in camel case, a prime as an apostrophe.

usage: respell.py [--dry]        at the top of the repository, after the port script; it was run once

A name is the repository's own where specs/ or proofs/ declare it: a definition, a lemma, a field, a constructor, an argument, a local name. Names that a file takes from
the library, and the names that the check makes for goals and for steps of the code, stay as they are; so do functions of src/, strings and everything outside crates/.
"""
import collections
import glob
import re
import sys

DRY = "--dry" in sys.argv
OWN = {line.split(":")[0].strip() for line in open("crates.txt") if ":" in line and not line.startswith("#")}
TOKEN = re.compile(r"[^\s(){}\[\],.;λ@\"|«»`:]+")
# what the check makes: goals, and the steps that a path from `c` or `l` goes through
MADE = re.compile(
    r"^(invariant|decreases|overflow_|bounds|slice_bounds|offset_bounds|nonzero_|returns|loop|if|in|in_ok|in_err|in_default|then|else|index|not|match|prove|invariant_of|let|arm|break|while)\b.*-"
)
# values, and not facts, that had a capital
VALUES = {name: name[0].lower() + name[1:].replace("-", "_") for name in
          ("U-dot", "U-public-minus", "U-public-plus", "U-row", "U-row-minus", "U-row-plus", "W-dot", "W-public-minus", "W-public-plus", "W-row", "W-row-minus", "W-row-plus")}

# names that would fall together with a field, a crate, a function of src/ or a name of the library
OTHERS = {"log-n": "log_of_n", "log-n-same": "log_of_n_same", "put-mid": "put_mid_puts", "square-file": "square_file_bytes", "value-file": "value_file_bytes",
          "one-outcome": "one_outcome_lem", "opens-exactly": "opens_exactly_lem", "reads-exactly": "reads_exactly_lem", "reading-assigns": "reading_assigns_lem"}


def antt_files():
    return sorted(glob.glob("crates/*/specs/**/*.antt", recursive=True) + glob.glob("crates/*/proofs/**/*.antt", recursive=True))


def is_goal_file(path):
    return path.rsplit("/", 1)[1] in ("Answers.antt", "Invariants.antt", "Proof.antt")


def code_of(text, comment):
    """The text with comments blanked."""
    return re.sub(comment + r"[^\n]*", lambda m: " " * len(m.group()), text)


def taken_from_library(text):
    """The names that the `use` lines take from outside the repository, and the names behind an alias of an outside module."""
    names, aliases = set(), set()
    for m in re.finditer(r"^\s*(?:ghost )?(?:pub )?use ([^\s;{]+?)(?:\.\{([^}]*)\}|( as (\w+)))?;?\s*$", text, re.M):
        path = m.group(1)
        parts = path.split(".")
        if parts[0] == "Rattle" and len(parts) > 1 and parts[1] in OWN:
            if m.group(2) and re.search(r"\.proofs\..*\.Goals$", path):
                names |= {n.split(" as ")[0].strip() for n in m.group(2).split(",")}
            continue
        if m.group(2):
            names |= {n.split(" as ")[-1].strip() for n in m.group(2).split(",")}
        elif m.group(4):
            aliases.add(m.group(4))
        else:
            aliases.add(parts[-1])
    return names, aliases


def new_name(name):
    if name in VALUES or name in OTHERS:
        return (VALUES | OTHERS)[name]
    name = name.replace("′", "'")
    if "-" not in name:
        return name
    if name[0].isupper():
        return "".join(p[:1].upper() + p[1:] for p in name.split("-"))
    return name.replace("-", "_")


def wants(token):
    return ("-" in token or "′" in token) and not any(x in token for x in "◌→←") and re.search(r"[^\W\d]", token) and token.strip("-") == token


def main():
    files = {path: open(path, encoding="utf-8").read() for path in antt_files()}
    library = {path: taken_from_library(text)[0] for path, text in files.items()}
    # own names: whatever the files that the check does not name declare or bind
    own, goals = set(), set()
    for path, text in files.items():
        code = code_of(text, "--")
        declared = set(re.findall(r"^\s*(?:(?:abbrev|unfoldable|pub|record|data|module)\s+)*([^\s(){}:.,λ;]+)(?=[^\n=]*:[^:])", code, re.M))
        if is_goal_file(path):
            made = set(re.findall(r"^\s*(?:abbrev )?(?:pub )?([^\s:]+)\s*:\s*goal\.", code, re.M))
            goals |= made
            own |= {t for t in declared - made - library[path] if wants(t) and not MADE.match(t)}
        else:
            own |= {t for t in TOKEN.findall(code) if wants(t) and t not in library[path] and not MADE.match(t)}
            own |= {t for t in declared if wants(t)}
    own -= goals
    own |= set(VALUES)
    renamed = {n: new_name(n) for n in own}
    # names that fall together
    every = collections.defaultdict(set)
    for path, text in files.items():
        for t in TOKEN.findall(code_of(text, "--")):
            every[t].add(path)
    for n, m in sorted(renamed.items()):
        if m in every:
            print("falls together:", n, "->", m, sorted({p.split("/")[1] for p in every[n]}), sorted({p.split("/")[1] for p in every[m]}))
    for n in sorted(own):
        where = [p for p in files if n in library[p]]
        if where:
            print("also in the library:", n, where[:4], "own in", sorted(every[n])[:3])

    def turn(text, taken, aliases):
        def one(m):
            t = m.group()
            if t not in renamed:
                return t
            before = re.search(r"([^\s(){}\[\],.;]+)\.$", text[:m.start()])
            # behind a dot it is the library's only where an outside module stands there
            if (before and before.group(1) in aliases) or (t in taken and not text[:m.start()].endswith(".")):
                return t
            return renamed[t]

        return TOKEN.sub(one, text)

    changed = 0
    for path, text in files.items():
        taken, aliases = taken_from_library(text)
        out = []
        for line in text.split("\n"):
            i = line.find("--")
            while i > 0 and not line[i - 1].isspace():
                i = line.find("--", i + 1)
            code, note = (line, "") if i < 0 else (line[:i], line[i:])
            note = re.sub(r"`[^`]*`", lambda m: turn(m.group(), taken, aliases), note)
            out.append(turn(code, taken, aliases) + note)
        new = "\n".join(out)
        if new != text:
            changed += 1
            if not DRY:
                open(path, "w", encoding="utf-8").write(new)
    for path in sorted(glob.glob("crates/*/src/**/*.rt", recursive=True) + glob.glob("crates/*/must-fail/*.edit")):
        text = open(path, encoding="utf-8").read()
        taken, aliases = taken_from_library(text)
        out = []
        for line in text.split("\n"):
            i = line.find("//")
            code, note = (line, "") if i < 0 else (line[:i], line[i:])
            note = re.sub(r"`[^`]*`", lambda m: turn(m.group(), taken, aliases), note)
            parts = re.split(r'("(?:[^"\\]|\\.)*")', code)
            out.append("".join(p if k % 2 else turn(p, taken, aliases) for k, p in enumerate(parts)) + note)
        new = "\n".join(out)
        if new != text:
            changed += 1
            if not DRY:
                open(path, "w", encoding="utf-8").write(new)
    print(len(renamed), "names,", changed, "files")
    if DRY:
        for n, m in sorted(renamed.items()):
            print(n, "->", m)


main()
