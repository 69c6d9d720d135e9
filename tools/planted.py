#!/usr/bin/env python3
"""Writes docs/PLANTED.md: every planted bug, the function that it is in, and the definition that the function's contract cites."""
import pathlib
import re

ROOT = pathlib.Path(__file__).resolve().parent.parent
HEAD = """# Planted bugs

Each is one edit of the code (`crates/*/must-fail/*.edit`) that the check must refuse; the gate tries all of them, one at a time. The last column says what refuses it: the contract of the function that it is in, or,
where that function is only a step of it, of the one that calls it. `tools/planted.py` writes this page.
"""


def enclosing(source, at):
    """The function that a place of the source stands in, and the definitions that its clauses cite."""
    starts = [m for m in re.finditer(r"^\s*(?:pub(?:\([a-z]+\))? )?(?:extern \"C\" )?fn (\w+)", source, re.M) if m.start() <= at]
    if not starts:
        return "a table", ""
    last = starts[-1]
    body = source.find("\n{", last.start())
    indented = source.find("\n    {", last.start())
    ends = [e for e in (body, indented) if e >= 0]
    clause = source[last.end():min(ends)] if ends else ""
    names = re.findall(r"(?:\{ \(?|→ |result ≡ )([A-Za-z]\w*)(?![\w.])", " ".join(re.findall(r"ensures.*", clause)))
    imported = set(re.findall(r"\w+", " ".join(re.findall(r"^ghost use .*\{(.*)\};", source, re.M))))
    cited = [n for n in dict.fromkeys(names) if n in imported and n != "length"]
    return last.group(1), ", ".join(cited[:2])


def pairs_of(text):
    """What is turned in which file, and into what: the last file named holds for the pairs behind it."""
    pairs, file = [], None
    for line in text.splitlines():
        key, _, value = line.partition(":")
        if key == "file":
            file = value.strip()
        elif key == "old":
            old = value[1:]
        elif key == "new":
            pairs.append((file, old, value[1:]))
    return pairs


def place_of(crate, pair):
    """What the pair stands in, and what refuses it. A constant has no contract of its own."""
    file, old, _ = pair
    source = (crate / file).read_text()
    at = source.index(old)
    constant = re.match(r"\s*(?:const|ghost) (\w+)", source[at:])
    if constant:
        return constant.group(1), "the proof that the constant is the ghost of its name, or a contract of what uses it"
    function, cited = enclosing(source, at)
    return function, f"contract of `{function}`" + (f" (`{cited}`)" if cited else "")


def main():
    lines = [HEAD]
    total = 0
    for crate in sorted(p for p in (ROOT / "crates").iterdir() if (p / "must-fail").is_dir()):
        lines.append(f"\n## {crate.name}\n")
        lines.append("| bug | in | turned | into | refused by |\n|---|---|---|---|---|")
        for edit in sorted((crate / "must-fail").glob("*.edit")):
            pairs = pairs_of(edit.read_text())
            function, refused = place_of(crate, pairs[-1])
            cell = lambda texts: " and ".join("`" + text.strip().replace("|", "\\|") + "`" if text.strip() else "nothing" for text in texts)
            turned, into = cell(old for _, old, _ in pairs), cell(new for _, _, new in pairs)
            lines.append(f"| {edit.stem.replace('_', ' ')} | `{function}` | {turned} | {into} | {refused} |")
            total += 1
    lines.insert(1, f"\nThere are {total}.\n")
    (ROOT / "docs" / "PLANTED.md").write_text("\n".join(lines) + "\n")


if __name__ == "__main__":
    main()
