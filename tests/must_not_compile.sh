#!/usr/bin/env bash
# What must not compile: a row read from a reader that was given up, and a write to a file's bytes before the last call of its reader.
# Each tests/must_not_compile/*.edit is made in a copy of the crate reading_examples, which must then be refused with the error that the edit names, and no other.
set -euo pipefail
cd "$(dirname "$0")/.."
root=$PWD

crate=reading_examples
below=(refusal frames constraints)

copy=$(mktemp -d)
trap 'rm -rf "$copy"' EXIT
mkdir "$copy/crates"
for name in "${below[@]}" "$crate"; do
    cp -r "crates/$name" "$copy/crates/"
    grep "^$name:" crates.txt >>"$copy/crates.txt"
done

fail() {
    echo "must_not_compile: $*" >&2
    exit 1
}

# The check of the copy, which begins with what it keeps of the crates below; its output goes to a file.
compiles() {
    (cd "$copy/crates/$crate" && rt check) >"$copy/output" 2>&1
}

field() { # EDIT NAME
    sed -n "s/^$2: //p" "$1"
}

# Writes the edited file of the crate; the old text stands in it once.
edit() { # EDIT
    local file old new text
    file=crates/$crate/$(field "$1" file) old=$(field "$1" old) new=$(field "$1" new)
    text=$(cat "$root/$file")
    [[ $text == *"$old"* && ${text#*"$old"} != *"$old"* ]] || fail "$1: its old text does not stand once in $file"
    printf '%s%s%s\n' "${text%%"$old"*}" "$new" "${text#*"$old"}" >"$copy/$file"
}

compiles || { cat "$copy/output" >&2; fail "$crate itself does not compile"; }
echo "must_not_compile: $crate compiles"

count=0
for change in tests/must_not_compile/*.edit; do
    rm -rf "$copy/crates/$crate"
    cp -r "crates/$crate" "$copy/crates/"
    edit "$change"
    error=$(field "$change" error)
    if compiles; then fail "$change compiles"; fi
    found=$(grep -o '^[^ ]*: error\[[a-z0-9-]*\]' "$copy/output" | grep -o '\[.*\]' | sort -u | tr -d '\n' || true)
    [ "$found" = "[$error]" ] || { cat "$copy/output" >&2; fail "$change: found $found, and not [$error]"; }
    echo "must_not_compile: $(basename "$change" .edit) refused with $error"
    count=$((count + 1))
done
[ "$count" -gt 0 ] || fail "there are no edits"
