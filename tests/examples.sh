#!/usr/bin/env bash
# The program on every folder of examples/ that has an expected.txt: what it prints is that text, byte for byte.
# Then without paths in such a folder, and on files that are not there. tools/examples.py writes the folders.
set -euo pipefail
cd "$(dirname "$0")/.."

tests/build run sapsheet
program=$PWD/crates/sapsheet/out/sapsheet
printed=$(mktemp)
trap 'rm -f "$printed"' EXIT

# What the program printed last is the text of a file.
agrees() { # NAME EXPECTED
    if ! cmp "$2" "$printed"; then
        echo "examples: $1 differs" >&2
        exit 1
    fi
}

count=0
for expected in examples/*/expected.txt; do
    folder=$(dirname "$expected")
    "$program" "$folder/circuit.r1cs" "$folder/witness.wtns" >"$printed"
    agrees "$folder" "$expected"
    count=$((count + 1))
done
[ "$count" -gt 0 ] || { echo "examples: there are none" >&2; exit 1; }

(cd examples/two_publics && "$program") >"$printed"
agrees "two_publics without paths" examples/two_publics/expected.txt

"$program" examples/no_such.r1cs examples/no_such.wtns >"$printed"
agrees "files that are not there" <(echo "refused 8 0")

echo "examples: $count as expected, and without paths, and without files"
