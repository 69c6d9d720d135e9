#!/usr/bin/env bash
# The C entry from a host program: builds the static library and examples/c/host.c, and runs it on good, damaged and ill-fitting input.
# The quotients are compared with those that tests/c_entry.py works out by itself. Exit status 0 only where all agree.
set -euo pipefail
cd "$(dirname "$0")/.."

work=$(mktemp -d)
trap 'rm -rf "$work"' EXIT

tests/build lib sapsheet_c
# the library, and nothing else beside the host's C library
cc -std=c11 -O2 -Wall -Wextra -Werror -I examples/c examples/c/host.c crates/sapsheet_c/out/libsapsheet_c.a -o "$work/host"
python3 tests/c_entry.py "$work/host" "$work"
