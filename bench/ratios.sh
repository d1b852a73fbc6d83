#!/usr/bin/env bash
# Every measurement that has a plain Rust loop beside it, in one table of ratios: instructions, which callgrind counts and which are
# the same on each machine, and processor time, the least of some turns. The proved programs are those that `rt run` or `rt ci` leave;
# the plain loops are built by rustc with optimisation. Each pair writes the same text, which is compared first. The last rows set the
# reading of a script beside a plain reader, and `henri check` beside the TOML of the sheet alone and the plain reading of its scripts.
# Words: the number of turns (5).
set -eu
cd "$(dirname "$0")/.."
for program in henri heap_mix; do
  [ -x "crates/$program/out/$program" ] || { echo "first prove and build crates/$program: (cd crates/$program && rt run < stdin)"; exit 2; }
done
command -v valgrind > /dev/null || { echo "valgrind counts the instructions: install it first"; exit 2; }
work=$(mktemp -d)
trap 'rm -rf "$work"' EXIT
rustc -O --edition 2024 -o "$work/sessions" bench/sessions.rs
rustc -O --edition 2024 -o "$work/heap" bench/heap.rs
rustc -O --edition 2024 -o "$work/scripts" bench/scripts.rs
bench/only.sh "$work"
PYTHONDONTWRITEBYTECODE=1 python3 -u bench/ratios.py "$work" "${1:-5}"
