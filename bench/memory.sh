#!/usr/bin/env bash
# Refuses each allocation of the program crates/shared_mix in turn, from its start on, with 8 passes and no round, so that nearly all of
# what it takes is taken by `Heap::open`. Prints for each the exit status, what the program says, and how many blocks were still held
# as it ended; a run with no refusal stands first. The program is the one that `rt run` or `rt ci` leaves.
set -eu
cd "$(dirname "$0")/.."
program=$PWD/crates/shared_mix/out/shared_mix
[ -x "$program" ] || { echo "first prove and build the program: (cd crates/shared_mix && rt run -- own 2 2000)"; exit 2; }
work=$(mktemp -d)
trap 'rm -rf "$work"' EXIT
cc -O1 -shared -fPIC -o "$work/refuse.so" bench/refuse.c -ldl
turn() {
  local status=0
  REFUSE=$1 COUNTS=$work/counts LD_PRELOAD="$work/refuse.so" "$program" own 8 0 > "$work/out" 2> "$work/errors" || status=$?
  read -r asked held <<< "$(od -An -t d8 "$work/counts")"
  echo "refused $1: status $status, asked $asked, held $held, $(tr '\n' ' ' < "$work/errors")"
}
turn 0
for number in $(seq 1 "$asked"); do turn "$number"; done
