#!/usr/bin/env bash
# Draws the pictures of docs/GALLERY.md and docs/MANUAL.md: henri's trace of a sheet, of which hk_chart draws some ticks. They go
# to docs/pictures; with --check they are only compared with those that stand there.
# Usage: sheets/pictures.sh [--check] [HENRI HK_CHART]
# Without the two words the programs are those that `rt run` or `rt ci` leave in crates/.
set -u
only=
if [ "${1:-}" = --check ]; then
  only=yes
  shift
fi
here=$(realpath "$(dirname "$0")")
crates=$here/../crates
henri=$(realpath "${1:-$crates/henri/out/henri}")
chart=$(realpath "${2:-$crates/hk_chart/out/hk_chart}")
for program in "$henri" "$chart"; do
  [ -x "$program" ] || { echo "no $program: first prove and build it"; exit 2; }
done
cd "$here" || exit 2
pictures=../docs/pictures
work=$(mktemp -d)
trap 'rm -rf "$work"' EXIT
good=0
bad=0

# draw NAME FIRST LAST [EDIT]: the ticks FIRST to LAST of the sheet, after an edit in sed's words
draw() {
  sed "${4:-}" "$1.toml" | "$henri" run --trace >"$work/trace"
  if ! "$chart" "$2" "$3" <"$work/trace" >"$work/picture"; then
    bad=$((bad + 1))
    echo "$1: no picture"
  elif [ -z "$only" ]; then
    good=$((good + 1))
    cp "$work/picture" "$pictures/$1.svg"
  elif cmp -s "$work/picture" "$pictures/$1.svg"; then
    good=$((good + 1))
  else
    bad=$((bad + 1))
    echo "$1: another picture than $pictures/$1.svg"
  fi
}

draw smallest 0 9
draw controller 0 1999
draw fusion 0 1999
draw board 0 1199
draw bus 1500 2499
draw one_word_short 0 119 's/reserve = 12/reserve = 13/'
draw garbage 6500 8499
draw live_over 7000 7999
draw wide 0 29999
draw devices 980 1059
draw tank 0 5999
echo "$good drawn, $bad not"
[ "$bad" -eq 0 ]
