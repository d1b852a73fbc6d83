#!/usr/bin/env bash
# Runs henri on every sheet of this folder and compares what it writes with the report beside the sheet, and its exit status with
# the one that the report's last line tells; with hk_edf also each sheet that has a report by deadlines, `.deadlines`, and with
# hk_ceiling each that has sections, `.words`, beside `.ceilings`.
# Usage: sheets/check.sh [HENRI [HK_EDF [HK_CEILING]]]
# Without words it takes the programs that `rt run` or `rt ci` leave in crates/, as far as they are there.
set -u
here=$(realpath "$(dirname "$0")")
built() { [ -x "$here/../crates/$1/out/$1" ] && realpath "$here/../crates/$1/out/$1"; }
if [ $# -eq 0 ]; then
  henri=$(built henri)
  deadlines=$(built hk_edf)
  ceilings=$(built hk_ceiling)
else
  henri=$(realpath "$1")
  deadlines=${2:+$(realpath "$2")}
  ceilings=${3:+$(realpath "$3")}
fi
[ -x "$henri" ] || { echo "no program: first prove and build it"; exit 2; }
cd "$here" || exit 2
good=0
bad=0

# compare SHEET REPORT PROGRAM WORD..: what the program writes for a sheet, and how it ends, with a report
compare() {
  local status=0 got
  case $(tail -n 1 "$2") in
  "refused "*) status=6 ;;
  "live "*) status=7 ;;
  esac
  got=$(mktemp)
  "${@:3}" <"$1" >"$got"
  if [ $? -eq $status ] && cmp -s "$got" "$2"; then
    good=$((good + 1))
  else
    bad=$((bad + 1))
    echo "$1: another text or status than that of $2"
  fi
  rm -f "$got"
}

for sheet in *.toml; do
  compare "$sheet" "${sheet%.toml}.report" "$henri" run
done
if [ -n "$deadlines" ]; then
  for report in *.deadlines; do
    compare "${report%.deadlines}.toml" "$report" "$deadlines"
  done
fi
if [ -n "$ceilings" ]; then
  for words in *.words; do
    mapfile -t sections <"$words"
    compare "${words%.words}.toml" "${words%.words}.ceilings" "$ceilings" "${sections[@]}"
  done
fi
echo "$good ok, $bad differ"
[ "$bad" -eq 0 ]
