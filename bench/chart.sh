#!/usr/bin/env bash
# Times the drawing of a million ticks: a trace of the controller of sheets/, and one of which each tick goes to another than the one
# before. The programs are those that `rt run` or `rt ci` leaves. Prints wall time and peak memory of each turn, and the bytes of trace
# and picture; where xmllint is there, each picture is read by it as well. The aim is below 2 s and 64 MB.
# Words: the number of turns (3).
set -eu
cd "$(dirname "$0")/.."
henri=$PWD/crates/henri/out/henri
chart=$PWD/crates/hk_chart/out/hk_chart
for program in "$henri" "$chart"; do
  [ -x "$program" ] || { echo "first prove and build $program: in its crate, rt run < stdin"; exit 2; }
done
turns=${1:-3}
work=$(mktemp -d)
trap 'rm -rf "$work"' EXIT
sed 's/^ticks = .*/ticks = 1000000/' sheets/controller.toml | "$henri" run --trace > "$work/controller"
python3 - > "$work/turns" <<'PY'
print("heap work 9 attempt 3 busy 5 debt 4")
for tick in range(1_000_000):
    print("t", tick, "idle" if tick % 2 else "gc step")
print("cycles 1 collector 500000 idle 500000")
print("end 1000000")
PY
python3 - "$chart" "$work" "$turns" <<'PY'
import os, subprocess, sys, time

chart, work, turns = sys.argv[1], sys.argv[2], int(sys.argv[3])
for name in ("controller", "turns"):
    trace, picture = f"{work}/{name}", f"{work}/{name}.svg"
    for _ in range(turns):
        with open(trace) as given, open(picture, "w") as written:
            began = time.monotonic()
            child = subprocess.Popen([chart], stdin=given, stdout=written)
            _, status, used = os.wait4(child.pid, 0)
            wall = time.monotonic() - began
        assert status == 0, status
        print(f"{name}: wall {wall:.2f} s peak {used.ru_maxrss / 1000:.1f} MB trace {os.path.getsize(trace)} bytes picture {os.path.getsize(picture)} bytes")
PY
if command -v xmllint >/dev/null 2>&1; then
  for picture in "$work"/*.svg; do
    xmllint --huge --noout "$picture" && echo "$(basename "$picture"): well-formed"
  done
fi
