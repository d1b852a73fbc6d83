#!/usr/bin/env bash
# Times the run of one high task over the greatest number of ticks: 16,777,216 ticks, period 4, cost 2, one output
# a job, so 4,194,304 output lines. It makes its own data. The program is the one that `rt run` or `rt ci` leaves.
# Prints wall time, peak memory, bytes written, and, where strace is there, the number of write calls.
set -eu
cd "$(dirname "$0")/.."
program=$PWD/crates/henri/out/henri
[ -x "$program" ] || { echo "first prove and build the program: (cd crates/henri && rt run < stdin)"; exit 2; }
work=$(mktemp -d)
trap 'rm -rf "$work"' EXIT
cat > "$work/sheet.toml" <<'SHEET'
version = 1
ticks = 16777216

[heap]
live = 62
alloc = 512
reserve = 129
rate = 11
board = [2, 2]

[[high]]
name = "a"
period = 4
deadline = 4
cost = 2
words = 0
first = 0
every = 4
script = """
work 1
out v0
"""
SHEET
cd "$work"
for turn in 1 2 3; do
  python3 - "$program" <<'PY'
import resource, subprocess, sys, time
with open("sheet.toml", "rb") as sheet, open("report", "wb") as report:
    start = time.perf_counter()
    status = subprocess.run([sys.argv[1], "run"], stdin=sheet, stdout=report).returncode
    wall = time.perf_counter() - start
peak = resource.getrusage(resource.RUSAGE_CHILDREN).ru_maxrss / 1024
import os
print(f"status {status} wall {wall:.3f} s peak {peak:.1f} MB bytes {os.path.getsize('report')}")
PY
done
tail -n 3 report
if command -v strace >/dev/null 2>&1; then
  strace -f -c -e trace=write "$program" run < sheet.toml 2> calls > /dev/null || true
  grep -E 'write' calls || true
fi
