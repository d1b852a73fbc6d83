#!/usr/bin/env bash
# Times sessions on the collected heap: the controller of sheets/, and a sheet that allocates all the time, so that the
# collector has about half of the ticks, each over the greatest number of ticks, 16,777,216; then a trace of a million ticks of
# the controller. The program is the one that `rt run` or `rt ci` leaves; beside it runs a loop in plain Rust over the same words
# (bench/sessions.rs), built by rustc with optimisation. What the two write after the analysis is compared first, also for the
# sheets of version 1 in sheets/. Then each runs in turns. Prints wall and processor time of each turn, their ratios, the last two
# lines of the report, and, where strace is there, the number of write calls of the trace.
# Words: the number of turns (5).
set -eu
cd "$(dirname "$0")/.."
program=$PWD/crates/henri/out/henri
[ -x "$program" ] || { echo "first prove and build the program: (cd crates/henri && rt run < stdin)"; exit 2; }
turns=${1:-5}
work=$(mktemp -d)
trap 'rm -rf "$work"' EXIT
rustc -O --edition 2024 -o "$work/plain" bench/sessions.rs
for sheet in sheets/*.toml; do
  # The plain loop reads sheets of version 1 only.
  if ! grep -qx 'version = 1' "$sheet"; then continue; fi
  "$program" run < "$sheet" | grep -Ev '^(heap|high|low) ' > "$work/proved.text" || true
  if grep -q '^refused' "$work/proved.text"; then continue; fi
  "$work/plain" < "$sheet" | cmp - "$work/proved.text" || { echo "$sheet: another report"; exit 1; }
done
sed 's/^ticks = .*/ticks = 16777216/' sheets/controller.toml > "$work/controller.toml"
sed 's/^ticks = .*/ticks = 1000000/' sheets/controller.toml > "$work/traced.toml"
# One high job in 120 ticks makes an object of three words that nobody keeps; a low task makes more with what is left.
cat > "$work/making.toml" <<'SHEET'
version = 1
ticks = 16777216
heap = { live = 64, alloc = 600, reserve = 128, rate = 11, board = [2, 2] }

[[high]]
name = "a"
period = 120
deadline = 120
cost = 9
words = 3
first = 0
every = 120
script = """
new r1 0 2
clear r1
"""

[[low]]
name = "b"
first = 0
every = 1000
script = """
repeat 6
new r1 0 2
clear r1
end
"""
SHEET
python3 - "$program" "$work" "$turns" <<'PY'
import os, resource, subprocess, sys, time

program, work, turns = sys.argv[1], sys.argv[2], int(sys.argv[3])
plain = os.path.join(work, "plain")


def run(words, name, report):
    """Runs a program on a sheet: the wall and the processor time, user and system."""
    with open(f"{work}/{name}.toml", "rb") as sheet, open(f"{work}/{report}", "wb") as text:
        before = resource.getrusage(resource.RUSAGE_CHILDREN)
        start = time.perf_counter()
        subprocess.run(words, stdin=sheet, stdout=text, check=True)
        wall = time.perf_counter() - start
    after = resource.getrusage(resource.RUSAGE_CHILDREN)
    return wall, after.ru_utime - before.ru_utime, after.ru_stime - before.ru_stime


def lines(report):
    """The lines of a report behind its analysis."""
    with open(f"{work}/{report}") as text:
        return [line for line in text if line.split()[0] not in ("heap", "high", "low")]


for name in "controller", "making":
    run([program, "run"], name, "proved.text")
    run([plain], name, "plain.text")
    report = lines("proved.text")
    if report != lines("plain.text"):
        sys.exit(f"{name}: the two programs write different reports")
    print(f"{name}: the same {len(report)} lines, the last two {report[-2:]}")
    times = {"proved": [], "plain": []}
    for turn in range(turns):
        times["proved"].append(run([program, "run"], name, "proved.text"))
        times["plain"].append(run([plain], name, "plain.text"))
        (wall, user, system), (other_wall, other_user, other_system) = times["proved"][-1], times["plain"][-1]
        print(f"{name} turn {turn + 1}: proved {wall:.3f} s (user {user:.2f}, system {system:.2f}), "
              f"plain {other_wall:.3f} s (user {other_user:.2f}, system {other_system:.2f}), "
              f"ratio {wall / other_wall:.2f} (user {user / other_user:.2f}), load {os.getloadavg()[0]:.1f}")
    least = {who: min(wall for wall, _, _ in all_turns) for who, all_turns in times.items()}
    used = {who: min(user for _, user, _ in all_turns) for who, all_turns in times.items()}
    print(f"{name}: least {least['proved'] / 16.777216e-3:.1f} and {least['plain'] / 16.777216e-3:.1f} ns a tick, "
          f"ratio of the least times {least['proved'] / least['plain']:.2f} (processor {used['proved'] / used['plain']:.2f})")
for turn in range(turns):
    wall, user, system = run([program, "run", "--trace"], "traced", "trace.text")
    size = os.path.getsize(f"{work}/trace.text")
    print(f"traced: wall {wall:.3f} s user {user:.2f} s system {system:.2f} s bytes {size}")
PY
cd "$work"
if command -v strace >/dev/null 2>&1; then
  strace -f -c -e trace=write "$program" run --trace < traced.toml 2> calls > /dev/null || true
  grep -E 'write' calls || true
fi
