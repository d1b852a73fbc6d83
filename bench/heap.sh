#!/usr/bin/env bash
# Times a mixture of heap calls and collector events on one owner's heap: the proved program crates/heap_mix, and the
# same mixture in plain Rust (bench/heap.rs), built by rustc with optimisation. Both print the same text, which is
# compared first. Then each is run five times, in turns. Prints the wall and the processor time of each turn, calls and
# collector events per second, and the ratio of the times: of the least ones, and of each pair of turns.
# Words: the number of rounds (20,000,000), the number of turns (5).
set -eu
cd "$(dirname "$0")/.."
rounds=${1:-20000000}
turns=${2:-5}
work=$(mktemp -d)
trap 'rm -rf "$work"' EXIT
rustc -O --edition 2024 -o "$work/plain" bench/heap.rs
(cd crates/heap_mix && rt run -- 2000) > "$work/log" 2>&1 || { tail -n 40 "$work/log"; exit 1; }
python3 - crates/heap_mix/out/heap_mix "$work/plain" "$rounds" "$turns" <<'PY'
import os, re, subprocess, sys, time

proved, plain, rounds, turns = sys.argv[1], sys.argv[2], sys.argv[3], int(sys.argv[4])


def run(program):
    """The text that the program prints, its wall time and its processor time."""
    before = os.times()
    start = time.perf_counter()
    text = subprocess.run([program, rounds], stdout=subprocess.PIPE, check=True).stdout.decode()
    wall = time.perf_counter() - start
    after = os.times()
    return text, wall, after.children_user - before.children_user


text, other = run(proved)[0], run(plain)[0]
if text != other:
    sys.exit("the two programs print different texts:\n" + text + other)
print(text, end="")
lines = dict(line.split(" ", 1) for line in text.splitlines())
calls = sum(int(number) for number in re.findall(r"\d+", text.splitlines()[1]))
events = int(lines["collector"].split()[0])
print(f"calls {calls}")

times = {proved: [], plain: []}
for turn in range(turns):
    for program in times:
        times[program].append(run(program)[1:])
    (wall, user), (plain_wall, plain_user) = times[proved][-1], times[plain][-1]
    print(f"turn {turn + 1}: proved {wall:.3f} s (processor {user:.2f}), plain {plain_wall:.3f} s "
          f"(processor {plain_user:.2f}), ratio {wall / plain_wall:.2f} (processor {user / plain_user:.2f}), "
          f"load {os.getloadavg()[0]:.1f}")
for name, program in (("proved", proved), ("plain", plain)):
    least = min(wall for wall, _ in times[program])
    print(f"{name}: least {least:.3f} s, {calls / least / 1e6:.1f} million calls and "
          f"{events / least / 1e6:.1f} million collector events a second")
least = [min(wall for wall, _ in times[program]) for program in (proved, plain)]
used = [min(user for _, user in times[program]) for program in (proved, plain)]
print(f"ratio of the least times {least[0] / least[1]:.2f} (processor {used[0] / used[1]:.2f})")
PY
