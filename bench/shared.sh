#!/usr/bin/env bash
# Times a mixture of calls on the heap that threads share: the proved program crates/shared_mix, the same accesses on plain
# atomic words, and a plain heap behind one std Mutex (both bench/shared.rs, built by rustc with optimisation). With 1, 2, 4 and 8
# threads, each with so many rounds, on the board that all share, and on objects of their own. Where the text doesn't depend on who comes
# first, the three texts are compared. Each is run several times, in turns; prints calls a second of each turn, by the wall clock, and the
# processor time. Then the most accesses of one call, and the collector's events a second, alone and beside four passes.
# Words: the number of rounds (2,000,000), the number of turns (5), the number of events (20,000,000).
set -eu
cd "$(dirname "$0")/.."
rounds=${1:-2000000}
turns=${2:-5}
events=${3:-20000000}
work=$(mktemp -d)
trap 'rm -rf "$work"' EXIT
rustc -O --edition 2024 -o "$work/plain" bench/shared.rs
(cd crates/shared_mix && rt run -- own 2 2000) > "$work/log" 2>&1 || { tail -n 40 "$work/log"; exit 1; }
python3 - crates/shared_mix/out/shared_mix "$work/plain" "$rounds" "$turns" "$events" <<'PY'
import os, re, subprocess, sys, time

proved, plain, rounds, turns, events = sys.argv[1], sys.argv[2], sys.argv[3], int(sys.argv[4]), sys.argv[5]
PROGRAMS = {"proved": [proved], "atomics": [plain, "atomics"], "mutex": [plain, "mutex"]}


def run(words):
    """The text that a program prints, its wall time and its processor time."""
    before = os.times()
    start = time.perf_counter()
    text = subprocess.run(words, stdout=subprocess.PIPE, check=True).stdout.decode()
    wall = time.perf_counter() - start
    after = os.times()
    return text, wall, after.children_user + after.children_system - before.children_user - before.children_system


def calls_in(text):
    return sum(int(number) for number in re.findall(r"\d+", text.splitlines()[0]))


for place in ("own", "board"):
    for threads in (1, 2, 4, 8):
        words = [place, str(threads), rounds]
        texts = {name: run(program + words)[0] for name, program in PROGRAMS.items()}
        if (place == "own" or threads == 1) and len(set(texts.values())) != 1:
            sys.exit("the programs print different texts:\n" + "".join(texts.values()))
        calls = calls_in(texts["proved"])
        print(f"{place}, {threads} threads, {calls} calls")
        times = {name: [] for name in PROGRAMS}
        for turn in range(turns):
            for name, program in PROGRAMS.items():
                times[name].append(run(program + words)[1:])
            print("  turn", turn + 1, ", ".join(
                f"{name} {calls / wall / 1e6:.2f} million a second ({processor / calls * 1e9:.0f} ns of processor a call)"
                for name in PROGRAMS for wall, processor in times[name][-1:]), f"load {os.getloadavg()[0]:.1f}")
        least = {name: min(wall for wall, _ in times[name]) for name in PROGRAMS}
        used = {name: min(processor for _, processor in times[name]) for name in PROGRAMS}
        print(f"  least times: proved / atomics {least['proved'] / least['atomics']:.2f} "
              f"(processor {used['proved'] / used['atomics']:.2f}), "
              f"proved / mutex {least['proved'] / least['mutex']:.2f} (processor {used['proved'] / used['mutex']:.2f})")

print(run([plain, "steps", "board", "8", "200000"])[0], end="")

for passes in ("0", "4"):
    for turn in range(turns):
        text, wall, processor = run([proved, "collector", passes, events])
        lines = text.splitlines()
        done = int(lines[2].split()[1])
        print(f"collector beside {passes} passes, turn {turn + 1}: {done / wall / 1e6:.2f} million events a second, "
              f"{calls_in(text) / wall / 1e6:.2f} million calls a second; {lines[2]}; load {os.getloadavg()[0]:.1f}")
PY
