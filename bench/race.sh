#!/usr/bin/env bash
# Times scripts on threads: the proved program henri_race, a heap behind one std Mutex (bench/race.rs, built by rustc with optimisation),
# the Boehm collector (bench/race.c, by cc -O2, with Debian's libgc-dev), and OpenJDK (bench/Race.java, as java runs it without
# options on its collector). Each of 2 and of 8 tasks makes an object of one reference and three numbers in each job, writes its number
# and a reference to the board there, hangs it on the board, reads the number of another task's object, and lets go of both. henri_race
# walks the script statement by statement; the other three are compiled.
# Each is run several times, in turns: jobs a second by the wall clock, from the start of the process to its end, and processor
# time a job. Then, in runs of their own, the longest job of the other three, and the longest time for which their collector stopped
# all tasks. henri_race has no clock; of it the steps of the longest call are known.
# Words: the jobs of each task (500,000), the number of turns (5), the path of henri_race (crates/henri_race/out/henri_race).
set -eu
program=$(realpath "${3:-$(dirname "$0")/../crates/henri_race/out/henri_race}")
cd "$(dirname "$0")/.."
jobs=${1:-500000}
turns=${2:-5}
[ -x "$program" ] || { echo "first prove and build the program: (cd crates/henri_race && rt run < stdin)"; exit 2; }
[ -e /usr/include/gc.h ] || { echo "first install libgc-dev"; exit 2; }
work=$(mktemp -d)
trap 'rm -rf "$work"' EXIT
rustc -O --edition 2024 -o "$work/mutex" bench/race.rs
cc -O2 -o "$work/boehm" bench/race.c -lgc -lpthread
javac -d "$work" bench/Race.java
python3 - "$program" "$work" "$jobs" "$turns" <<'PY'
import os, re, subprocess, sys, time

program, work, jobs, turns = sys.argv[1], sys.argv[2], int(sys.argv[3]), int(sys.argv[4])
TASKS = 8


def sheet(tasks):
    """The board of 8 references and a number has 10 words; each task has at most three objects of 5 words in its registers and on the
    board, and one that is being made."""
    live = 10 + 20 * tasks
    head = f"version = 1\nticks = {jobs}\nheap = {{ live = {live}, alloc = 1280, reserve = 0, rate = 1, board = [{TASKS}, 1] }}\n"
    return head + "".join(
        f"""
[[low]]
name = "{"abcdefgh"[seat]}"
first = 0
every = 1
script = \"\"\"
job v0
new r1 1 3
put r1 0 v0
store r1 0 r0
store r0 {seat} r1
load r2 r0 {(seat + 1) % tasks}
if null r2
else
get v1 r2 0
add v2 v1
end
clear r1
clear r2
\"\"\"
"""
        for seat in range(tasks)
    )


def words_of(tasks, *more):
    """The four commands, each with its input."""
    text = sheet(tasks)
    others = [str(tasks), str(jobs), *more]
    return {
        "henri_race": ([program], text),
        "mutex": ([f"{work}/mutex", *others], ""),
        "boehm": ([f"{work}/boehm", *others], ""),
        "openjdk": (["java", f"-Xlog:safepoint:file={work}/log", "-cp", work, "Race", *others], ""),
    }


def run(words, text):
    """What a program prints, its wall time and its processor time."""
    before = os.times()
    start = time.perf_counter()
    said = subprocess.run(words, input=text.encode(), stdout=subprocess.PIPE, check=True).stdout.decode()
    wall = time.perf_counter() - start
    after = os.times()
    return said, wall, after.children_user + after.children_system - before.children_user - before.children_system


def stops():
    """How often OpenJDK collected, and the longest time for which it stopped all threads, in nanoseconds."""
    with open(f"{work}/log") as log:
        rows = re.findall(r'Safepoint "(\w+)".*Total:\s*(\d+) ns', log.read())
    return sum("Collect" in name for name, _ in rows), max((int(total) for _, total in rows), default=0)


for tasks in (2, 8):
    total = tasks * jobs
    print(f"{tasks} tasks, {total} jobs")
    times = {}
    for turn in range(turns):
        for name, (words, text) in words_of(tasks).items():
            said, wall, processor = run(words, text)
            if name == "henri_race" and said != "".join(f"done {'abcdefgh'[seat]} jobs {jobs}\n" for seat in range(tasks)) + "end\n":
                sys.exit(f"henri_race: {said[:200]!r}")
            if name != "henri_race" and not said.startswith(f"jobs {total} "):
                sys.exit(f"{name}: {said[:200]!r}")
            times.setdefault(name, []).append((wall, processor))
        print(f"  turn {turn + 1}: " + ", ".join(
            f"{name} {total / times[name][-1][0] / 1e6:.3f} million jobs a second ({times[name][-1][1] / total * 1e9:.0f} ns of processor a job)"
            for name in times) + f"; load {os.getloadavg()[0]:.1f}")
    least = {name: min(wall for wall, _ in rows) for name, rows in times.items()}
    print("  least times: " + ", ".join(f"{name} {least[name]:.2f} s" for name in least) + "; henri_race by "
          + ", by ".join(f"{name} {least['henri_race'] / least[name]:.1f}" for name in least if name != "henri_race"))
    for turn in range(turns):
        rows = []
        for name, (words, text) in words_of(tasks, "longest").items():
            if name == "henri_race":
                continue
            said, _, _ = run(words, text)
            longest = int(re.search(r"longest (\d+) ns", said)[1])
            found = re.search(r"collections (\d+) longest stop (\d+) ns", said)
            collections, stop = (int(found[1]), int(found[2])) if found else stops()
            rows.append(f"{name} {longest / 1e3:.0f} us, {collections} collections, longest stop {stop / 1e3:.0f} us")
        print(f"  longest job, turn {turn + 1}: " + "; ".join(rows) + f"; load {os.getloadavg()[0]:.1f}")
PY
