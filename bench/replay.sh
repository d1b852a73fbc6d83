#!/usr/bin/env bash
# Times the proved program crates/hk_replay on logs of just below 1,048,576 bytes: of new objects and cycles of the
# collector, of short calls, of cycles alone, and of empty lines. Each is checked five times; prints what is said of
# it, and the wall and the processor time of each turn.
# Word: the number of turns (5).
set -eu
cd "$(dirname "$0")/.."
turns=${1:-5}
(cd crates/hk_replay && rt run -- check < stdin) > /dev/null
python3 - crates/hk_replay/out/hk_replay "$turns" <<'PY'
import os, subprocess, sys, time

program, turns = sys.argv[1], int(sys.argv[2])
MOST = 1_048_576
HEAP = "heap 64 64 16 2 1 2 1\n"


def check(log):
    """What is said of a log, the wall time and the processor time."""
    before = os.times()
    start = time.perf_counter()
    text = subprocess.run([program, "check"], input=log.encode(), stdout=subprocess.PIPE).stdout.decode()
    wall = time.perf_counter() - start
    return text.strip(), wall, os.times().children_user - before.children_user


def filled(part):
    """The first line, and a part as often as there is room for it."""
    return HEAP + part * ((MOST - len(HEAP)) // len(part))


def cycles(part):
    """A part and a cycle of the collector, again and again: how many useful events a cycle has is told by the line that
    differs where there are too many of them."""
    log = HEAP
    while True:
        start = log + part + "gc flip\n"
        probe = start + "gc useful\n" * 2000
        if len(probe) > MOST:
            return log
        useful = int(check(probe)[0].split()[1]) - start.count("\n") - 1
        log = start + "gc useful\n" * useful


logs = {
    "short calls": filled("begin 0 clear 1\nend 0 unit\n"),
    "cycles": cycles(""),
    "new objects and cycles": cycles(("begin 0 new 1 1 1\n" + "step 0\n" * 6 + "end 0 unit\n") * 4),
    "no lines": "\n" * MOST,
}
for name, log in logs.items():
    for turn in range(turns):
        text, wall, user = check(log)
        print(f"{name}: {len(log)} bytes, {text}, {wall:.3f} s (processor {user:.3f}), load {os.getloadavg()[0]:.1f}")
PY
