#!/usr/bin/env bash
# What the TOML reader alone takes for the large inputs of `bench/hostile.sh`: it proves and builds a program of its own, which reads
# standard input and its TOML and nothing else, in a folder of its own (`bench/only.sh`). Prints for each input the processor time
# and the most memory; the least time of three turns.
set -eu
cd "$(dirname "$0")/.."
work=$(mktemp -d)
trap 'rm -rf "$work"' EXIT
bench/only.sh "$work"
PYTHONDONTWRITEBYTECODE=1 PYTHONPATH=bench python3 -u - "$work/crates/only_toml/out/only_toml" <<'TURNS'
import subprocess
import sys
from hostile_inputs import families

for name, text, _, _ in families():
    times, most = [], 0
    for _ in range(3):
        done = subprocess.run(["/usr/bin/time", "-f", "%U %S %M", sys.argv[1]], input=text.encode(), stderr=subprocess.PIPE)
        user, system, kilobytes = done.stderr.split()[-3:]
        times.append(float(user) + float(system))
        most = max(most, int(kilobytes))
    print(f"{name}: {len(text.encode())} bytes, {min(times):.2f} s of the processor, {most / 1024:.0f} MB")
TURNS
