#!/usr/bin/env bash
# Uses the built programs as nobody should: it refuses each allocation in turn, fails each call that reads or writes, gives inputs
# and outputs that fail by themselves, cuts inputs at each byte, disturbs the collector at each tick of a copy, claims too much, goes
# to the limits of each number and past them, and reads the largest and slowest sheets that are known. Each table ends in a line of
# its own; the last line is `N cases, M not right`, and the status is 0 where M is 0. A program that isn't there is named as missing.
# Words: the folder with the programs (by default each is where `rt run` or `rt ci` leaves it, crates/NAME/out/NAME).
set -eu
folder=${1:+$(realpath "$1")}
cd "$(dirname "$0")/.."
work=$(mktemp -d)
trap 'rm -rf "$work"' EXIT
cc -O1 -shared -fPIC -o "$work/refuse.so" bench/refuse.c -ldl
PYTHONDONTWRITEBYTECODE=1 python3 -u bench/hostile.py "$work" ${folder:+"$folder"}
