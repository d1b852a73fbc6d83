#!/usr/bin/env bash
# Times the analysis of 31 tasks with periods near 2^24 and utilisation 0.95, all 31 response times, 1,000 times
# over, and, for tasks whose periods lie further apart, the same. It proves and builds a program of its own in a
# folder of its own, over a copy of hk_rta. Prints the sum of all answers, which keeps the calls, and the time.
set -eu
cd "$(dirname "$0")/.."
work=$(mktemp -d)
trap 'rm -rf "$work"' EXIT
mkdir -p "$work/crates/response_bench/src" "$work/crates/hk_rta"
cp -r crates/hk_rta/src crates/hk_rta/specs crates/hk_rta/proofs "$work/crates/hk_rta/"
printf 'hk_rta:\nresponse_bench: hk_rta\n' > "$work/crates.txt"
cat > "$work/crates/response_bench/src/main.rt" <<'PROGRAM'
#![tactic(auto)]
ghost use Rattle.std.specs.Prelude.{◌≡◌, ℕ, ◌≤◌, ◌↔◌, length, All, IsTrue};
ghost use Rattle.hk_rta.specs.Demand.{IsTimed};

use hk_rta::{MAX_TASKS, MAX_TICKS, Timing, response};
use std::alloc::{AllocError, Global};
use std::io;
use std::rt::Clock;
use std::time::Instant;

fn is_timed(task: &Timing) -> bool
    ensures { IsTrue result ↔ IsTimed task.now }
{
    let time = 1..=MAX_TICKS;
    time.contains(&task.cost)
        && time.contains(&task.period)
        && time.contains(&task.deadline)
        && task.jitter <= MAX_TICKS
}

/// Tasks with 0.95 / 31 of the processor each, whose periods go down from 2^24 by so many ticks.
fn tasks(alloc: Global, apart: u64) -> Result<Vec<Timing>, AllocError> {
    let mut tasks = Vec::new(alloc);
    for place in 0..31_u64 {
        let period = MAX_TICKS.saturating_sub(place.saturating_mul(apart));
        let cost = period.saturating_mul(95) / 3100;
        tasks.push(Timing { cost, period, deadline: period, jitter: 0 })?;
    }
    tasks.reverse();
    Ok(tasks)
}

/// The sum of all response times.
fn all(tasks: &[Timing]) -> u64
    requires few { length tasks.now ≤ 31 }
    requires timed { All IsTimed tasks.now }
{
    let mut sum: u64 = 0;
    for place in 0..tasks.len() {
        sum = sum.saturating_add(response(tasks, place).unwrap_or(0));
    }
    sum
}

fn measure<R: Print + Clock>(rt: &R, alloc: Global, apart: u64) -> io::Result<()> {
    let tasks = tasks(alloc, apart)?;
    if tasks.len() > MAX_TASKS || !tasks.iter().all(is_timed) {
        return println!(rt; "out of range");
    }
    let start = Instant::now(rt)?;
    let mut sum: u64 = 0;
    for _turn in 0..1_000 {
        sum = sum.saturating_add(all(&tasks));
    }
    let time = start.elapsed(rt)?;
    let micros = time.as_micros();
    println!(rt; "periods {apart} apart: 31,000 responses in {micros} microseconds (sum {sum})")
}

fn main(rt: HostRuntime) -> io::Result<()> {
    measure(&rt, rt.alloc(), 1_000)?;
    measure(&rt, rt.alloc(), 500_000)
}
PROGRAM
cd "$work/crates/response_bench"
rt run --jobs 2 > "$work/log" 2>&1 || { tail -n 40 "$work/log"; exit 1; }
for turn in 1 2 3; do ./out/response_bench; done
