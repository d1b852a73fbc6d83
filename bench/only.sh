#!/usr/bin/env bash
# Makes, in a folder that is given, programs of their own that read standard input and do one thing: only_toml reads it as TOML, and
# only_script 1,000 times as a script. They stand on copies of crates of henri, and are proved and built there, as
# FOLDER/crates/NAME/out/NAME. For measurements beside henri and beside plain loops.
set -eu
cd "$(dirname "$0")/.."
work=$1
for crate in hk_io hk_words hk_script; do
  mkdir -p "$work/crates/$crate"
  for part in src specs proofs; do
    if [ -d "crates/$crate/$part" ]; then cp -r "crates/$crate/$part" "$work/crates/$crate/"; fi
  done
done
printf 'hk_io:\nhk_words:\nhk_script: hk_words memchr\n' > "$work/crates.txt"

# A program that gives all of standard input so many times to a function of a library, and ends with 0 where that is content.
program() {
  mkdir -p "$work/crates/$1/src"
  echo "$1: hk_io ${2%%::*}" >> "$work/crates.txt"
  cat > "$work/crates/$1/src/main.rt" << PROGRAM
#![tactic(auto)]

use hk_io::{StdSource, take_all};
use std::process::ExitCode;

fn main(rt: HostRuntime) -> ExitCode {
    let mut source = StdSource::new(rt.reader());
    let Ok(bytes) = take_all(rt.alloc(), &mut source) else {
        return ExitCode::from(3);
    };
    for _ in 0..$3 {
        if $2(rt.alloc(), bytes.as_slice()).is_err() {
            return ExitCode::from(5);
        }
    }
    ExitCode::from(0)
}
PROGRAM
  (cd "$work/crates/$1" && rt run < /dev/null > "$work/log" 2>&1) || [ -x "$work/crates/$1/out/$1" ] || { tail -n 40 "$work/log"; exit 1; }
}
program only_toml toml::table_from_slice 1
program only_script hk_script::parse 1000
