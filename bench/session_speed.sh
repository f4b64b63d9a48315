#!/usr/bin/env bash
# How fast a session is served, and how fast lines are read. Builds the program, and a small reader of lines over a copy of the
# crates that it needs, feeds them generated lines, and prints lines and megabytes a second, for two sizes each: twice the input
# should take twice the time. It is no part of the gate.
#
#   bench/session_speed.sh [LINES]      1000000 where no number is given
set -eu
lines=${1:-1000000}
top=$(cd "$(dirname "$0")/.." && pwd)
work=$(mktemp -d)
trap 'rm -rf "$work"' EXIT

cp "$top/HANDLES" "$work"
mkdir -p "$work/crates/lines_speed/src"
for crate in gi_text gi_outside; do
  cp -r "$top/crates/$crate" "$work/crates"
  grep "^$crate:" "$top/crates.txt" >> "$work/crates.txt"
done
echo 'lines_speed: gi_text gi_outside' >> "$work/crates.txt"
cat > "$work/crates/lines_speed/src/main.rt" <<'PROGRAM'
//! Counts the lines of standard input, which are fed as they come, or byte by byte where a word is given.
#![tactic(auto)]

use gi_outside::{Got, Link, StdLink};
use gi_text::{Lines, Next};
use std::alloc::AllocError;
use std::{env, io};

/// Feeds a piece, and counts the lines that are whole then.
fn count(lines: &mut Lines, piece: &[u8]) -> Result<u64, AllocError> {
    lines.feed(piece)?;
    let mut count = 0u64;
    for _ in piece {
        match lines.next_line() {
            Next::Line(_) => count = count.saturating_add(1),
            _ => break,
        }
    }
    Ok(count)
}

fn main(rt: HostRuntime) -> io::Result<()> {
    let bytewise = env::args(&rt)?.count() > 1;
    let mut link = StdLink::new(&rt);
    let mut lines = Lines::new(rt.alloc());
    let mut buffer = [0u8; 4096];
    let mut total = 0u64;
    for _ in 0..u64::MAX {
        match link.read(&mut buffer) {
            Got::Bytes(n) => {
                if bytewise {
                    for i in 0..n {
                        total = total.saturating_add(count(&mut lines, &buffer[i..i + 1])?);
                    }
                } else {
                    total = total.saturating_add(count(&mut lines, &buffer[..n])?);
                }
            }
            _ => break,
        }
    }
    println!(rt; "{total}")
}
PROGRAM

build() {
  ( cd "$1" && rt run -- run < /dev/null > "$work/build.log" 2>&1 ) || { tail -5 "$work/build.log"; exit 1; }
}

# NAME UNIT AMOUNT COMMAND..: the amount a second
rate() {
  name=$1 unit=$2 amount=$3
  shift 3
  start=$(date +%s%N)
  "$@" > "$work/output"
  end=$(date +%s%N)
  awk -v name="$name" -v unit="$unit" -v amount="$amount" -v nanoseconds=$((end - start)) 'BEGIN {
    printf "%-34s %10.2f s  %12.1f %s/s\n", name, nanoseconds / 1e9, amount * 1e9 / nanoseconds, unit }'
}

build "$top/crates/gi_tool"
build "$work/crates/lines_speed"
for size in "$lines" $((2 * lines)); do
  yes 'vars 0' | head -n "$size" > "$work/input"
  bytes=$(stat -c %s "$work/input")
  rate "session of $size lines" lines "$size" "$top/crates/gi_tool/out/gi_tool" run < "$work/input"
  [ "$(wc -l < "$work/output")" = "$size" ] || { echo 'a line has no answer'; exit 1; }
  rate "lines, pieces of 4096 bytes" MB "$(awk -v b="$bytes" 'BEGIN { print b / 1e6 }')" "$work/crates/lines_speed/out/lines_speed" < "$work/input"
  rate "lines, pieces of one byte" MB "$(awk -v b="$bytes" 'BEGIN { print b / 1e6 }')" "$work/crates/lines_speed/out/lines_speed" bytewise < "$work/input"
done
