#!/usr/bin/env bash
# How fast DIMACS CNF is read: builds a small program over a copy of the crates, feeds it generated
# clauses of three literals, and prints megabytes a second. It is no part of the gate.
#
#   bench/cnf_speed.sh [MEGABYTES]      50 where no number is given
set -eu
megabytes=${1:-50}
top=$(cd "$(dirname "$0")/.." && pwd)
work=$(mktemp -d)
trap 'rm -rf "$work"' EXIT

cp "$top/HANDLES" "$work"
mkdir -p "$work/crates/cnf_speed/src"
for crate in gi_lit gi_text gi_outside gi_dimacs; do
  cp -r "$top/crates/$crate" "$work/crates"
  grep "^$crate:" "$top/crates.txt" >> "$work/crates.txt"
done
echo 'cnf_speed: gi_lit gi_text gi_outside gi_dimacs' >> "$work/crates.txt"
cat > "$work/crates/cnf_speed/src/main.rt" <<'PROGRAM'
//! Reads a CNF from standard input, and prints its variables and clauses.
#![tactic(auto)]

use gi_dimacs::{CnfRead, CnfReader};
use gi_outside::{Got, Link, StdLink};
use std::io;

fn main(rt: HostRuntime) -> io::Result<()> {
    let mut link = StdLink::new(&rt);
    let mut reader = CnfReader::new(rt.alloc());
    let mut buffer = [0u8; 16384];
    for _ in 0..u64::MAX {
        match link.read(&mut buffer) {
            Got::Bytes(n) => reader.feed(&buffer[..n])?,
            _ => break,
        }
    }
    match reader.finish() {
        CnfRead::Cnf(cnf) => println!(rt; "cnf {} {}", cnf.vars, cnf.clauses.len()),
        CnfRead::Fault(fault) => println!(rt; "refused at line {}", fault.line),
        CnfRead::NoMemory => println!(rt; "out of memory"),
    }
}
PROGRAM

awk -v bytes=$((megabytes * 1000000)) 'BEGIN {
  srand(1); print "p cnf 100000 1";
  for (size = 0; size < bytes; size += length(line) + 1) {
    line = "";
    for (i = 0; i < 3; i++) line = line (rand() < 0.5 ? "-" : "") (1 + int(rand() * 100000)) " ";
    line = line "0"; print line;
  }
}' > "$work/input.cnf"

cd "$work/crates/cnf_speed"
rt run < /dev/null > "$work/build.log" 2>&1 || { tail -5 "$work/build.log"; exit 1; }
size=$(stat -c %s "$work/input.cnf")
start=$(date +%s%N)
./out/cnf_speed < "$work/input.cnf"
end=$(date +%s%N)
awk -v size="$size" -v nanoseconds=$((end - start)) 'BEGIN {
  printf "%.0f MB in %.2f s: %.0f MB/s\n", size / 1e6, nanoseconds / 1e9, size * 1e3 / nanoseconds }'
