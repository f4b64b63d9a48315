#!/usr/bin/env bash
# Large problems in a session: the memory that all 16,777,216 variables take, and a clause of many literals over many lines. Builds the
# program, and prints seconds and the greatest resident memory of each run. It is no part of the gate. Needs python3 and GNU time.
#
#   bench/large_speed.sh [LITERALS]      5000000 where no number is given
set -eu
literals=${1:-5000000}
top=$(cd "$(dirname "$0")/.." && pwd)
work=$(mktemp -d)
trap 'rm -rf "$work"' EXIT
tool=$top/crates/gi_tool/out/gi_tool
( cd "$top/crates/gi_tool" && rt run -- --version > "$work/build.log" 2>&1 ) || { tail -5 "$work/build.log"; exit 1; }

# NAME: the session in the file input
measure() {
  command time -f '%U %S %e %M' -o "$work/time" "$tool" run < "$work/input" > "$work/output"
  awk -v name="$1" '{ printf "%-48s %6.2f s of the processor %6.2f s %8.1f MiB\n", name, $1 + $2, $3, $4 / 1024 }' "$work/time"
  cut -c 1-60 "$work/output" | sed 's/^/    /'
}

printf 'vars 0\n' > "$work/input"
measure 'nothing'
for variables in 4194304 8388608 16777216; do
  printf 'add %d 0\nsolve\nwait\nguard\n' "$variables" > "$work/input"
  measure "$variables variables"
done
python3 - "$literals" > "$work/input" <<'PROGRAM'
import sys

literals = int(sys.argv[1])
line = 100_000
print("add +")
for start in range(1, literals + 1, line):
    print(*range(start, min(start + line, literals + 1)), "+")
print("0\nsolve\nwait")
PROGRAM
measure "a clause of $literals literals"
