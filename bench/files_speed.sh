#!/usr/bin/env bash
# How fast a folder of DIMACS CNF files is solved, through the program: each file (.cnf, at most 16,777,216 bytes) is loaded into a
# session of its own and solved. Prints the answer, seconds and conflicts (learnt clauses) of each, and, where `minisat` is installed,
# its seconds beside ours. It is no part of the gate.
#
#   bench/files_speed.sh FOLDER
set -eu
[ $# -eq 1 ] && [ -d "$1" ] || { echo "usage: bench/files_speed.sh FOLDER" >&2; exit 2; }
folder=$(cd "$1" && pwd)
top=$(cd "$(dirname "$0")/.." && pwd)
work=$(mktemp -d)
trap 'rm -rf "$work"' EXIT

( cd "$top/crates/gi_tool" && rt run -- run < /dev/null > "$work/build.log" 2>&1 ) || { tail -5 "$work/build.log"; exit 1; }

# COMMAND..: sets `nanoseconds` to how long it takes
timed() {
  start=$(date +%s%N)
  "$@" || true
  nanoseconds=$(($(date +%s%N) - start))
}

session() { "$top/crates/gi_tool/out/gi_tool" run -q < "$work/input" > "$work/output"; }
other() { minisat "$1" /dev/null > /dev/null 2>&1; }

for file in "$folder"/*.cnf; do
  [ -e "$file" ] || { echo "no .cnf file in $folder" >&2; exit 1; }
  bytes=$(wc -c < "$file")
  name=$(basename "$file")
  if [ "$bytes" -gt 16777216 ]; then
    printf '%-32s too long for a load\n' "$name"
    continue
  fi
  { printf 'load cnf %d\n' "$bytes"; cat "$file"; printf 'solve\nwait\nknown\nbye\n'; } > "$work/input"
  timed session
  beside=''
  ours=$nanoseconds
  if command -v minisat > /dev/null; then
    timed other "$file"
    beside=$(awk -v n="$nanoseconds" 'BEGIN { printf "  minisat %8.2f s", n / 1e9 }')
  fi
  awk -v name="$name" -v n="$ours" -v beside="$beside" '
    verdict == "" && /^(refused|nomem)/ { verdict = $1 }
    verdict == "" && /^(sat|unsat|unknown) / { verdict = $1 } /^known / { learnt = $2 }
    END { printf "%-32s %-8s %10.2f s  %8d conflicts%s\n", name, verdict, n / 1e9, learnt, beside }' "$work/output"
done
