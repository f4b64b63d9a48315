#!/usr/bin/env bash
# How fast problems are solved, through the program: random problems of three literals with 4.2 clauses a variable, and pigeons one
# more than holes. Prints the time of each session, the answer, and how many clauses were learnt. It is no part of the gate.
#
#   bench/solve_speed.sh [SEEDS]      3 random problems of each size where no number is given
set -eu
seeds=${1:-3}
top=$(cd "$(dirname "$0")/.." && pwd)
work=$(mktemp -d)
trap 'rm -rf "$work"' EXIT

( cd "$top/crates/gi_tool" && rt run -- run < /dev/null > "$work/build.log" 2>&1 ) || { tail -5 "$work/build.log"; exit 1; }

# VARIABLES SEED: a random problem as lines
random() {
  awk -v n="$1" -v seed="$2" 'BEGIN {
    srand(seed * 1000 + n)
    for (i = 0; i < int(4.2 * n); i++) {
      a = 1 + int(rand() * n); do b = 1 + int(rand() * n); while (b == a); do c = 1 + int(rand() * n); while (c == a || c == b)
      print "add " (rand() < 0.5 ? -a : a) " " (rand() < 0.5 ? -b : b) " " (rand() < 0.5 ? -c : c) " 0"
    } }'
}

# HOLES: each pigeon is in a hole, and no two are in one
pigeons() {
  awk -v h="$1" 'BEGIN {
    for (p = 0; p <= h; p++) { line = "add"; for (k = 1; k <= h; k++) line = line " " (p * h + k); print line " 0" }
    for (k = 1; k <= h; k++) for (p = 0; p <= h; p++) for (q = p + 1; q <= h; q++) print "add -" (p * h + k) " -" (q * h + k) " 0" }'
}

# NAME: the time of the session in the file
solve() {
  printf 'solve\nwait\nknown\nbye\n' >> "$work/input"
  start=$(date +%s%N)
  "$top/crates/gi_tool/out/gi_tool" run < "$work/input" > "$work/output"
  end=$(date +%s%N)
  awk -v name="$1" -v nanoseconds=$((end - start)) '
    /^(sat|unsat|unknown) / { verdict = $1 } /^known / { learnt = $2 }
    END { printf "%-24s %-8s %10.2f s  %8d learnt\n", name, verdict, nanoseconds / 1e9, learnt }' "$work/output"
}

for n in 50 100 150; do
  for ((seed = 1; seed <= seeds; seed++)); do
    random "$n" "$seed" > "$work/input"
    solve "random $n, seed $seed"
  done
done
for holes in 5 6 7; do
  pigeons "$holes" > "$work/input"
  solve "pigeonholes $holes"
done
