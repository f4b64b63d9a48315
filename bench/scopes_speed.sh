#!/usr/bin/env bash
# What a nested test costs: a chain, and a random problem of three literals a clause, of 100,000 clauses each, and then so many times one
# assumption, `test` and `untest` inside an outer scope. Builds the program, and prints microseconds of the processor a test. It is no part of the
# gate. Needs python3 and GNU time.
#
#   bench/scopes_speed.sh [TESTS [PROGRAM]]      10000 where no number is given; another program may stand in for the one of this checkout
set -eu
tests=${1:-10000}
top=$(cd "$(dirname "$0")/.." && pwd)
work=$(mktemp -d)
trap 'rm -rf "$work"' EXIT
tool=${2:-$top/crates/gi_tool/out/gi_tool}
[ $# -ge 2 ] || ( cd "$top/crates/gi_tool" && rt run -- --version > "$work/build.log" 2>&1 ) || { tail -5 "$work/build.log"; exit 1; }
cat > "$work/session.py" <<'PROGRAM'
import random
import sys

kind, tests, listed = sys.argv[1], int(sys.argv[2]), int(sys.argv[3])
clauses = 100_000
rng = random.Random(1)
out = []
if kind == "chain":
    # variable v forces v + 1, but for each `listed`th one
    out += [f"add -{v} {v + 1} 0" for v in range(1, clauses + 1) if v % (listed + 1)]
    starts = [v for v in range(1, clauses) if v % (listed + 1) == 1]
else:
    variables = clauses // 2
    for _ in range(clauses):
        a, b, c = rng.sample(range(1, variables + 1), 3)
        out.append(f"add {rng.choice((a, -a))} {rng.choice((b, -b))} {rng.choice((c, -c))} 0")
    starts = list(range(1, variables + 1))
out.append("test")
for _ in range(tests):
    out += [f"assume {rng.choice(starts)} 0", "test", "untest"]
print("\n".join(out))
PROGRAM

# KIND LISTED: microseconds a test, the session without tests taken off
measure() {
  python3 "$work/session.py" "$1" 0 "$2" > "$work/base"
  python3 "$work/session.py" "$1" "$tests" "$2" > "$work/input"
  command time -f '%U %S' -o "$work/without" "$tool" run < "$work/base" > "$work/output"
  command time -f '%U %S' -o "$work/with" "$tool" run < "$work/input" > "$work/output"
  words=$(grep '^implied' "$work/output" | wc -w)
  awk -v name="$1, $2" -v tests="$tests" -v words="$words" '{ seconds = $1 + $2 - seconds } END {
    printf "%-20s %10.1f us a test, %8.1f literals listed a test\n", name, seconds * 1e6 / tests, words / tests - 2 }' "$work/without" "$work/with"
}

for listed in 1 10 100 1000; do measure chain "$listed"; done
measure random 0
