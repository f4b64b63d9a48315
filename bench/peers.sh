#!/usr/bin/env bash
# Processor seconds of the program beside its peers' in one run: DIMACS CNF files beside `minisat`, `picosat` and `cadical`, and sessions
# beside the libraries of the last two, driven by the same lines (peers/). It needs Debian's packages minisat, picosat, cadical and
# libcadical-dev, and python3. `-` is no answer within the limit; a `!` marks answers that differ. It is no part of the gate.
#
#   bench/peers.sh [SECONDS [SEED]]      20 seconds a run and seed 1 where no numbers are given
set -eu
limit=${1:-20}
seed=${2:-1}
top=$(cd "$(dirname "$0")/.." && pwd)
work=$(mktemp -d)
trap 'rm -rf "$work"' EXIT
program=$top/crates/gi_tool/out/gi_tool
TIMEFORMAT='%U %S'

( cd "$top/crates/gi_tool" && rt run -- run < /dev/null > "$work/build.log" 2>&1 ) || { tail -5 "$work/build.log"; exit 1; }
cc -O2 -o "$work/picosat_session" "$top/bench/peers/picosat_session.c" -lpicosat
cc -O2 -c -o "$work/cadical_session.o" "$top/bench/peers/cadical_session.c"
c++ -o "$work/cadical_session" "$work/cadical_session.o" -lcadical
python3 "$top/bench/peers/generate.py" "$work" "$seed"

# COMMAND..: its processor seconds, or `-` where it was cut off; what it printed goes to the file `said`
timed() {
  local status=0
  { time timeout "$limit" "$@" > "$work/said" 2> "$work/errors" || echo $? > "$work/status"; } 2> "$work/time"
  [ -f "$work/status" ] && { status=$(cat "$work/status"); rm "$work/status"; }
  if [ "$status" = 124 ]; then echo -; else awk '{ printf "%.2f", $1 + $2 }' "$work/time"; fi
}

printf '%-16s %9s %9s %9s %9s\n' file gi_tool minisat picosat cadical
for file in "$work"/*.cnf; do
  { printf 'load cnf %d\n' "$(wc -c < "$file")"; cat "$file"; printf 'solve\nwait\nbye\n'; } > "$work/lines"
  ours=$(timed sh -c "exec '$program' run -q < '$work/lines'")
  our=$(grep -oE '^(sat|unsat)' "$work/said" || true)
  one=$(timed minisat "$file" /dev/null)
  their=$(grep -oE '^(SAT|UNSAT)ISFIABLE' "$work/said" | sed 's/ISFIABLE//' | tr A-Z a-z || true)
  two=$(timed picosat -n "$file")
  three=$(timed cadical -q -n "$file")
  mark=
  [ -n "$our" ] && [ -n "$their" ] && [ "$our" != "$their" ] && mark=' !'
  printf '%-16s %9s %9s %9s %9s%s\n' "$(basename "$file" .cnf)" "$ours" "$one" "$two" "$three" "$mark"
done

printf '\n%-16s %9s %9s %9s\n' session gi_tool picosat cadical
for file in "$work"/*.session; do
  ours=$(timed sh -c "exec '$program' run -q < '$file'")
  grep -oE '^(sat|unsat)' "$work/said" > "$work/our" || true
  one=$(timed sh -c "exec '$work/picosat_session' < '$file'")
  mark=
  [ "$ours" != - ] && [ "$one" != - ] && ! cmp -s "$work/our" "$work/said" && mark=' !'
  two=$(timed sh -c "exec '$work/cadical_session' < '$file'")
  printf '%-16s %9s %9s %9s%s\n' "$(basename "$file" .session)" "$ours" "$one" "$two" "$mark"
done
