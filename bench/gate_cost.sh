#!/usr/bin/env bash
# What the merge gate costs from nothing: runs it with nothing kept, and prints for each crate the processor seconds of its proof, of its tests' proofs and of its
# edits, then what took longer than eight minutes, the gate's whole processor time and how long it took. A check is looked at once a second, so up to a second
# of each is missed. The gate's own output goes to the file that is named, or else to gate.log in a new folder. Linux alone.
#
#   bench/gate_cost.sh [LOG]
set -u
top=$(cd "$(dirname "$0")/.." && pwd)
work=$(mktemp -d)
log=${1:-$work/gate.log}
ticks=$(getconf CLK_TCK)

# Once a second: a line 'process-and-start crate kind ticks' for each check that runs.
look() {
  while :; do
    for stat in /proc/[0-9]*/stat; do
      read -r line 2> /dev/null < "$stat" || continue
      [[ $line == *'(rattle)'* ]] || continue
      pid=${line%% *}
      words=" $(tr '\0' ' ' 2> /dev/null < "/proc/$pid/cmdline") "
      folder=$(readlink "/proc/$pid/cwd" 2> /dev/null)
      [[ $words =~ \ --crate-name\ ([a-z0-9_]+)\  ]] || continue
      crate=${BASH_REMATCH[1]}
      kind=edits
      if [[ $folder == "$top"/crates/* ]]; then
        kind=proof
        [[ $words == *' --test '* ]] && kind=tests
      fi
      set -- ${line#*) }
      echo "$pid-${20} $crate $kind $((${12} + ${13} + ${14} + ${15}))"
    done
    sleep 1
  done
}

look > "$work/looks" &
looker=$!
cd "$top" || exit 1
TIMEFORMAT='%R %U %S'
{ time rt ci --anew > "$log" 2>&1; } 2> "$work/time"
status=$?
kill "$looker"
sed -n 's/^\([a-z0-9_]\+\).*:.*/\1/p' crates.txt > "$work/crates"
awk -v ticks="$ticks" '
  function cell(crate, kind) { return cost[crate, kind] ? sprintf("%d", cost[crate, kind] + 0.5) : "" }
  FILENAME ~ /crates$/ { names[$1] = 1; next }
  FILENAME ~ /time$/ { real = $1; processor = $2 + $3; next }
  { last[$1] = $4; crate[$1] = $2; kind[$1] = $3 }
  END {
    for (it in last) { cost[crate[it], kind[it]] += last[it] / ticks; sum[kind[it]] += last[it] / ticks }
    print "| Crate | Proof | Tests | Edits |"
    print "|---|---|---|---|"
    for (name in names) printf "| `%s` | %s | %s | %s |\n", name, cell(name, "proof"), cell(name, "tests"), cell(name, "edits") | "sort"
    close("sort")
    printf "| together | %d | %d | %d |\n\n", sum["proof"], sum["tests"], sum["edits"]
    for (name in names) {
      if (cost[name, "proof"] > 480) printf "longer than eight minutes: the proof of %s\n", name
      if (cost[name, "tests"] > 480) printf "longer than eight minutes: the tests of %s\n", name
    }
    printf "%d processor minutes in all (user and system), in %d minutes\n", processor / 60, real / 60
  }' "$work/crates" "$work/time" "$work/looks"
tail -n 1 "$log"
echo "the gate's output: $log"
exit "$status"
