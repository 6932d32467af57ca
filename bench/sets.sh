#!/usr/bin/env bash
# Times the commands whose time goes into sets of voters: all pairs of a coterie's quorums are compared twice, and the check of
# a certificate adds up weights over members.
#
#     bench/sets.sh [OTHER [RUNS]]      (RUNS is 15 where none is given)
#
# OTHER is the executable of another build of the program, such as one from before a change. Prints the smallest number of
# milliseconds of all runs of each command, and the same of OTHER, with how many times as long OTHER takes. The two take turns,
# and have to print the same. `make wheel 3` shows what the start of the program takes.
set -eu
root=$(CDPATH= cd -- "$(dirname -- "$0")/.." && pwd)
other=${1:-}
runs=${2:-15}
if [ -n "$other" ]; then
    [ -f "$other" ] && [ -x "$other" ] || { echo "sets.sh: $other is not an executable" >&2; exit 2; }
    other=$(CDPATH= cd -- "$(dirname -- "$other")" && pwd)/$(basename -- "$other")
fi
work=$(mktemp -d)
trap 'rm -rf "$work"' EXIT

# builds the program where it has to be, so that no figure has that in it
"$root/qlock" make wheel 3 > /dev/null
program=$root/build/qlock

# runs a build on an input, keeps what it prints, and leaves the nanoseconds in `took`; the build's name comes first
took=0
timed() {
    local name=$1 input=$2 begin
    shift 2
    begin=$(date +%s%N)
    "$@" < "$input" > "$work/$name.out" || { echo "sets.sh: $* failed" >&2; exit 1; }
    took=$(($(date +%s%N) - begin))
}

# times a command of both builds in turn and prints its line: a label, the input, and the words of the command
row() {
    local label=$1 input=$2 ours=0 theirs=0 run
    shift 2
    for ((run = 0; run < runs; run++)); do
        timed ours "$input" "$program" "$@"
        if [ "$ours" -eq 0 ] || [ "$took" -lt "$ours" ]; then ours=$took; fi
        [ -n "$other" ] || continue
        timed theirs "$input" "$other" "$@"
        if [ "$theirs" -eq 0 ] || [ "$took" -lt "$theirs" ]; then theirs=$took; fi
        cmp -s "$work/ours.out" "$work/theirs.out" || { echo "sets.sh: $label: the builds print different texts" >&2; exit 1; }
    done
    awk -v label="$label" -v ours="$ours" -v theirs="$theirs" 'BEGIN {
        printf "%-44s %10.1f", label, ours / 1e6
        if (theirs > 0) printf " %10.1f %8.1f\n", theirs / 1e6, theirs / ours; else printf " %10s %8s\n", "-", "-"
    }'
}

# a coterie and its plan, as `check` reads them
planned() {
    "$program" plan < "$1" > "$work/plan"
    { cat "$1"; echo %%; cat "$work/plan"; } > "$2"
}

"$program" make majority 14 > "$work/majority"
awk -f "$root/bench/shifts.awk" > "$work/shifts"
planned "$work/majority" "$work/majority-planned"
planned "$work/shifts" "$work/shifts-planned"

printf '%-44s %10s %10s %8s\n' 'milliseconds' ours other ratio
row 'make wheel 3' /dev/null make wheel 3
row 'make majority 14' /dev/null make majority 14
row 'plan: 3003 quorums of 8 of 14 voters' "$work/majority" plan
row 'check: the same, with the plan' "$work/majority-planned" check
row 'check: 4096 quorums of 33 of 64 voters' "$work/shifts-planned" check
