#!/usr/bin/env bash
# Times `qlock run` with 1, 2, 4 and 8 clients of 1000 passes each, on three coteries, beside a counter behind a plain lock
# (bench/twin, where rustc is found).
#
#     bench/run.sh [REPEATS]      (5 where none is given; the best of them is printed)
#
# Prints passes a second, with the start of the program, the check of the plan and the record's text in them, and how many
# times as long as the plain counter it takes.
set -eu
repeats=${1:-5}
root=$(CDPATH= cd -- "$(dirname -- "$0")/.." && pwd)
work=$(mktemp -d)
trap 'rm -rf "$work"' EXIT

. "$root/bench/twin.sh" "$work"

# the least nanoseconds of several calls of a command on an input; the last line of its output has to be this register
fastest() {
    local input=$1 register=$2 best=0 begin took i
    shift 2
    for ((i = 0; i < repeats; i++)); do
        begin=$(date +%s%N)
        "$@" < "$input" > "$work/out"
        took=$(($(date +%s%N) - begin))
        [ "$(tail -n 1 "$work/out")" = "register $register" ] || { echo "run.sh: not $register passes" >&2; exit 1; }
        if [ "$best" -eq 0 ] || [ "$took" -lt "$best" ]; then best=$took; fi
    done
    echo "$best"
}

printf '%-12s %8s %10s %12s %12s %8s\n' coterie clients passes 'passes a s' 'plain lock' ratio
for shape in 'majority 3' 'grid 2 2' 'cyclic 7 0 1 3'; do
    # shellcheck disable=SC2086
    "$root/qlock" make $shape > "$work/coterie"
    "$root/qlock" plan < "$work/coterie" > "$work/plan"
    { cat "$work/coterie"; echo %%; cat "$work/plan"; } > "$work/input"
    for clients in 1 2 4 8; do
        passes=$((clients * 1000))
        took=$(fastest "$work/input" "$passes" "$root/build/qlock" run "$clients" 1000 1000000000000)
        beside=0
        [ -z "$twin" ] || beside=$(fastest /dev/null "$passes" "$twin" counter "$clients" 1000)
        awk -v shape="$(echo "$shape" | cut -d' ' -f1,2)" -v clients="$clients" -v n="$passes" -v ours="$took" -v plain="$beside" 'BEGIN {
            printf "%-12s %8s %10s %12.0f", shape, clients, n, n * 1e9 / ours
            if (plain > 0) printf " %12.0f %8.1f\n", n * 1e9 / plain, ours / plain; else printf " %12s %8s\n", "-", "-"
        }'
    done
done
