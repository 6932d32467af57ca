#!/bin/sh
# Times cycles of about a million places, made of plans of 4, 64 and 4096 quorums with 4, 64 and 487 distinct weights, beside
# the list of all their places: making one, and looking up a ticket.
#
#     bench/cycles.sh [LOOKUPS]      (1000000 where none is given)
#
# Prints for each the least of nine runs, less what the program takes without that work (a cycle of blocks is made of a copy of
# the plan, which is in its time), and where GNU time is found the memory that a cycle adds, give or take some hundred KB. The
# proved program is crates/bench.
set -eu
lookups=${1:-1000000}
root=$(CDPATH= cd -- "$(dirname -- "$0")/.." && pwd)
work=$(mktemp -d)
trap 'rm -rf "$work"' EXIT

"$root/tools/run" bench cycles blocks 4 3 2 2 10 > /dev/null
cp "$root/build/bench" "$work/program"

least() { # the least nanoseconds of nine runs
    for run in 1 2 3 4 5 6 7 8 9; do
        begin=$(date +%s%N)
        "$work/program" cycles "$@" > /dev/null
        echo $(($(date +%s%N) - begin))
    done | sort -n | head -1
}

memory() { # the most memory, in kilobytes
    /usr/bin/time -f %M -o "$work/memory" "$work/program" cycles "$@" > /dev/null
    cat "$work/memory"
}

for plan in "4 4 100000" "64 64 480" "4096 487 1"; do
    set -- $plan
    for kind in blocks list; do
        makes=101
        one=$(least $kind $1 $2 $3 1 0)
        some=$(least $kind $1 $2 $3 $makes 0)
        looked=$(least $kind $1 $2 $3 1 "$lookups")
        awk -v kind=$kind -v quorums="$1" -v one="$one" -v some="$some" -v looked="$looked" -v makes=$((makes - 1)) -v lookups="$lookups" 'BEGIN {
            printf "%4d quorums, %-6s: %9.1f us to make, %6.1f ns a look-up", quorums, kind, (some - one) / makes / 1e3, (looked - one) / lookups }'
        if [ -x /usr/bin/time ]; then
            printf ', %d KB\n' $(($(memory $kind $1 $2 $3 1 0) - $(memory $kind $1 $2 $3 0 0)))
        else
            echo
        fi
    done
done
