#!/bin/sh
# Times draws of tickets: `qlock deal` by plans of 64 quorums (a wheel) and of 4096 quorums of 33 of 64 voters each.
#
#     bench/draws.sh [TICKETS]     (100000 where none is given, which is the most)
#
# Prints for each plan the least seconds of nine runs for one ticket, nearly all of which go into the check of all pairs of
# quorums, and for all tickets; and what that leaves, for the wheel, for a ticket and its line of output.
set -eu
tickets=${1:-100000}
root=$(CDPATH= cd -- "$(dirname -- "$0")/.." && pwd)
work=$(mktemp -d)
trap 'rm -rf "$work"' EXIT

"$root/qlock" make wheel 63 > "$work/64"
program=$root/build/qlock
awk -f "$root/bench/shifts.awk" > "$work/4096"
for quorums in 64 4096; do
    "$program" plan < "$work/$quorums" > "$work/plan"
    { cat "$work/$quorums"; echo %%; cat "$work/plan"; } > "$work/input"
    for run in 1 2 3 4 5 6 7 8 9; do
        for count in 1 "$tickets"; do
            begin=$(date +%s%N)
            "$program" deal "$count" < "$work/input" > /dev/null
            echo "$count $(($(date +%s%N) - begin))"
        done
    done | awk -v quorums="$quorums" -v tickets="$tickets" '
        !($1 in least) || $2 < least[$1] { least[$1] = $2 }
        END {
            printf "%d quorums: 1 ticket %.3f s, %d tickets %.3f s", quorums, least[1] / 1e9, tickets, least[tickets] / 1e9
            if (quorums == 64 && tickets > 1) printf ", %.0f ns a ticket", (least[tickets] - least[1]) / (tickets - 1)
            print ""
        }'
done
