#!/usr/bin/env bash
# Times qlock beside the same program in plain Rust with nothing proved (bench/twin), and prints one table.
#
#     bench/table.sh [RUNS]      (15 where none is given)
#
# A row has what is done, the least milliseconds of all runs of each program, which take turns, and their ratio. The start of
# the program, reading, the check of the coterie and writing are in each figure. Before a row is timed the two have to write the
# same. Passes are those of members in threads, through the lock of any two of three voters.
set -eu
runs=${1:-15}
root=$(CDPATH= cd -- "$(dirname -- "$0")/.." && pwd)
work=$(mktemp -d)
trap 'rm -rf "$work"' EXIT
. "$root/bench/twin.sh" "$work"
[ -n "$twin" ] || { echo "table.sh: rustc is not found" >&2; exit 1; }

# a coterie and its plan, as the parts of an input
planned() {
    "$program" plan < "$1" > "$work/plan"
    cat "$1"
    echo %%
    cat "$work/plan"
}

# the least milliseconds of each of two commands on an input, in turn, and their ratio; the label comes first
row() {
    local label=$1 input=$2 proved=$3 plain=$4 words name begin run
    shift 4
    words=("$@")
    for ((run = 0; run < runs; run++)); do
        for name in "$proved" "$plain"; do
            begin=$(date +%s%N)
            "$name" "${words[@]}" < "$input" > "$work/out"
            echo "$name $(($(date +%s%N) - begin))"
        done
    done | awk -v label="$label" -v proved="$proved" -v plain="$plain" '
        !($1 in least) || $2 < least[$1] { least[$1] = $2 }
        END { printf "%-34s %10.1f %10.1f %7.2f\n", label, least[proved] / 1e6, least[plain] / 1e6, least[proved] / least[plain] }'
}

# a row of a command that writes the same in both programs
same() {
    local label=$1 input=$2
    shift 2
    "$program" "$@" < "$input" > "$work/proved"
    "$twin" "$@" < "$input" > "$work/plain"
    cmp "$work/proved" "$work/plain" || { echo "table.sh: $* differs" >&2; exit 1; }
    row "$label" "$input" "$program" "$twin" "$@"
}

# a row of a part, which crates/bench measures: the label, the word of the part, and the numbers
part() {
    local label=$1
    shift
    "$root/tools/run" bench "$@" > "$work/proved"
    "$twin" "$@" > "$work/plain"
    cmp <(grep . "$work/proved" | tail -n 1) "$work/plain" || { echo "table.sh: $* differs" >&2; exit 1; }
    row "$label" /dev/null "$root/build/bench" "$twin" "$@"
}

"$program" make majority 3 > "$work/maj3"
planned "$work/maj3" > "$work/maj3.planned"
"$program" make wheel 3 > "$work/wheel3"
planned "$work/wheel3" > "$work/wheel3.planned"
"$program" make majority 14 > "$work/maj14"
planned "$work/maj14" > "$work/maj14.planned"
"$program" make wheel 63 > "$work/wheel63"
{
    printf 'voters = ["a"]\nquorums = [["a"]]\n%%%%\nquorum-plan 1\nload 1/1\ncycle 1\nquorum 1\nvoter 1\n%%%%\nworld 1 1099511627776\n'
    awk 'BEGIN { for (i = 0; i < 200000; i++) printf "ask 0\ndeliver %d\ndeliver %d\nleave 0\ndeliver %d\n", 3 * i, 3 * i + 1, 3 * i + 2 }'
} > "$work/script"

# a script of clients who go through the lock one after the other, behind a coterie and its plan: the planned coterie, the size of
# its quorums, and the numbers of clients and of rounds
played() {
    cat "$1"
    printf '%%%%\nworld %d 1099511627776\n' "$3"
    awk -v size="$2" -v clients="$3" -v rounds="$4" 'BEGIN {
        for (round = 0; round < rounds; round++) {
            printf "ask %d\n", round % clients
            for (i = 0; i < 2 * size; i++) printf "deliver %d\n", sent++
            printf "leave %d\n", round % clients
            for (i = 0; i < size; i++) printf "deliver %d\n", sent++
        }
    }'
}
"$program" make grid 8 8 > "$work/grid8"
planned "$work/grid8" > "$work/grid8.planned"
played "$work/maj3.planned" 2 4 60000 > "$work/small-world"
played "$work/grid8.planned" 15 64 10000 > "$work/large-world"

printf '%-34s %10s %10s %7s\n' work 'qlock ms' 'plain ms' ratio
same 'make wheel 3 (the start alone)' /dev/null make wheel 3
same 'world, a million steps' "$work/script" world
same 'world, 3 voters and 4 clients' "$work/small-world" world
same 'world, 64 voters and 64 clients' "$work/large-world" world
same 'deal 100000, majority 3' "$work/maj3.planned" deal 100000
same 'deal 100000, wheel 3' "$work/wheel3.planned" deal 100000
same 'make majority 14' /dev/null make majority 14
same 'check, majority 14' "$work/maj14.planned" check
same 'plan, majority 14' "$work/maj14" plan
same 'plan, wheel 63' "$work/wheel63" plan

part '11 million steps of the automata' steps 1000000
part '200000 passes, 1 member' passes 1 200000
part '100000 passes, 4 members' passes 4 25000
part '100000 passes, 8 members' passes 8 12500
part '48000 passes, 32 members' passes 32 1500

# the same with a busy loop on each processor
loops=()
trap 'kill "${loops[@]}" 2> /dev/null || true; rm -rf "$work"' EXIT
for ((loop = 0; loop < $(getconf _NPROCESSORS_ONLN); loop++)); do
    while :; do :; done &
    loops+=($!)
done
runs=3
part '8000 passes, 8 members, busy machine' passes 8 1000
