#!/bin/sh
# Times steps of the voter and of clients, and beside them the same automata in plain Rust (bench/twin) where rustc is
# found: two clients take turns at the lock of one voter, 11 steps a round.
#
#     bench/steps.sh [ROUNDS]      (1000000 rounds, 11 million steps, where none is given)
#
# The programs run in turn, nine times each. Prints what was done, the least nanoseconds a step of each, and their ratio. Then a
# tenth of the rounds, in which whoever made a step is saved as bytes and restored from them, as in the library for C.
# The proved program is crates/bench.
set -eu
rounds=${1:-1000000}
root=$(CDPATH= cd -- "$(dirname -- "$0")/.." && pwd)
work=$(mktemp -d)
trap 'rm -rf "$work"' EXIT

"$root/tools/run" bench steps 3 > /dev/null
cp "$root/build/bench" "$work/proved"
if command -v rustc > /dev/null; then
    rustc --edition 2021 -O -o "$work/plain" "$root/bench/twin/main.rs"
fi

"$work/proved" steps "$rounds"
for run in 1 2 3 4 5 6 7 8 9; do
    for program in proved plain; do
        [ -x "$work/$program" ] || continue
        begin=$(date +%s%N)
        "$work/$program" steps "$rounds" > /dev/null
        echo "$program $(($(date +%s%N) - begin))"
    done
done | awk -v steps=$((rounds * 11)) '
    !($1 in least) || $2 < least[$1] { least[$1] = $2 }
    END {
        printf "proved %.1f ns a step\n", least["proved"] / steps
        if ("plain" in least)
            printf "plain Rust %.1f ns a step, ratio %.2f\n", least["plain"] / steps, least["proved"] / least["plain"]
    }'

fewer=$(((rounds + 9) / 10))
for run in 1 2 3 4 5 6 7 8 9; do
    begin=$(date +%s%N)
    "$work/proved" steps "$fewer" bytes > /dev/null
    echo $(($(date +%s%N) - begin))
done | sort -n | awk -v steps=$((fewer * 11)) 'NR == 1 { printf "proved, by bytes %.0f ns a step\n", $1 / steps }'
