#!/bin/sh
# Times `qlock world` on a script of a million steps: one voter and one client, who asks, is inside, leaves and asks again.
#
#     bench/world.sh [ROUNDS]      (200000 rounds of 5 steps where none is given)
#
# Prints the size of the script and of what it writes, the least seconds of nine runs, and the memory at most.
set -eu
rounds=${1:-200000}
root=$(CDPATH= cd -- "$(dirname -- "$0")/.." && pwd)
work=$(mktemp -d)
trap 'rm -rf "$work"' EXIT

# a round sends three messages: REQUEST, LOCKED and RELEASE
awk -v rounds="$rounds" 'BEGIN {
    printf "voters = [\"a\"]\nquorums = [[\"a\"]]\n%%%%\nquorum-plan 1\nload 1/1\ncycle 1\nquorum 1\nvoter 1\n%%%%\nworld 1 1099511627776\n"
    for (i = 0; i < rounds; i++) printf "ask 0\ndeliver %d\ndeliver %d\nleave 0\ndeliver %d\n", 3 * i, 3 * i + 1, 3 * i + 2
}' > "$work/script"

# builds the program where it has to be, so that no figure has that in it
"$root/qlock" make wheel 3 > /dev/null
program=$root/build/qlock

printf '%d steps, %d bytes in\n' $((5 * rounds)) "$(wc -c < "$work/script")"
if [ -x /usr/bin/time ]; then
    /usr/bin/time -f '%M KB at most' "$program" world < "$work/script" > "$work/out"
else
    "$program" world < "$work/script" > "$work/out"
fi
for run in 1 2 3 4 5 6 7 8 9; do
    begin=$(date +%s%N)
    "$program" world < "$work/script" > "$work/out"
    echo $(($(date +%s%N) - begin))
done | sort -n | awk -v bytes="$(wc -c < "$work/out")" -v steps=$((5 * rounds)) '
    NR == 1 { printf "%d bytes out, %.3f s, %.0f ns a step\n", bytes, $1 / 1e9, $1 / steps }'
