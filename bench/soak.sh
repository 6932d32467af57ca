#!/usr/bin/env bash
# A long run of the lock: 8 clients of a grid of 3 by 3, by rounds of 1000 passes each, which is the most that `qlock run` takes.
#
#     bench/soak.sh [ROUNDS [BUSY]]      (1000 rounds, which are a million passes of each client, beside 0 busy loops)
#
# Each round's record has to be accepted by `qlock replay`, and its register to be 8000. Prints the passes, the passes a second
# of `run` alone, the longest round, and the most memory of any round. BUSY is how many loops keep the processors busy meanwhile.
# Ends with status 1 at the first round that is wrong. It needs GNU time (Debian's `time`).
set -eu
root=$(CDPATH= cd -- "$(dirname -- "$0")/.." && pwd)
rounds=${1:-1000}
busy=${2:-0}
clients=8
passes=1000
work=$(mktemp -d)
loops=()
trap 'kill "${loops[@]}" 2> /dev/null || true; rm -rf "$work"' EXIT
[ -x /usr/bin/time ] || { echo "soak.sh: there is no /usr/bin/time (Debian: time)" >&2; exit 1; }

# builds the program where it has to be, so that no figure has that in it
"$root/qlock" make grid 3 3 > "$work/grid"
program=$root/build/qlock
{ cat "$work/grid"; echo %%; "$program" plan < "$work/grid"; } > "$work/planned"

for ((loop = 0; loop < busy; loop++)); do
    while :; do :; done &
    loops+=($!)
done

for ((round = 1; round <= rounds; round++)); do
    begin=$(date +%s%N)
    /usr/bin/time -q -a -o "$work/memory" -f %M "$program" run "$clients" "$passes" 1000000000000 < "$work/planned" > "$work/record" ||
        { echo "soak.sh: round $round failed" >&2; exit 1; }
    echo $(($(date +%s%N) - begin)) >> "$work/times"
    { cat "$work/planned"; echo %%; cat "$work/record"; } | "$program" replay > "$work/account" ||
        { echo "soak.sh: the record of round $round is refused" >&2; exit 1; }
    grep -qx "register $((clients * passes))" "$work/account" ||
        { echo "soak.sh: round $round: $(grep register "$work/account")" >&2; exit 1; }
done

awk -v each=$((clients * passes)) -v busy="$busy" '
    NR == FNR { total += $1; if ($1 > longest) longest = $1; rounds++; next }
    $1 > most { most = $1 }
    END {
        printf "%d rounds, %d passes, all records accepted, beside %d busy loops\n", rounds, rounds * each, busy
        printf "%.0f passes a second, the longest round %.2f s, %.1f MB at most\n", rounds * each / (total / 1e9), longest / 1e9, most * 1024 / 1e6
    }' "$work/times" "$work/memory"
