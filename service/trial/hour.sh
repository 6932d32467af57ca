#!/bin/sh
# Runs everything at once for two hours in all, in pieces of 20 minutes, and stores what the witness found: clients of all kinds,
# partitions, full disks, lost packets and messages, kills, stops, lost and older states, operators, holders that stay, and
# exchanges of the plan and back, again and again.
#
#     service/trial/hour.sh                           all six pieces, one after the other
#     service/trial/hour.sh --piece N [OPTION..]      one of them; N is 1 to 6
#
# Each piece has a seed of its own, and its own TTL and shards. Options are those of the trial: --seed 7 repeats the incidents of a
# piece, and --weight "voters killed=9" has more of one kind. With options, or if PIECE_SECONDS has another length, nothing
# is stored.
#
# By hand, when the code of the clients or the voters has changed: service/check.sh says so. It builds the programs, and takes a
# network of its own, so other trials may run beside it. It needs root, iproute2, nftables, curl and util-linux (unshare). Ends with
# the status of the trial. What happened is in service/out/history-N, which `trial --judge` judges again.
set -eu
here=$(CDPATH= cd -- "$(dirname -- "$(readlink -f -- "$0")")/.." && pwd)
if [ $# = 0 ]; then
    status=0
    for piece in 1 2 3 4 5 6; do "$0" --piece "$piece" || status=$?; done
    exit "$status"
fi
[ "$1" = --piece ] || { echo "usage: hour.sh [--piece N [OPTION..]]" >&2; exit 2; }
piece=$2
shift 2
case $piece in
    1) of="--ttl 5s --shards 1" ;;
    2) of="--ttl 5s --shards 8" ;;
    3) of="--ttl 5s --shards 64" ;;
    4) of="--ttl 3s --shards 8" ;;
    5) of="--ttl 3s --shards 256" ;;
    6) of="--ttl 10s --shards 8" ;;
    *) echo "hour.sh: pieces are 1 to 6" >&2; exit 2 ;;
esac
seconds=${PIECE_SECONDS:-1200}
file=$here/trial/long.txt
"$here/build" cmd/qlock-voter cmd/qlockctl cmd/qlockd trial
folder=$(mktemp -d "${TMPDIR:-$here/out}/hour-XXXXXX")
cp -R "$here/out/bin" "$folder/bin" # another piece may build them again meanwhile
trap 'rm -rf "$folder"' EXIT
trap 'exit 143' TERM
commit=$(git -C "$here" rev-parse HEAD)
[ -z "$(git -C "$here" status --porcelain -- . ':!trial/long.txt')" ] || commit=$commit-changed
options="--everything --all-kinds --for ${seconds}s --each 8 --places 24 $of"
begin=$(cat /proc/loadavg)
status=0
# shellcheck disable=SC2086
unshare -n -m sh -c 'ip link set lo up && exec "$@"' sh "$folder/bin/trial" $options "$@" --python "$here/../python" \
    --bin "$folder/bin" --folder "$folder/cluster" --coterie "$here/wheel-4.toml" \
    --exchange "$here/wheel-4-grown.toml" --history "$here/out/history-$piece" > "$folder/found" 2>&1 || status=$?
{
    echo "piece $piece of $commit"
    echo "\$ trial $options $*"
    echo "load at the begin $begin"
    echo "load at the end $(cat /proc/loadavg)"
    cat "$folder/found"
} > "$folder/output"
cat "$folder/output"
if [ "$status" != 0 ]; then
    for log in "$folder"/cluster/*.log; do
        case $log in */nats-*) ;; *) echo "-- $(basename "$log")"; tail -n 3 "$log" ;; esac
    done
fi
if [ $# = 0 ] && [ "$seconds" = 1200 ] && grep -q 'two inside' "$folder/output"; then
    awk -v piece="$piece" '$1 == "piece" { other = $2 != piece } other' "$file" > "$folder/others"
    cat "$folder/others" "$folder/output" > "$file"
fi
exit "$status"
