#!/usr/bin/env bash
# Times `qlock plan` on each coterie of a folder beside glpsol and glpsol --exact (Debian's glpk-utils), in one run.
#
#     bench/planner.sh FOLDER [OLD]
#
# The coteries are TOML files as `qlock make` writes them: one quorum a line. Prints, for each, its voters and quorums, the load
# that qlock certified and the optimum that glpsol found (its inverse is the load), the least seconds of 15 runs of each, in turn,
# and qlock's time over glpsol's. With OLD, a program qlock of another version, it prints also the least seconds of that one, and
# qlock's time over these.
set -eu
folder=$1
old=${2:-}
root=$(CDPATH= cd -- "$(dirname -- "$0")/.." && pwd)
work=$(mktemp -d)
trap 'rm -rf "$work"' EXIT

# the linear program of a coterie: use the quorums as much as can be, no voter more than once
program_of() {
    awk '
        /^ *\[/ { q++; n = split($0, parts, "\""); for (i = 2; i < n; i += 2) on[parts[i]] = on[parts[i]] " + x" q }
        END {
            printf "Maximize\n use:"; for (j = 1; j <= q; j++) printf " + x%d", j
            printf "\nSubject To\n"; for (v in on) printf " v%d:%s <= 1\n", ++k, on[v]
            print "End"
        }' "$1"
}

# runs a command, notes its nanoseconds under a name, and keeps what it prints
timed() {
    local name=$1 begin
    shift
    begin=$(date +%s%N)
    "$@" > "$work/$name.out" 2>&1 || true
    echo "$name $(($(date +%s%N) - begin))" >> "$work/times"
}

# the least seconds that were noted under a name
least() {
    awk -v name="$1" '$1 == name && (!n || $2 < n) { n = $2 } END { printf "%.4f", n / 1e9 }' "$work/times"
}

# prints one number of seconds over another one
quotient() {
    awk -v form="$1" -v a="$2" -v b="$3" 'BEGIN { printf form, a / (b > 0 ? b : 0.0001) }'
}

# builds the program where it has to be, so that no figure has that in it
"$root/qlock" make wheel 3 > /dev/null
program=$root/build/qlock

# prints a row. The columns about OLD are there only with OLD
row() {
    if [ -n "$old" ]; then
        printf '%-28s %6s %8s %12s %10s %8s %8s %8s %7s %8s %8s\n' "$@"
    else
        printf '%-28s %6s %8s %12s %10s %8s %8s %8s %7s\n' "${@:1:9}"
    fi
}

row coterie voters quorums load optimum qlock glpsol exact ratio old new/old
for file in "$folder"/*.toml; do
    program_of "$file" > "$work/lp"
    rm -f "$work/times"
    for run in 1 2 3 4 5 6 7 8 9 10 11 12 13 14 15; do
        timed qlock sh -c 'exec "$1" plan < "$2"' sh "$program" "$file"
        [ -z "$old" ] || timed old sh -c 'exec "$1" plan < "$2"' sh "$old" "$file"
        timed plain glpsol --lp "$work/lp" -o "$work/solution"
        timed exact timeout 20 glpsol --exact --lp "$work/lp" -o "$work/exact-solution"
    done
    load=$(awk '/^load/ { print $2 }' "$work/qlock.out")
    voters=$(awk '/^voter / { print NF - 1 }' "$work/qlock.out")
    quorums=$(awk '/^quorum / { print NF - 1 }' "$work/qlock.out")
    optimum=$(awk '/^Objective/ { print $4 }' "$work/solution")
    qlock=$(least qlock)
    plain=$(least plain)
    exact=$(least exact)
    before=$(least old)
    row "$(basename "$file" .toml)" "${voters:--}" "${quorums:--}" "${load:-none}" "$optimum" "$qlock" "$plain" "$exact" \
        "$(quotient %.1f "$qlock" "$plain")" "$before" "$(quotient %.2f "$qlock" "$before")"
done
