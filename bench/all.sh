#!/bin/sh
# Runs every benchmark in turn: the table beside plain Rust where rustc is found, steps of the automata, sets of voters, cycles, draws of tickets, a world's script, members
# in threads, the longest inputs where GNU time is found, and plans where glpsol is found. bench/soak.sh is apart, since it takes
# minutes.
#
#     bench/all.sh
#
# What each prints is said at the head of its script. Those that time something beside ours print the ratio.
set -eu
bench=$(CDPATH= cd -- "$(dirname -- "$0")" && pwd)

printf '%s processors, %s\n' "$(getconf _NPROCESSORS_ONLN)" "$(uptime | sed 's/.*\(load average\)/\1/')"
if command -v rustc > /dev/null; then
    printf '\n== table\n'
    "$bench/table.sh"
fi
for name in steps sets cycles draws world run; do
    printf '\n== %s\n' "$name"
    "$bench/$name.sh"
done
printf '\n== longest\n'
if [ -x /usr/bin/time ]; then
    "$bench/longest.sh"
else
    echo "/usr/bin/time is not found (Debian: time)"
fi
printf '\n== planner\n'
if command -v glpsol > /dev/null; then
    "$bench/planner.sh" "$bench/coteries"
else
    echo "glpsol is not found (Debian: glpk-utils)"
fi
