#!/usr/bin/env bash
# Times inputs of some 16 MiB, the most that the program reads, which are as bad as can be for one of its parts each.
#
#     bench/longest.sh [RUNS]      (RUNS is 5 where none is given)
#
# Prints for each the command, the megabytes that it reads, the least seconds of all runs, the most memory of any run in
# megabytes and in times of the input, and what the command says: the fault, or how many bytes it writes. It needs GNU time
# (Debian's `time`).
set -eu
root=$(CDPATH= cd -- "$(dirname -- "$0")/.." && pwd)
runs=${1:-5}
work=$(mktemp -d)
trap 'rm -rf "$work"' EXIT
[ -x /usr/bin/time ] || { echo "longest.sh: there is no /usr/bin/time (Debian: time)" >&2; exit 1; }

# builds the program where it has to be, so that no figure has that in it
"$root/qlock" make majority 3 > "$work/majority"
program=$root/build/qlock
{ cat "$work/majority"; echo %%; "$program" plan < "$work/majority"; echo %%; } > "$work/planned"

# the text so many times
repeated() {
    awk -v text="$1" -v count="$2" 'BEGIN { for (i = 0; i < count; i++) printf "%s", text }'
}

# times a command on an input, and prints its line: a label, the input, and the words of the command
row() {
    local label=$1 input=$2 run
    shift 2
    rm -f "$work/times"
    for ((run = 0; run < runs; run++)); do
        /usr/bin/time -q -a -o "$work/times" -f '%e %M' "$program" "$@" < "$input" > "$work/out" 2> "$work/err" || true
    done
    awk -v label="$label" -v words="$*" -v bytes="$(wc -c < "$input")" -v fault="$(head -n 1 "$work/err")" -v written="$(wc -c < "$work/out")" '
        NR == 1 || $1 < least { least = $1 }
        $2 > most { most = $2 }
        END {
            said = fault != "" ? fault : written " bytes"
            printf "%-28s %-8s %8.1f %8.2f %8.0f %7.1f  %s\n", label, words, bytes / 1e6, least, most * 1024 / 1e6, most * 1024 / bytes, said
        }' "$work/times"
    rm -f "$input"
}

printf '%-28s %-8s %8s %8s %8s %7s  %s\n' input command MB seconds 'MB used' times says
{ printf 'voters = '; repeated '[' 16700000; } > "$work/input"
row 'brackets' "$work/input" plan
{ printf 'voters = '; repeated '"' 16700000; } > "$work/input"
row 'quotation marks' "$work/input" plan
awk 'BEGIN { printf "voters = ["; for (i = 0; i < 1000000; i++) printf "\"n%d\", ", i; print "]\nquorums = [[\"n0\"]]" }' > "$work/input"
row 'a million names' "$work/input" plan
{ printf 'voters = ["a"]\nquorums = ['; repeated '["a"], ' 2390000; echo ']'; } > "$work/input"
row '2.4 million quorums of one' "$work/input" plan
{ printf 'voters = ["a"]\nquorums = [['; repeated '"a", ' 3300000; echo ']]'; } > "$work/input"
row 'one quorum of 3.3 million' "$work/input" plan
{ printf 'voters = ["'; repeated 'a' 16700000; printf '"]\nquorums = [["a"]]\n'; } > "$work/input"
row 'a name of 16.7 million bytes' "$work/input" plan
{ cat "$work/majority"; printf '%%%%\nquorum-plan 1\nload 2/3\ncycle 3\nquorum 1'; repeated ' 1' 8300000; printf '\nvoter 1 1 1\n'; } > "$work/input"
row 'a line of 8.3 million weights' "$work/input" check
{ cat "$work/majority"; printf '%%%%\n'; repeated 'quorum-plan 1' 1200000; } > "$work/input"
row 'a line of 15.6 million bytes' "$work/input" check
{ cat "$work/planned"; printf 'world 1 1000\n'; yes 'ask 0' | head -n 2700000; } > "$work/input"
row '2.7 million asks' "$work/input" world
{ cat "$work/planned"; printf 'world 1 1000\nask 0\n'; yes 'deliver 0' | head -n 1600000; } > "$work/input"
row '1.6 million repeats' "$work/input" world
{ cat "$work/planned"; printf 'quorum-record 1\n'; awk 'BEGIN { for (i = 999999; i >= 0; i--) printf "draw 0 %d %d\n", i, i % 3; print "register 0" }'; } > "$work/input"
row 'a million draws in reverse' "$work/input" replay
{ cat "$work/planned"; printf 'quorum-record 1\n'; yes 'draw 0 0 0' | head -n 1000000; echo 'register 0'; } > "$work/input"
row 'one draw a million times' "$work/input" replay
{ cat "$work/planned"; printf 'quorum-record 1\n'; awk 'BEGIN { for (i = 999999; i >= 0; i--) printf "pass 0 %d\n", i; print "register 1000000" }'; } > "$work/input"
row 'a million passes in reverse' "$work/input" replay
