#!/bin/sh
# Says how old the stored run of the trial is (hour.sh), in commits to the clients and the voters since, which pieces were not run, and
# which of them found something. Ends with status 1 if there is none, or a piece is older than so many.
#
#     service/trial/age.sh [MOST]
set -eu
here=$(CDPATH= cd -- "$(dirname -- "$(readlink -f -- "$0")")" && pwd)
most=${1:-30}
if [ "$(git -C "$here" rev-parse --is-shallow-repository 2> /dev/null)" != false ]; then
    echo "note: no history of git is here, so nobody knows how old the stored run of the trial is"
    exit 0
fi
status=0
grep -q '^piece ' "$here/long.txt" || { echo "trial: no piece of the long run is stored; service/trial/hour.sh" >&2; status=1; }
for piece in 1 2 3 4 5 6; do
    commit=$(sed -n "s/^piece $piece of //p" "$here/long.txt")
    [ -n "$commit" ] || { echo "note: piece $piece of the long run of the trial is not stored"; continue; }
    age=$(git -C "$here" rev-list --count "$commit..HEAD" -- "$here/../locks" "$here/../internal/voter" 2> /dev/null) || age=unknown
    if [ "$age" = unknown ] || [ "$age" -gt "$most" ]; then
        echo "trial: piece $piece of the stored run is of $commit: its age is $age; service/trial/hour.sh --piece $piece" >&2
        status=1
    fi
done
awk '/^piece/ { piece = $2 } /^trial: / { print "note: piece " piece " of the long run: " $0 }' "$here/long.txt"
exit "$status"
