#!/bin/sh
# Draws the pictures of the documents from examples/, and of all other examples.
#
#     docs/pictures/make.sh [FOLDER]      (into docs/pictures where no folder is given)
set -eu
here=$(CDPATH= cd -- "$(dirname -- "$0")" && pwd)
root=$here/../..
folder=${1:-$here}
work=$(mktemp -d)
trap 'rm -rf "$work"' EXIT

# draws the load of a plan of a coterie
planned() {
    "$root/qlock" plan < "$root/examples/$1.toml" > "$work/plan"
    { cat "$root/examples/$1.toml"; echo %%; cat "$work/plan"; } > "$work/input"
    "$root/qlock-show" picture load < "$work/input" > "$folder/load-$1.svg"
}

for coterie in grid-3-3 majority-5 wheel-3 wheel-3-fast-hub cyclic-7 tree-2 three-racks weighted-votes; do
    planned "$coterie"
done
for world in race late-message withdrawal crash exchange eviction; do
    "$root/qlock-show" picture world < "$root/examples/world-$world.txt" > "$folder/world-$world.svg"
done
