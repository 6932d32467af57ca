#!/bin/sh
# Tries what must not compile: a clerk that draws after it was dropped, a client's seat that joins twice or is copied, an office
# that draws after it was closed, and a call of the board, or a draw, that waits for a lock.
#
#     must-not-compile/run.sh
#
# `owners.txt` is the source of a crate over `dealer` and `board` that uses them as it should (under this name, since no crate of
# the tree has it). A copy of it is compiled as it stands, and has to
# be accepted. Then each NAME.edit puts one line in the place of another, and that copy has to be refused in the words of
# the edit. These are the compiler's own on a value that has moved, or that lacks a trait, so that no case is refused for another
# reason. An edit with a line `file:` changes that file of the copied crates.
#
# Prints the result of each case, and ends with `N cases, M wrong`, with status 1 where M is not 0. Nothing is proved here.
set -eu
here=$(CDPATH= cd -- "$(dirname -- "$0")" && pwd)
root=$(dirname -- "$here")
work=$(mktemp -d)
trap 'rm -rf "$work"' EXIT
trap 'exit 143' TERM
# the crates that it depends on, in the order of crates.txt; those without a folder are the kit's
below=$(cut -d: -f1 "$root/crates.txt" | grep -xF -e "$("$root/tools/below" dealer board)")
cases=0
wrong=0

# copies the crates below
for crate in $below; do
    mkdir -p "$work/crates/$crate"
    for part in src specs proofs; do
        [ ! -d "$root/crates/$crate/$part" ] || cp -R "$root/crates/$crate/$part" "$work/crates/$crate/$part"
    done
    grep "^$crate:" "$root/crates.txt" >> "$work/crates.txt"
done
echo 'owners: dealer board' >> "$work/crates.txt"
cp "$root/HANDLES" "$work/HANDLES"
mkdir "$work/crates/owners"
mkdir "$work/crates/owners/src"
source=$work/crates/owners/src/lib.rt
cp "$here/owners.txt" "$source"

# compiles the copy, and keeps what is said and the status
compile() {
    status=0
    (cd "$work/crates/owners" && rt try --test) > "$work/said" 2>&1 || status=$?
}

# prints what went wrong, and what was said
complain() {
    wrong=$((wrong + 1))
    echo "$1"
    tail -n 20 "$work/said"
}

compile
if [ "$status" -ne 0 ]; then
    complain 'the crate as it stands: refused'
else
    echo 'the crate as it stands: accepted'
fi

for edit in "$here"/*.edit; do
    cases=$((cases + 1))
    name=$(basename "$edit" .edit)
    file=$work/crates/$(sed -n 's/^file: //p' "$edit")
    [ -f "$file" ] || file=$source
    old=$(sed -n 's/^old: //p' "$edit")
    new=$(sed -n 's/^new: //p' "$edit")
    words=$(sed -n 's/^words: //p' "$edit")
    cp "$file" "$work/whole"
    if [ "$(grep -cxF -- "$old" "$file")" -ne 1 ] || [ -z "$words" ]; then
        complain "$name: the line to be replaced does not stand once, or there are no words"
        continue
    fi
    awk -v old="$old" -v new="$new" '{ print $0 == old ? new : $0 }' "$work/whole" > "$file"
    compile
    cp "$work/whole" "$file"
    if [ "$status" -eq 0 ]; then
        complain "$name: accepted"
    elif ! grep -qF -- "$words" "$work/said"; then
        complain "$name: refused in other words"
    else
        echo "$name: refused, $words"
    fi
done

echo "$cases cases, $wrong wrong"
[ "$cases" -eq 6 ] && [ "$wrong" -eq 0 ]
