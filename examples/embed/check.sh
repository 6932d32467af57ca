#!/bin/sh
# Builds the libraries, and checks them from outside:
#
# - race.c, race.py and race.rs play the same race, and print what is in expected.txt;
# - plan.c plans a wheel, checks the plan and deals a cycle of it in both orders: expected-plan.txt;
# - fuzz.c and fuzz_plan.c try the boundaries with random bytes, once more with the sanitizers of the C compiler, and
#   fuzz_plan.c refuses memory;
# - leases.c plays voters and clients as processes, with leases that end, lost disks and clients without a disk, and a
#   witness reads what they wrote; played with a guard that admits everything, it has to find a fault;
# - saves.c plays voters that save only if they must, and crash; played without any save, two clients have to be inside;
# - loops.py runs the loops of docs/embedding.md with losses, repeats and crashes;
# - the tests of python/, also of the package as pip installs it, without a network.
#
# What needs a compiler or an interpreter that isn't there is left out, and named.
#
#     examples/embed/check.sh            says what differs, and ends with status 1 if anything does
set -eu
here=$(CDPATH= cd -- "$(dirname -- "$0")" && pwd)
root=$here/../..
build=${QLOCK_BUILD:-$root/build}
work=$(mktemp -d)
trap 'rm -rf "$work"' EXIT
trap 'exit 143' TERM
passed=0
failed=0
left_out=

has() {
    command -v "$1" > /dev/null 2>&1
}

# try NAME FILE COMMAND..: runs a command, whose output has to be that file
try() {
    name=$1
    file=$here/$2
    shift 2
    if "$@" > "$work/out" && diff -u "$file" "$work/out"; then
        passed=$((passed + 1))
    else
        echo "$name failed" >&2
        failed=$((failed + 1))
    fi
}

# holds NAME COMMAND..: runs a command, which has to end with status 0
holds() {
    name=$1
    shift
    if "$@"; then
        passed=$((passed + 1))
    else
        echo "$name failed" >&2
        failed=$((failed + 1))
    fi
}

# ends NAME STATUS LINE COMMAND..: runs a command, which has to end with that status, its output with a line like that
ends() {
    name=$1
    status=$2
    line=$3
    shift 3
    ended=0
    "$@" > "$work/out" || ended=$?
    if [ "$ended" -eq "$status" ] && tail -n 1 "$work/out" | grep -qx "$line"; then
        passed=$((passed + 1))
    else
        cat "$work/out" >&2
        echo "$name failed" >&2
        failed=$((failed + 1))
    fi
}

[ -n "${QLOCK_BUILD:-}" ] || "$root/library"

cc=${CC:-cc}
# each request of the planning library for memory goes through fuzz_plan.c
counted=-Wl,--wrap=malloc,--wrap=realloc,--wrap=free

# strict FILES.. -o PROGRAM: compiles with all warnings as errors
strict() {
    "$cc" -std=c99 -Wall -Wextra -Werror -O2 -I"$root/include" "$@"
}

# sanitized FILES.. -o PROGRAM: compiles with the sanitizers, if the compiler has them
sanitized() {
    "$cc" -g -O1 -fsanitize=address,undefined -I"$root/include" "$@" 2> "$work/err"
}

if has "$cc"; then
    strict "$here/race.c" "$build/libqlock.a" -o "$work/race"
    strict "$here/plan.c" "$build/libqlock_plan.a" "$build/libqlock.a" -o "$work/plan"
    strict "$here/fuzz.c" "$build/libqlock.a" -o "$work/fuzz"
    strict "$here/fuzz_plan.c" "$build/libqlock_plan.a" $counted -o "$work/fuzz-plan"
    strict "$here/saves.c" "$build/libqlock.a" -o "$work/saves"
    strict "$here/leases.c" "$here/leases_node.c" "$build/libqlock.a" -o "$work/leases"
    try race.c expected.txt "$work/race"
    try plan.c expected-plan.txt "$work/plan"
    holds fuzz.c "$work/fuzz"
    holds fuzz_plan.c "$work/fuzz-plan"
    ends saves.c 0 "at most one was inside" "$work/saves" 200000 1
    ends "saves.c without saves" 1 "two clients are inside" "$work/saves" 200000 1 never
    ends leases.c 0 "no two interleave" "$work/leases" 1000 1
    ends "leases.c with a wrong guard" 1 "[0-9]* records have a fault" "$work/leases" 1000 5 5 guard
    # the allocator of a sanitizer finds memory that is used after it was given back
    if sanitized "$here/fuzz.c" "$build/libqlock.a" -o "$work/fuzz-checked" &&
        sanitized "$here/fuzz_plan.c" "$build/libqlock_plan.a" $counted -o "$work/fuzz-plan-checked" &&
        sanitized "$here/leases.c" "$here/leases_node.c" "$build/libqlock.a" -o "$work/leases-checked"; then
        holds "fuzz.c with sanitizers" "$work/fuzz-checked" 50000 7
        holds "fuzz_plan.c with sanitizers" "$work/fuzz-plan-checked" 5000 7
        ends "leases.c with sanitizers" 0 "no two interleave" "$work/leases-checked" 200 2
    else
        left_out="$left_out sanitizers"
    fi
else
    left_out="$left_out C"
fi
if has rustc; then
    rustc --edition 2021 -D warnings -O "$here/race.rs" -o "$work/race-rs" -L "native=$build" -l static=qlock
    try race.rs expected.txt "$work/race-rs"
else
    left_out="$left_out Rust"
fi
if has python3; then
    try race.py expected.txt python3 "$here/race.py" "$build/libqlock.so"
    export QLOCK_LIBRARY="$build/libqlock.so" QLOCK_PLAN_LIBRARY="$build/libqlock_plan.so" PYTHONDONTWRITEBYTECODE=1
    holds "tests of python/" env PYTHONPATH="$root/python" python3 -m unittest discover -q -s "$root/python/tests"
    holds loops.py env PYTHONPATH="$root/python" python3 "$here/loops.py" "$root/docs/embedding.md"
    # a copy is installed, since pip leaves files beside what it builds
    if python3 -m venv "$work/venv" 2> "$work/err" && cp -r "$root/python" "$work/python"; then
        holds "pip install" "$work/venv/bin/pip" install -q --no-index --disable-pip-version-check "$work/python"
        holds "tests of the installed package" env -C "$work" "$work/venv/bin/python" -m unittest discover -q -s "$root/python/tests"
    else
        left_out="$left_out pip"
    fi
else
    left_out="$left_out Python"
fi

echo "embedding: $passed checks passed, $failed failed${left_out:+, left out:$left_out}"
[ "$failed" -eq 0 ]
