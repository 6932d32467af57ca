#!/bin/sh
# Tries the service where its packages are: vet, tests with the race detector, the guard in SQLite
# and PostgreSQL, a simulation in virtual time, and a trial of two to four minutes with clients of all
# kinds, several shards, kills, stops, frozen servers, lost states, lost messages, operators, and an
# exchange of the plan and back. Beside it each reader of bytes is fuzzed for ten seconds. Then come
# attacks, which the service has to stand, and a look at how old the stored run of the trial is. It
# takes some seven minutes.
#
#     service/check.sh [--fuzz SECONDS] [SECONDS]     (of each reader that is fuzzed; of the trial)
#
# What happened in the trial is in service/out/history then. It fails where a package is missing. With
# LEAVE_OUT=service it then leaves the service out, and passes. Builds the libraries where it has to
# (./library).
set -eu
trap 'exit 143' TERM
fuzz_seconds=10
if [ "${1:-}" = --fuzz ]; then
    fuzz_seconds=$2
    shift 2
fi
here=$(CDPATH= cd -- "$(dirname -- "$(readlink -f -- "$0")")" && pwd)
root=$here/..
go=$here/go

missing=
for package in curl gcc pkg-config golang-go nats-server golang-github-nats-io-go-nats-dev golang-github-coreos-bbolt-dev \
    golang-github-prometheus-client-golang-dev golang-github-burntsushi-toml-dev golang-github-spf13-cobra-dev; do
    dpkg-query -W -f '${Status}' "$package" 2> /dev/null | grep -q 'ok installed' || missing="$missing $package"
done
if [ -n "$missing" ]; then
    [ "${LEAVE_OUT:-}" = service ] || { echo "service: apt-get install$missing (or LEAVE_OUT=service)" >&2; exit 1; }
    echo "note: the service was left out; apt-get install$missing"
    exit 0
fi
build=${QLOCK_BUILD:-$root/build}
[ -e "$build/libqlock.a" ] && [ -e "$build/libqlock_plan.a" ] || "$root/library"

packages="./agent ./qlock ./locks ./guard ./transport ./internal/boot ./internal/bus ./internal/claims ./internal/config ./internal/event ./internal/exchange ./internal/local ./internal/measure \
    ./internal/operator ./internal/qlockd ./internal/remind ./internal/unit ./internal/users ./internal/voter ./internal/wire ./internal/worlds \
    ./cmd/qlock-voter ./cmd/qlockctl ./cmd/qlockd ./trial ./attacks/session ./bench"
laid=$(gofmt -l "$here/agent" "$here/qlock" "$here/locks" "$here/guard" "$here/transport" "$here/internal" "$here/cmd" "$here/trial" "$here/attacks" "$here/bench" "$here/simulation")
[ -z "$laid" ] || { echo "service: gofmt would change $laid" >&2; exit 1; }
# shellcheck disable=SC2086
"$go" vet $packages ./simulation ./simulation/cmd
# Tests that fail are run once more, alone: many wait for times to pass (tests.py).
tests="$go test -race -count=1 -timeout 1200s"
if ls /usr/lib/postgresql/*/bin/initdb > /dev/null 2>&1; then
    # shellcheck disable=SC2086
    "$here/guard/sql/check.sh" python3 "$here/tests.py" "$tests" $packages
else
    # shellcheck disable=SC2086
    python3 "$here/tests.py" "$tests" $packages
    echo "note: the guard was not tried in PostgreSQL; apt-get install postgresql"
fi

# in one goroutine, so without the race detector
"$go" test -count=1 -timeout 600s ./simulation

# of a program that knows the next level of a cluster
"$go" test -race -count=1 -tags nextlevel -run 'Format|Level' ./internal/voter

"$here/build" cmd/qlock-voter cmd/qlockctl cmd/qlockd trial attacks/session
"$here/build" --next cmd/qlock-voter cmd/qlockctl attacks/session
folder=$(mktemp -d "${TMPDIR:-$here/out}/trial-XXXXXX")
setsid nice -n 10 "$here/fuzz" "$fuzz_seconds" > "$folder/fuzz" 2>&1 &
fuzzing=$!
trap '[ -z "$fuzzing" ] || kill -- "-$fuzzing" 2> /dev/null || true; rm -rf "$folder"' EXIT
# a TTL that a machine with much else to do keeps, too
"$here/out/bin/trial" --bin "$here/out/bin" --coterie "$here/wheel-4.toml" --folder "$folder/cluster" --ttl 5s --for "${1:-120}s" \
    --exchange "$here/wheel-4-grown.toml" --shards 8 --all-kinds --python "$root/python" --history "$here/out/history"
"$here/out/bin/trial" --bin "$here/out/bin" --coterie "$here/wheel-4.toml" --folder "$folder/open" --for 60s --open-guard
fuzzed=0
wait "$fuzzing" || fuzzed=$?
fuzzing=
cat "$folder/fuzz"
[ "$fuzzed" = 0 ] || exit 1
python3 "$here/attacks/run.py"
"$here/trial/age.sh"
echo "service: passed"
