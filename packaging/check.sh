#!/bin/sh
# Makes the packages (./package), installs them into empty places, and uses them there without the kit and without this tree.
#
#     packaging/check.sh
#
# The tarball and the wheel always; the .deb files as root, on a machine where none of them is installed, and then removed again.
set -eu
root=$(CDPATH= cd -- "$(dirname -- "$(readlink -f -- "$0")")/.." && pwd)
packages=$root/build/packages
"$root/package" > /dev/null
work=$(mktemp -d)
installed=
finish() {
    [ -z "$installed" ] || dpkg --purge $installed > /dev/null 2>&1 || true
    rm -rf "$work"
}
trap finish EXIT
trap 'exit 143' TERM
failed=0
passed=0
version=$("$root/tools/version")
cp "$root/examples/three-racks.toml" "$root/examples/wheel-3-planned.txt" "$root/examples/expected/plan-three-racks.out" "$work"
cat > "$work/use.c" <<'END'
#include <qlock.h>
#include <qlock_plan.h>
#include <stdio.h>
int main(void) {
    static uint8_t voter[QLOCK_VOTER_BYTES];
    static const char coterie[] = "voters = [\"a\", \"b\", \"c\"]\nquorums = [[\"a\", \"b\"], [\"a\", \"c\"], [\"b\", \"c\"]]\n";
    static uint8_t plan[40000];
    size_t written;
    if (qlock_version() != QLOCK_VERSION || qlock_voter_new(0, 1000, voter, sizeof voter) != QLOCK_DONE) return 1;
    if (qlock_plan((const uint8_t *)coterie, sizeof coterie - 1, plan, sizeof plan, &written) != QLOCK_DONE) return 2;
    return fwrite(plan, 1, written, stdout) != written;
}
END
printf 'quorum-plan 1\nload 2/3\ncycle 3\nquorum 1 1 1\nvoter 1 1 1\n' > "$work/two-of-three"

# holds WORDS..: a command succeeds
holds() {
    if "$@" > "$work/out" 2>&1; then
        passed=$((passed + 1))
    else
        failed=$((failed + 1))
        echo "packaging: failed: $*"
        head -n 5 "$work/out"
    fi
}

# uses BIN: the programs there plan, check and show
uses() (
    PATH=/usr/bin:/bin
    "$1/qlock" plan < "$work/three-racks.toml" | cmp - "$work/plan-three-racks.out" \
        && [ "$("$1/qlock" check < "$work/wheel-3-planned.txt")" = "load 3/5 cycle 5" ] \
        && [ "$("$1/qlock-show" --version)" = "qlock-show $version" ] \
        && "$1/qlock-show" report < "$work/wheel-3-planned.txt" | grep -q '</html>'
)

# explains PLACE: its programs and the page of all faults agree
explains() {
    "$1/bin/qlock-show" explain all | cmp - "$1/share/doc/qlock/faults.md"
}

# compiles NAME WORDS..: a C program is compiled with these words, and plans
compiles() {
    name=$1
    shift
    "${CC:-cc}" -o "$work/$name" "$work/use.c" "$@" && "$work/$name" | cmp - "$work/two-of-three"
}

# goes PATH PKGCONFIG: a Go program with the package locks is built and runs
goes() (
    mkdir -p "$work/go/src/use"
    cat > "$work/go/src/use/main.go" <<'END'
package main

import (
	"fmt"

	"calvundek.example/service/agent"
	"calvundek.example/service/guard"
	"calvundek.example/service/locks"
)

func main() {
	_, _, _ = agent.New, locks.Open, guard.New
	fmt.Println("built")
}
END
    cd "$work/go/src/use"
    export GO111MODULE=off GOPATH="$work/go:$1:/usr/share/gocode" GOCACHE="$work/go/cache" PKG_CONFIG_PATH="$2" LD_LIBRARY_PATH="${2%/pkgconfig}"
    [ "$(go run .)" = built ]
)

# shared BIN: the same program, over the shared libraries of a folder
shared() {
    flags=$(PKG_CONFIG_PATH=$1/pkgconfig pkg-config --cflags --libs qlock qlock_plan)
    # shellcheck disable=SC2086
    LD_LIBRARY_PATH=$1 compiles use-shared $flags
}

echo "packaging: the archive"
tar -xzf "$packages/qlock-$version-linux-x86_64.tar.gz" -C "$work"
place=$work/qlock-$version-linux-x86_64
holds uses "$place/bin"
holds compiles use-archive -I"$place/include" "$place/lib/libqlock_plan.a" "$place/lib/libqlock.a"
holds shared "$place/lib"
holds test -s "$place/share/doc/qlock/claims.md"
holds explains "$place"
holds test -s "$place/README.md"
holds "$place/bin/qlock" plan -f "$place/share/doc/qlock/examples/three-racks.toml"
# shellcheck disable=SC2016
holds sh -c 'test -s "$1" && ! grep -q "\.\./" "$1"' sh "$place/share/doc/qlock/README.md"
if [ -e "$place/bin/qlockctl" ]; then
    holds test "$("$place/bin/qlockctl" --version)" = "qlockctl version $version"
    holds test "$("$place/bin/qlock-voter" --version)" = "qlock-voter version $version"
    holds test "$("$place/bin/qlockd" --version)" = "qlockd version $version"
    holds test -s "$place/share/systemd/qlockd.service"
    holds test -s "$place/share/qlock/sql/postgresql.sql"
    holds test -s "$place/share/qlock/alerts.yml"
    holds goes "$place/share/gocode" "$place/lib/pkgconfig"
fi

echo "packaging: the wheel"
if python3 -m venv "$work/venv" > /dev/null 2>&1; then
    holds "$work/venv/bin/pip" install -q --no-index --disable-pip-version-check "$packages/qlock-$version-py3-none-linux_x86_64.whl"
    # shellcheck disable=SC2016
    holds env -i -C "$work" "$work/venv/bin/python" -c "
import qlock
assert qlock.__version__ == qlock.library_version() == '$version'
plan = qlock.Plan.find(open('three-racks.toml').read())
assert str(plan.load) == '4/9', plan.load
voter, client = qlock.Voter(0), qlock.Client(1)
(ask,) = client.ask({0})
(locked,) = voter.take(ask)
assert client.take(locked).entered
assert qlock.Fence().admit(client.show_pass()) == 1
from qlock import agent
try:
    agent.Client('/there/is/none').lock('orders')
except agent.Unreachable:
    pass
else:
    raise AssertionError"
    printf 'm0 east\nm1 west\nm2 west\n' > "$work/zones"
    # shellcheck disable=SC2016
    holds env -i -C "$work" sh -c 'venv/bin/python -m qlock import zones zones | "$1/bin/qlock" plan | cmp - two-of-three' sh "$place"
else
    echo "packaging: no venv here (apt-get install python3-venv), so the wheel was not tried"
fi

if [ "$(id -u)" = 0 ] && command -v dpkg > /dev/null && [ -e "$packages/qlock_${version}_amd64.deb" ]; then
    echo "packaging: the .deb files"
    installed=$(for it in "$packages"/*.deb; do dpkg-deb -f "$it" Package; done)
    holds dpkg -i "$packages"/*.deb
    holds uses /usr/bin
    holds explains /usr
    # shellcheck disable=SC2046
    holds compiles use-installed $(pkg-config --cflags --libs qlock qlock_plan)
    holds test -e /usr/share/man/man1/qlock.1.gz
    holds test -s /usr/share/doc/qlock/service.md
    holds test -s /usr/share/doc/qlock/operating.md
    holds test -s /usr/share/doc/qlock/service-design.md
    if [ -e /usr/bin/qlockctl ]; then
        holds qlockctl --help
        holds test -s /usr/share/qlock/sql/sqlite.sql
        holds python3 -m json.tool /usr/share/qlock/dashboard.json
        holds test -s /usr/share/bash-completion/completions/qlockctl
        holds test -s /usr/share/zsh/vendor-completions/_qlock-voter
        holds test -s /usr/share/bash-completion/completions/qlockd
        holds test -e /usr/share/man/man1/qlockd.1.gz
        holds test -s /lib/systemd/system/qlockd.service
        holds grep -q '^g qlock-clients ' /usr/lib/sysusers.d/qlock-service.conf
        holds test -d /etc/qlock
        holds sh -c "dpkg-query -W -f '\${Depends}' qlock-service-dev | grep -q burntsushi-toml-dev.*golang-x-sys-dev"
        holds goes /usr/share/gocode ""
    fi
else
    echo "packaging: not as root, so the .deb files were not tried"
fi
echo "packaging: $passed checks passed, $failed failed"
[ "$failed" = 0 ]
