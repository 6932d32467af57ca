#!/bin/sh
# Tries the guard in a PostgreSQL server of its own, which it starts and ends. service/check.sh calls it where Debian's
# package postgresql is there.
#
#     guard/sql/check.sh COMMAND ..      runs a command with QLOCK_PGHOST set
set -eu
bin=$(ls -d /usr/lib/postgresql/*/bin 2> /dev/null | sort -V | tail -n 1)
[ -n "$bin" ] || { echo "guard: apt-get install postgresql" >&2; exit 1; }
folder=$(mktemp -d)
# the server does not run as root
as() { if [ "$(id -u)" = 0 ]; then runuser -u postgres -- "$@"; else "$@"; fi; }
[ "$(id -u)" != 0 ] || chown postgres "$folder"
trap 'as "$bin/pg_ctl" -D "$folder/data" -m immediate stop > /dev/null 2>&1 || true; rm -rf "$folder"' EXIT
trap 'exit 143' TERM
cd "$folder"
as "$bin/initdb" -D "$folder/data" -U postgres -A trust > /dev/null
as "$bin/pg_ctl" -D "$folder/data" -w -o "-c listen_addresses= -c unix_socket_directories=$folder" -l "$folder/log" start > /dev/null
chmod 755 "$folder"
cd "$OLDPWD"
QLOCK_PGHOST=$folder "$@"
