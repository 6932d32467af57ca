#!/bin/sh
# Measures the service beside etcd: three servers of it and its concurrency.Mutex, in turn on one disk. Then runs of a program under a
# lock: by qlockctl, by it and an agent, and by etcdctl, which take turns.
#
#     apt-get install etcd-server etcd-client golang-etcd-server-dev        besides what service/build needs
#     service/bench/bench.sh FOLDER [SECONDS [ROUNDS]]          the folder is on the disk to measure; it is made, and removed
set -eu
here=$(CDPATH= cd -- "$(dirname -- "$(readlink -f -- "$0")")" && pwd)
service=$here/..
bin=$service/out/bin
mkdir "$1"
folder=$(readlink -f -- "$1")
seconds=${2:-10}
rounds=${3:-1}
"$service/build" cmd/qlock-voter cmd/qlockctl cmd/qlockd bench bench/etcd
etcd_servers=http://127.0.0.1:23790,http://127.0.0.1:23791,http://127.0.0.1:23792
etcds=
trap '[ -z "$etcds" ] || kill $etcds 2> /dev/null || true; rm -rf "$folder"' EXIT

# starts three servers of etcd with new data
start_etcd() {
    cluster=e0=http://127.0.0.1:23800,e1=http://127.0.0.1:23801,e2=http://127.0.0.1:23802
    for i in 0 1 2; do
        etcd --name "e$i" --data-dir "$folder/etcd-$1-$i" --initial-cluster "$cluster" --initial-cluster-state new \
            --listen-client-urls "http://127.0.0.1:2379$i" --advertise-client-urls "http://127.0.0.1:2379$i" \
            --listen-peer-urls "http://127.0.0.1:2380$i" --initial-advertise-peer-urls "http://127.0.0.1:2380$i" \
            > "$folder/etcd-$1-$i.log" 2>&1 &
        etcds="$etcds $!"
    done
    sleep 5
}

for round in $(seq "$rounds"); do
    "$bin/bench" --bin "$bin" --coterie "$service/wheel-4.toml" --folder "$folder/qlock-$round" --for "${seconds}s"
    start_etcd "$round"
    "$bin/etcd" --servers "$etcd_servers" --for "${seconds}s"
    "$bin/bench" --bin "$bin" --coterie "$service/wheel-4.toml" --folder "$folder/runs-$round" --runs 50 --etcd "$etcd_servers"
    # shellcheck disable=SC2086
    kill $etcds
    # shellcheck disable=SC2086
    wait $etcds 2> /dev/null || true
    etcds=
done
