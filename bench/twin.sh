# Sets `program` to qlock and `twin` to the same program in plain Rust (bench/twin), both built, with the twin in the folder
# $1. Where rustc is not found, `twin` is empty. To be read by the scripts of bench/, which set `root`.
"$root/qlock" make wheel 3 > /dev/null
program=$root/build/qlock
twin=
if command -v rustc > /dev/null; then
    rustc --edition 2021 -O -o "$1/twin" "$root/bench/twin/main.rs"
    twin=$1/twin
fi
