#!/bin/sh
# Reads and writes a million mixed decimals by fluent_number and by Rust's f64 on the same texts, and prints the ratios:
# Rust's time by ours. The calls that it times are those of the crate in ours/, which is built for it.
# It needs rt, python3, rustc and a C compiler.
set -eu
here=$(cd "$(dirname "$0")" && pwd)
root=$(cd "$here/../.." && pwd)
. "$root/tools/kit.sh"
built=$(mktemp -d)
trap 'rm -rf "$built"' EXIT
python3 -B "$root/tools/lib/scratch.py" "$built/scratch" 'bench_number staticlib: fluent_number' "$here/ours"
crate=$built/scratch/crates/bench_number
(cd "$crate" && rt lib >"$built/log" 2>&1) || { cat "$built/log" >&2; exit 1; }
rustc --edition 2021 -O -C target-cpu=x86-64-v2 -o "$built/number" "$here/src/main.rs" \
    -L native="$crate/out" -l static=bench_number -L native="$kit/c" -l static=libc_c
"$built/number"
