#!/bin/sh
# Builds the Rust program beside this file over the static library, runs it, and compares what it prints with `expected`.
# It needs rt and rustc.
set -eu
here=$(cd "$(dirname "$0")" && pwd)
root=$(cd "$here/../.." && pwd)
. "$root/bindings/library.sh"
built=$(mktemp -d)
trap 'rm -rf "$built"' EXIT
rustc --edition 2021 -O -o "$built/answer" "$here/answer.rs" \
    -L native="$library" -l static=fluent_c -L native="$kit" -l static=libc_c
"$built/answer" | tee "$built/printed"
diff "$here/../c/expected" "$built/printed"
