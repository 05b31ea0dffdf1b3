#!/bin/sh
# Times dates from C, by fluent_write_date and in messages, and in messages from Rust. It needs rt and a C compiler, and cargo for Rust.
set -eu
here=$(cd "$(dirname "$0")" && pwd)
root=$(cd "$here/../.." && pwd)
. "$root/bindings/library.sh"
built=$(mktemp -d)
trap 'rm -rf "$built"' EXIT
cc -std=gnu11 -O2 -Wall -Wextra -I "$header" -o "$built/run" "$here/dates.c" -L "$library" -lfluent_c -L "$kit" -llibc_c
echo 'C:'
"$built/run" "${1:-1000000}"
if command -v cargo >/dev/null; then
    mkdir "$built/rust"
    cp -R "$here/Cargo.toml" "$here/src" "$built/rust"
    mkdir "$built/rust/kozhvadi"
    cp -R "$root/bindings/rust/Cargo.toml" "$root/bindings/rust/build.rs" "$root/bindings/rust/src" "$built/rust/kozhvadi"
    (cd "$built/rust" && FLUENT_C_LIB=$library RATTLE_KIT_C=$kit cargo build --quiet --release --offline --target-dir target)
    echo 'Rust:'
    "$built/rust/target/release/dates" "${1:-1000000}"
else
    echo 'Rust: no cargo: skipped'
fi
