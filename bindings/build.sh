#!/bin/sh
# Builds the static library, crates/fluent_c/out/libfluent_c.a, and writes fluent_c.pc next to it, for pkg-config.
#
# The merge gate leaves a library of each crate. If they are there, only fluent_c itself is proved again, in two minutes. Else
# `rt lib` proves first what it stands on and hasn't been built, which takes up to an hour.
set -eu
root=$(cd "$(dirname "$0")/.." && pwd)
. "$root/tools/kit.sh"
. "$root/tools/lib/crates.sh"
cd "$root/crates/fluent_c"
mkdir -p out
"$root/bindings/pkg_config.sh" out
set -- --crate-name fluent_c --crate-type staticlib -o out/libfluent_c.a
for name in std $(crate_libraries fluent_c); do
    folder=$root/crates/$name/out/rlib
    if [ ! -d "$root/crates/$name" ]; then
        folder=$kit/rlibs
    elif [ ! -d "$folder/$name.rlib" ]; then
        exec rt lib
    fi
    set -- "$@" --extern "$name=$folder/$name.rlib"
done
for folder in "$kit/rlibs" "$root"/crates/*/out/rlib; do
    # Only `rt lib` and its like leave a stamp: these libraries aren't the gate's.
    [ ! -e "$folder/stamp" ] || exec rt lib
    set -- "$@" -L "dependency=$folder"
done
exec "$kit/bin/rattle" build "$@" --antt-project "$kit/rattle/logic/antt-project.json" --logic-built "$kit/logic_built" \
    --toolchain "$kit/toolchain" --jobs 2 src/lib.rt
