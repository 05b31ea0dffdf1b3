#!/bin/sh
# Builds the static library without any proof, for a first look at the bindings: about four minutes in the place of an hour.
# A library that is younger than its sources stays as it is.
#
#   first_look.sh [OUT]      OUT is the folder that gets libfluent_c.a, and fluent_c.pc for pkg-config; without it,
#                            crates/fluent_c/out/unproved
#
# It is the same code, compiled with no check but that of types and borrows: take it to try the bindings, and not for a
# release. FLUENT_C_LIB=OUT names it to each script of the bindings, and PKG_CONFIG_PATH=OUT to pkg-config.
set -eu
root=$(cd "$(dirname "$0")/.." && pwd)
. "$root/tools/lib/crates.sh"
out=${1:-$root/crates/fluent_c/out/unproved}
mkdir -p "$out"
out=$(cd "$out" && pwd)
library=$out/libfluent_c.a

# The sources that are younger than the library.
younger() (
    cd "$root/crates"
    # shellcheck disable=SC2046 # no name of a crate has a space
    find ../crates.txt $(crates_used fluent_c | sed 's|$|/src|') -newer "$library"
)

if [ ! -f "$library" ] || [ -n "$(younger)" ]; then
    python3 -B "$root/bindings/unproved.py" "$out"
fi
"$root/bindings/pkg_config.sh" "$out"
echo "unproved: $library"
echo "try it: FLUENT_C_LIB=$out bindings/c/run.sh"
