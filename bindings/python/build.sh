#!/bin/sh
# Makes the shared library of the static one, in the folder of the module, and the extension if it can be built.
set -eu
here=$(cd "$(dirname "$0")" && pwd)
root=$(cd "$here/../.." && pwd)
. "$root/bindings/library.sh"
cc -shared -o "$here/kozhvadi/libfluent_c.so" -Wl,--whole-archive "$library/libfluent_c.a" -Wl,--no-whole-archive \
    -L "$kit" -llibc_c
"$here/extension.sh" "$here/kozhvadi/_fast.abi3.so"
