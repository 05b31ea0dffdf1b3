#!/bin/sh
# Builds the extension module as the file that is named, for any Python from 3.10 on that has the stable ABI. Without a C compiler or
# the headers of Python it says so and builds nothing: the module does without it, and its calls take longer.
set -eu
here=$(cd "$(dirname "$0")" && pwd)
rm -f "$1"
include=$(python3 -c 'import sysconfig; print(sysconfig.get_paths()["include"])')
if ! command -v cc >/dev/null || [ ! -f "$include/Python.h" ]; then
    echo 'no C compiler, or no headers of Python: there is no extension module' >&2
    exit 0
fi
cc -shared -fPIC -O2 -Wall -Wextra -I "$include" -I "$here/../../crates/fluent_c" -Wl,--build-id=none -o "$1" "$here/kozhvadi/_fast.c"
