#!/bin/sh
# Builds the C program beside this file over the static library, runs it, and compares what it prints with `expected`.
# It needs rt and a C compiler.
set -eu
here=$(cd "$(dirname "$0")" && pwd)
root=$(cd "$here/../.." && pwd)
. "$root/bindings/library.sh"
built=$(mktemp -d)
trap 'rm -rf "$built"' EXIT
cc -O2 -Wall -Wextra -I "$header" -o "$built/answer" "$here/answer.c" \
    -L "$library" -lfluent_c -L "$kit" -llibc_c
"$built/answer" | tee "$built/printed"
diff "$here/expected" "$built/printed"
