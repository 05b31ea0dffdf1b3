#!/bin/sh
# Refuses each allocation of the calls on a bundle in turn, and checks what they answer; makes many bundles, and has many answers from
# one. Under valgrind, if there is one, it does the same with fewer of them, and looks for errors and leaks.
#
# It needs rt and a C compiler.
set -eu
here=$(cd "$(dirname "$0")" && pwd)
root=$(cd "$here/../.." && pwd)
. "$root/bindings/library.sh"
built=$(mktemp -d)
trap 'rm -rf "$built"' EXIT
cc -std=c11 -Wall -Wextra -O1 -g -I"$header" -Wl,--wrap=malloc -Wl,--wrap=realloc -Wl,--wrap=free -o "$built/refused" \
    "$here/refused.c" "$library/libfluent_c.a" "$kit/liblibc_c.a"
"$built/refused"
if command -v valgrind >/dev/null; then
    valgrind --quiet --error-exitcode=1 --leak-check=full --show-leak-kinds=all "$built/refused" 20 100000
else
    echo "no valgrind: skipped"
fi
