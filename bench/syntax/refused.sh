#!/bin/sh
# Refuses each allocation of the calls of fluent_c in turn, and checks what they answer.
#
#   refused.sh FILE..
#
# Each FILE is a source of at most 1 MB; small ones will do, since each is read once for each of its allocations. It
# needs rt and a C compiler.
set -eu
[ $# -ge 1 ] || { sed -n '2,7s/^# \{0,1\}//p' "$0" >&2; exit 2; }
here=$(cd "$(dirname "$0")" && pwd)
crate=$here/../../crates/fluent_c
. "$here/../../tools/kit.sh"
(cd "$crate" && rt lib >/dev/null)
built=$(mktemp -d)
trap 'rm -rf "$built"' EXIT
cc -std=c11 -Wall -O1 -I"$crate" -Wl,--wrap=malloc -Wl,--wrap=realloc -o "$built/refused" \
    "$here/refused.c" "$crate/out/libfluent_c.a" "$kit/c/liblibc_c.a"
"$built/refused" "$@"
