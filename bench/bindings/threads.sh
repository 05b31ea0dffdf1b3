#!/bin/sh
# Asks bundles a million times from four threads: as it is, with the sanitizer of threads, and with those of addresses and of what C
# leaves undefined. The library isn't built with them, so they see its calls of malloc and free, and the program's own memory.
set -eu
here=$(cd "$(dirname "$0")" && pwd)
root=$(cd "$here/../.." && pwd)
. "$root/bindings/library.sh"
built=$(mktemp -d)
trap 'rm -rf "$built"' EXIT
for flags in -O2 '-O1 -g -fsanitize=thread' '-O1 -g -fsanitize=address,undefined -fno-sanitize-recover=undefined'; do
    echo "== $flags"
    # shellcheck disable=SC2086 # these are several words
    cc -std=c11 -Wall -Wextra -pthread $flags -I "$header" -o "$built/threads" "$here/threads.c" -L "$library" -lfluent_c \
        -L "$kit" -llibc_c
    # What is freed is kept for a while, to find uses of it: not so much that memory seems to grow.
    ASAN_OPTIONS=quarantine_size_mb=1 "$built/threads"
done
