#!/bin/sh
# Builds fluent_handle.c and its tests over the static library, with the sanitizers if the compiler has them, and runs them. Makes
# a shared library, as a release has it, and runs the programs for LuaJIT and for Go over it, if these are there: each has to
# print inbox.expected, and that of README.md what the page says. What inbox.lua declares has to be in fluent_handle.h.
set -eu
here=$(cd "$(dirname "$0")" && pwd)
root=$(cd "$here/../.." && pwd)
. "$root/bindings/library.sh"
built=$(mktemp -d)
trap 'rm -rf "$built"' EXIT
strict='-std=c11 -Wall -Wextra -Wpedantic -Werror'

sanitizer='-fsanitize=address,undefined -fno-sanitize-recover=undefined'
echo 'int main(void) { return 0; }' >"$built/none.c"
{ cc $sanitizer -o "$built/none" "$built/none.c" && "$built/none"; } 2>/dev/null || sanitizer=
cc $strict -O1 -g $sanitizer -I "$header" -I "$here" -o "$built/tests" "$here/tests.c" "$here/fluent_handle.c" \
    -L "$library" -lfluent_c -L "$kit" -llibc_c
"$built/tests"

cc $strict -O2 -fPIC -shared -I "$header" -o "$built/libfluent_c.so" "$here/fluent_handle.c" \
    -Wl,--whole-archive "$library/libfluent_c.a" -Wl,--no-whole-archive -L "$kit" -llibc_c
sed '1,/^ffi.cdef/d;/^]]/,$d' "$here/inbox.lua" >"$built/declared"
! grep -vxFf "$here/fluent_handle.h" "$built/declared"
if command -v luajit >/dev/null; then
    luajit "$here/inbox.lua" "$built/libfluent_c.so" | diff "$here/inbox.expected" -
    sed '1,/^```lua$/d;/^```$/,$d' "$here/README.md" >"$built/first.lua"
    grep -qF "\`$(luajit "$built/first.lua" "$built/libfluent_c.so")\`" "$here/README.md"
    echo 'LuaJIT: passed'
else
    echo 'LuaJIT: skipped, there is no luajit'
fi
if command -v go >/dev/null; then
    mkdir "$built/go"
    cp "$here/inbox.go" "$built/go"
    (
        cd "$built/go"
        export CGO_CFLAGS="-I$header -I$here" CGO_LDFLAGS="-L$built -lfluent_c -Wl,-rpath,$built"
        GO111MODULE=off GOCACHE=$built/cache go run inbox.go
    ) | diff "$here/inbox.expected" -
    echo 'Go: passed'
else
    echo 'Go: skipped, there is no go'
fi
