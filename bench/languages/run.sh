#!/bin/sh
# Times the choice of languages from C: a negotiation of 5 requests among 200 languages, which may take 1 ms, and what a message costs
# more for each bundle that lacks it. It needs rt and a C compiler.
set -eu
here=$(cd "$(dirname "$0")" && pwd)
root=$(cd "$here/../.." && pwd)
. "$root/bindings/library.sh"
built=$(mktemp -d)
trap 'rm -rf "$built"' EXIT
# Languages without a script and a region of their own, the first 200.
awk '$2 == "-" && $3 == "-" { print $1 }' "$root/tools/languages/cldr-$(cat "$root/tools/cldr.txt")/likely.txt" | head -n 200 >"$built/languages"
cc -O2 -Wall -Wextra -I "$header" -o "$built/run" "$here/languages.c" -L "$library" -lfluent_c -L "$kit" -llibc_c
"$built/run" "$built/languages"
