#!/bin/sh
# Writes FOLDER/numbers.json from the data of ICU that the program NODE carries: `collect.sh NODE VERSION FOLDER`. VERSION is that of
# its CLDR, as `node -p process.versions.cldr` says it.
set -eu
here=$(cd "$(dirname "$0")" && pwd)
icu=$(mktemp -d)
trap 'rm -rf "$icu"' EXIT
python3 -B "$here/unpack.py" "$1" "$icu"
mkdir -p "$3"
python3 -B "$here/collect.py" "$icu" "$2" > "$3/numbers.json"
