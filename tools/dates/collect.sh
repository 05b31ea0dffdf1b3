#!/bin/sh
# Writes FOLDER/dates.json and tags.txt from the data of ICU that the program NODE carries: `collect.sh NODE FOLDER`. The data of zones
# and locales is cut out by ../numbers/unpack.py.
set -eu
here=$(cd "$(dirname "$0")" && pwd)
icu=$(mktemp -d)
trap 'rm -rf "$icu"' EXIT
python3 -B "$here/../numbers/unpack.py" "$1" "$icu/data"
mkdir -p "$2"
(cd "$icu" && "$1" "$here/tags.js" "$icu/data" > /dev/null)
python3 -B "$here/collect.py" "$icu/data" "$icu/tags.json" > "$icu/raw.json"
python3 -B "$here/pack.py" "$icu/raw.json" > "$2/dates.json"
python3 -B -c 'import json, sys; print(*sorted({row[1] for row in json.load(open(sys.argv[1])) if row[1] and not row[1].startswith("ERR")}), sep="\n")' \
    "$icu/tags.json" > "$2/tags.txt"
