#!/bin/sh
# Writes the tables of crates/fluent_languages again, from the folder cldr-VERSION next to this file whose version
# ../cldr.txt names. README.md says what such a folder holds. It needs python3 and rt; ../cldr.sh runs it.
set -eu
here=$(cd "$(dirname "$0")" && pwd)
crate=$here/../../crates/fluent_languages
. "$here/../kit.sh"
data=$here/cldr-$(cat "$here/../cldr.txt")
python3 -B "$here/generate.py" "$data" "$crate"
cp "$data/LICENSE-UNICODE" "$crate/LICENSE-UNICODE"
cd "$crate"
rt fmt
