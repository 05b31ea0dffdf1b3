#!/bin/sh
# Writes the tables of crates/fluent_plurals and the rows of CLDR's samples again, from the folder cldr-VERSION beside this
# file whose version ../cldr.txt names: it has CLDR's plurals.xml, ordinals.xml and licence. It needs python3 and rt; ../cldr.sh runs it.
set -eu
here=$(cd "$(dirname "$0")" && pwd)
top=$here/../..
. "$top/tools/kit.sh"
data=$here/cldr-$(cat "$here/../cldr.txt")
rows=$top/tests/more_rows/data/plurals.txt
python3 -B "$here/generate.py" "$data" "${data##*cldr-}" "$top/crates/fluent_plurals"
python3 -B "$here/samples.py" "$data" > "$rows"
cp "$data/LICENSE-UNICODE" "$top/crates/fluent_plurals/LICENSE-UNICODE"
(cd "$top/crates/fluent_plurals" && rt fmt)
echo "$(wc -l < "$rows") samples: tests/more_rows/stdout counts them"
