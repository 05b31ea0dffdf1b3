#!/bin/sh
# Writes the tables of crates/fluent_numerals and the rows of numbers in locales, of the library and of all that formats, again, from
# the folder cldr-VERSION beside this file whose version ../cldr.txt names. collect.sh makes such a folder. It needs python3, node
# with that version's data, and rt; ../cldr.sh runs it.
set -eu
here=$(cd "$(dirname "$0")" && pwd)
top=$here/../..
. "$top/tools/kit.sh"
version=$(cat "$top/tools/cldr.txt")
data=$here/cldr-$version
rows=$top/tests/more_rows/data/numerals.txt
python3 -B "$here/generate.py" "$data/numbers.json" "$top/crates/fluent_numerals"
python3 -B "$here/rows.py" "$data/numbers.json" 5 > "$rows"
python3 -B "$here/program_rows.py" > "$top/tests/rows/numerals.jsonl"
python3 -B "$here/written_rows.py" "$data/numbers.json" "$top/tools/plurals/cldr-$version" 40 > "$top/tests/numerals/rows.txt"
cp "$data/LICENSE-UNICODE" "$top/crates/fluent_numerals/LICENSE-UNICODE"
(cd "$top/crates/fluent_numerals" && rt fmt)
echo "$(wc -l < "$rows") rows, and $(python3 -B "$here/written.py" | wc -l) written ones: tests/more_rows/stdout counts both"
