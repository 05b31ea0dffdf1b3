#!/bin/sh
# Writes the tables of crates/fluent_date_tables and the rows of dates in locales again, from the folder cldr-VERSION beside this file
# whose version ../cldr.txt names. collect.sh makes such a folder. It needs python3, node with that version's data, and rt;
# ../cldr.sh runs it.
set -eu
here=$(cd "$(dirname "$0")" && pwd)
top=$here/../..
. "$top/tools/kit.sh"
version=$(cat "$top/tools/cldr.txt")
data=$here/cldr-$version
rows=$top/tests/more_rows/data/dates.txt
python3 -B "$here/generate.py" "$data/dates.json" "$top/crates/fluent_date_tables"
python3 -B "$here/rows.py" > "$rows"
for crate in fluent_date_tables fluent_dates; do
    cp "$data/LICENSE-UNICODE" "$top/crates/$crate/LICENSE-UNICODE"
    (cd "$top/crates/$crate" && rt fmt)
done
echo "$(wc -l < "$rows") rows: tests/more_rows/stdout counts them"
