#!/usr/bin/env bash
# Goes over to a version of Unicode CLDR: writes the tables and the rows of fluent_plurals, fluent_numerals, fluent_date_tables and
# fluent_languages from the folders cldr-VERSION of tools/plurals, tools/numbers, tools/dates and tools/languages, whose pages say what
# such a folder holds, and how it is made; names the version in tools/cldr.txt and wherever a page or a comment names it; and compares the tables with the data.
#
#   tools/cldr.sh VERSION
#
# With the version that is there, nothing changes. It proves nothing: prove these crates by `rt check` then. It needs python3, rt,
# and node with that version's data.
set -euo pipefail
cd "$(dirname "$0")/.."
[[ $# -eq 1 && $1 =~ ^[0-9.]+$ ]] || { sed -n '2,9s/^# \{0,1\}//p' "$0" >&2; exit 2; }
. tools/kit.sh
old=$(<tools/cldr.txt)
missing=()
for file in plurals/@/plurals.xml plurals/@/ordinals.xml numbers/@/numbers.json dates/@/dates.json dates/@/tags.txt languages/@/likely.txt languages/@/aliases.txt \
    languages/@/clusters.txt {plurals,numbers,dates,languages}/@/LICENSE-UNICODE; do
    [[ -f tools/${file/@/cldr-$1} ]] || missing+=("tools/${file/@/cldr-$1}")
done
if [[ ${#missing[@]} -gt 0 ]]; then
    printf 'there is no %s\n' "${missing[@]}" >&2
    exit 1
fi
command -v node >/dev/null || { echo 'there is no node, whose Intl writes the rows of numbers and dates' >&2; exit 1; }
carried=$(node -p process.versions.cldr)
[[ $carried == "$1" || $carried == "$1".* ]] || { echo "node carries CLDR $carried" >&2; exit 1; }

echo "$1" >tools/cldr.txt
if [[ $1 != "$old" ]]; then
    # What names the version, but for the data and what is generated from it.
    { git grep -lF "CLDR $old" -- '*.md' 'bindings/*.py' ':!CHANGELOG.md' || :; } | xargs -rd '\n' sed -i "s/CLDR ${old//./\\.}\b/CLDR $1/g"
    { git grep -lF "cldr-$old" -- 'tools/*/README.md' || :; } | xargs -rd '\n' sed -i "s/cldr-${old//./\\.}\b/cldr-$1/g"
fi
for part in plurals numbers dates languages; do
    echo "== $part"
    "tools/$part/update.sh"
done
echo '== the tables against the data'
python3 -B tools/plurals/compare.py | tail -n 1
python3 -B tools/numbers/compare.py | tail -n 1
python3 -B tools/dates/compare.py | tail -n 1
echo '== the pages'
python3 -B tools/house/check.py --sources || :
cat <<'TEXT'
Left to do: read the lines of pages that changed, since figures next to a version may have changed too; rt check in
crates/fluent_plurals, crates/fluent_numerals, crates/fluent_date_tables, crates/fluent_dates and crates/fluent_languages; tests/more_rows/stdout, whose counts tools/more_rows.sh
compares; and tools/languages/compare.sh.
TEXT
