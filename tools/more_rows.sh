#!/usr/bin/env bash
# Runs the rows of tests/more_rows, which aren't proved: their sources end in .txt, since the toolchain takes a .rt file nowhere but
# in a crate that the gate proves. Here they become a crate of a scratch repository, and `rt try` compiles it with all that it uses,
# with the toolchain's own checks.
#
#   tools/more_rows.sh [MODULE..] [WORD..]
#
# Tries these modules, or all of them. What is printed must be what tests/more_rows/stdout has, or lines of it if modules are named.
# The last line is 'N passed, M failed', and the status is 1 if anything failed. Words are passed to `rt try`: with `--fail-alloc N`
# the Nth allocation is refused, and the same counts must come.
set -euo pipefail
top=$(cd "$(dirname "$0")/.." && pwd)
. "$top/tools/kit.sh"
rows=$top/tests/more_rows
work=$(mktemp -d)
trap 'rm -rf "$work"' EXIT

modules=()
while [[ $# -gt 0 && $1 != -* ]]; do
    modules+=("$1")
    shift
done
python3 -B "$top/tools/lib/modules.py" "$rows" "$work/src" "${modules[@]}" >"$work/uses"
python3 -B "$top/tools/lib/scratch.py" "$work/top" "more_rows: $(<"$work/uses")" "$work/src"
cp -R "$rows/data" "$work/data"
cp "$top/crates/all_rows/data/syntax/rows.jsonl" "$work/data/syntax.jsonl"
python3 -B "$top/tools/numbers/written.py" >>"$work/data/numerals.txt"

data=()
for file in "$work"/data/*; do
    data+=(--data "${file##*/}=$file")
done
status=0
(cd "$work/top/crates/more_rows" && rt try --seconds 600 "$@" "${data[@]}" </dev/null) >"$work/told" || status=$?
cat "$work/told"
if [[ ${#modules[@]} -eq 0 ]]; then
    diff "$rows/stdout" "$work/told" >"$work/differences" || status=1
else
    ! grep -Fxvf "$rows/stdout" "$work/told" >"$work/differences" || status=1
fi
if [[ -s $work/differences ]]; then
    echo "other lines than those of tests/more_rows/stdout:"
    cat "$work/differences"
fi
# A line of a kind ends in 'N things, M wrong'.
awk -v status="$status" '
    match($0, /[0-9]+ [a-z]+, [0-9]+ wrong$/) {
        split(substr($0, RSTART), words, " ")
        passed += words[1] - words[3]
        failed += words[3]
    }
    END {
        failed += status != 0 && failed == 0
        print passed + 0 " passed, " failed + 0 " failed"
        exit failed > 0
    }' "$work/told"
