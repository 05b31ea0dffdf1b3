#!/bin/sh
# Refuses each allocation of a program in turn, and counts the runs that end otherwise than the one that is refused none.
#
#   run.sh CRATE [WORD..]
#
# CRATE is a program of this repository. It is proved and built, and run on the words with the files of its folder data beside it
# and nothing on its input. With EVERY=K in its environment only each Kth line of those files is there, and with BUILT=1 the program that
# stands there already is run. It needs rt and a C compiler.
set -eu
[ $# -ge 1 ] || { sed -n '2,8s/^# \{0,1\}//p' "$0" >&2; exit 2; }
here=$(cd "$(dirname "$0")" && pwd)
crate=$here/../../crates/$1
program=$crate/out/$1
shift
. "$here/../../tools/kit.sh"
# What rt run runs lacks the files of data, so only that it was built counts.
[ -n "${BUILT:-}" ] || rm -f "$program"
[ -x "$program" ] || (cd "$crate" && rt run </dev/null >/dev/null) || [ -x "$program" ]
built=$(mktemp -d)
trap 'rm -rf "$built"' EXIT
cc -shared -fPIC -O1 -o "$built/refuse.so" "$here/refuse.c" -ldl
mkdir "$built/data"
[ ! -d "$crate/data" ] || cp -R "$crate/data/." "$built/data"
cd "$built/data"
if [ "${EVERY:-1}" != 1 ]; then
    find . -type f | while read -r file; do
        awk -v every="$EVERY" 'NR % every == 0' "$file" >"$built/cut"
        cp "$built/cut" "$file"
    done
fi

# ended NUMBER WORD..: what the program writes and its status, with the allocation of that number refused.
ended() {
    number=$1
    shift
    status=0
    REFUSED=$number REFUSED_TOLD=$built/told LD_PRELOAD=$built/refuse.so \
        "$program" "$@" </dev/null >"$built/written" 2>/dev/null || status=$?
    cat "$built/written"
    echo "status $status"
}

ended 0 "$@" >"$built/wanted"
runs=0 wrong=0
while ended $((runs + 1)) "$@" >"$built/given" && [ -e "$built/told" ]; do
    rm "$built/told"
    runs=$((runs + 1))
    cmp -s "$built/wanted" "$built/given" || { wrong=$((wrong + 1)); echo "allocation $runs:" && cat "$built/given"; }
done
echo "$runs allocations refused, $wrong runs wrong"
