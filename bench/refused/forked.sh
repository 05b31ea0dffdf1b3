#!/bin/sh
# Refuses each allocation of a program in turn, as run.sh does, but runs it once in each lane: at each allocation a copy of the process is
# refused it, and goes on for some more. So programs of hundreds of thousands of allocations take minutes.
#
#   forked.sh CRATE [WORD..]
#
# CRATE is a program of this repository that prints a line `wrong: ..`, or a count of wrong rows that isn't 0, where something is wrong.
# It is proved and built, and run on the words with the files of its folder data beside it and nothing on its input. A copy goes on for
# AHEAD allocations, 4000 unless its environment says otherwise: more than two tries of a row take. With BUILT=1 in its environment the
# program that stands there already is run. It needs rt and a C compiler.
set -eu
[ $# -ge 1 ] || { sed -n '2,11s/^# \{0,1\}//p' "$0" >&2; exit 2; }
AHEAD=${AHEAD:-4000}
here=$(cd "$(dirname "$0")" && pwd)
crate=$(cd "$here/../../crates/$1" && pwd)
program=$crate/out/$1
shift
. "$here/../../tools/kit.sh"
# What rt run runs lacks the files of data, so only that it was built counts.
[ -n "${BUILT:-}" ] || rm -f "$program"
[ -x "$program" ] || (cd "$crate" && rt run </dev/null >/dev/null) || [ -x "$program" ]
work=$(mktemp -d)
trap 'rm -rf "$work"' EXIT
cc -shared -fPIC -O1 -o "$work/forked.so" "$here/forked.c" -ldl
lanes=$(nproc)
for lane in $(seq 0 $((lanes - 1))); do
    mkdir "$work/$lane"
    [ ! -d "$crate/data" ] || cp -R "$crate/data/." "$work/$lane"
    (
        cd "$work/$lane"
        FORKED_LANE=$lane FORKED_LANES=$lanes FORKED_AHEAD=$AHEAD FORKED_TOLD=$work/told.$lane \
            LD_PRELOAD=$work/forked.so "$program" "$@" </dev/null >"$work/out.$lane"
    ) &
done
wait
mkdir "$work/wanted"
[ ! -d "$crate/data" ] || cp -R "$crate/data/." "$work/wanted"
(cd "$work/wanted" && "$program" "$@" </dev/null >"$work/out.wanted")
for lane in $(seq 0 $((lanes - 1))); do
    cmp "$work/out.$lane" "$work/out.wanted" || echo "lane $lane printed something else"
done
awk '{ refused += $1; wrong += $2; faults += $3 }
    END { print refused " allocations refused, " wrong " wrong, " faults " ended with a fault" }' "$work"/told.*
