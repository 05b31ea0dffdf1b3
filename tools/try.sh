#!/usr/bin/env bash
# Runs a program of one file over one crate, without proofs: compiled with the toolchain's checks of each call, and a sanitizer.
#
#   tools/try.sh CRATE FILE [WORD..]
#
# FILE is the program's `main.rt`, wherever it lies and whatever it is called; in this repository its name ends in .rt.txt, since
# the toolchain takes a .rt file only in a crate that the gate proves. It may use CRATE, the libraries that the line of CRATE in
# crates.txt names, and anyhow. Words are passed to `rt try`: `-- WORD..` are the program's, and with `--fail-alloc N` the Nth
# allocation is refused. Ends with the program's status.
set -euo pipefail
top=$(cd "$(dirname "$(readlink -f "$0")")/.." && pwd)
[[ $# -ge 2 && -f $2 ]] || { sed -n '2,9s/^# \{0,1\}//p' "$0" >&2; exit 2; }
. "$top/tools/kit.sh"
root=$top
. "$root/tools/lib/crates.sh"
[[ -d $root/crates/$1 ]] || { echo "$0: there is no crate $1" >&2; exit 2; }
work=$(mktemp -d)
trap 'rm -rf "$work"' EXIT

libraries=$(crate_libraries "$1" | tr ' ' '\n' | grep -vx anyhow | tr '\n' ' ' || :)
python3 -B "$top/tools/lib/scratch.py" "$work/top" "tried: $1 anyhow $libraries" "$2"
cd "$work/top/crates/tried"
rt try "${@:3}"
