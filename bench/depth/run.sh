#!/bin/sh
# Gives the program `ftl` sources that nest deep, on a stack of 8 MB, and prints a table: for each shape and command the
# greatest depth that is answered, to one per cent. Each power of ten from 10 to 1,000,000 is tried. A deeper source has
# to end in `ftl: out of memory`, and its tree, for `import`, in that or in `ftl: not JSON`: see docs/reference/grammar.md.
# It ends with 1 if a run ends otherwise, say by a signal.
#
#   run.sh
#
# It needs rt and python3, and no network.
set -eu
[ $# -eq 0 ] || { sed -n '2,9s/^# \{0,1\}//p' "$0" >&2; exit 2; }
here=$(cd "$(dirname "$0")" && pwd)
root=$here/../..
"$root/ftl" run "$root/examples/hello.ftl" </dev/null # builds it
ulimit -s 8192
python3 -B "$here/depth.py" "$root/crates/ftl/out/ftl"
