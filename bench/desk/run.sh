#!/bin/sh
# Tidies real files by the program `ftl`: `clean`, `normalize`, `export` and `import` of each, and `join` of all. Prints how many
# times as long as reading these take on the sources of many files, by processor time; how many files have a normal text, and which
# of the five shapes of docs/reference/normal-text.md those hold that have none; and whether every message and attribute
# is answered the same from a file as from its cut text, its normal text, and all files joined. It ends with 1 where
# something was not as it has to be.
#
#   run.sh CORPUS
#
# CORPUS is a folder of .ftl files, with all-en.ftl (those of English) and all.ftl (all of them) in it, on which the commands are
# timed. It needs rt and python3, and no network.
set -eu
[ $# -eq 1 ] || { sed -n '2,10s/^# \{0,1\}//p' "$0" >&2; exit 2; }
here=$(cd "$(dirname "$0")" && pwd)
corpus=$(cd "$1" && pwd)
root=$here/../..
"$root/ftl" run "$root/examples/hello.ftl" </dev/null # builds it
find "$corpus" -name '*.ftl' | sort | python3 -B "$here/desk.py" "$root/crates/ftl/out/ftl"
