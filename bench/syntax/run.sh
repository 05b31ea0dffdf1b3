#!/bin/sh
# Reads the same texts by fluent_syntax and by the Rust crate fluent-syntax, in one process, and writes their trees;
# compares what they found and made, and prints the ratios. Of each file the counts of its entries, for both ways of
# reading, its tree as JSON and its written text are compared.
#
#   run.sh VENDOR [CORPUS]
#
# VENDOR is a folder of vendored crates with fluent-syntax, thiserror and what these stand on. CORPUS is a folder of
# .ftl files, with all-en.ftl (those of English) and all.ftl (all of them) in it; without it only the shapes are read.
# It needs rt, cargo and a C compiler, and no network.
set -eu
[ $# -ge 1 ] || { sed -n '2,10s/^# \{0,1\}//p' "$0" >&2; exit 2; }
here=$(cd "$(dirname "$0")" && pwd)
vendor=$(cd "$1" && pwd)
crate=$here/../../crates/fluent_c
. "$here/../../tools/kit.sh"
(cd "$crate" && rt lib >/dev/null)
built=$(mktemp -d)
trap 'rm -rf "$built"' EXIT
cp -R "$here/Cargo.toml" "$here/src" "$built"
(cd "$built" && cargo rustc --quiet --release --offline --target-dir target \
    --config 'source.crates-io.replace-with="vendor"' --config "source.vendor.directory='$vendor'" -- \
    -C target-cpu=x86-64-v2 -L native="$crate/out" -l static=fluent_c -L native="$kit/c" -l static=libc_c)
syntax=$built/target/release/syntax
# While calls are timed, what they free stays in the process. Else malloc gives it back to the system after some calls
# and not after others, which takes as long as the calls.
report() {
    MALLOC_MMAP_MAX_=0 MALLOC_TRIM_THRESHOLD_=2000000000 "$syntax" time "$@"
}
if [ $# -ge 2 ]; then
    find "$2" -name '*.ftl' -print0 | sort -z | xargs -0 "$syntax" compare
    report "$2/all-en.ftl" "$2/all.ftl"
fi
report all
