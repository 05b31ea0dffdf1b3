#!/bin/sh
# Compares the library's choice of languages with other programs':
#
#   compare.sh [VENDOR]
#
# - the likely scripts and regions with Intl's, if there is node;
# - 20,000 negotiations with those of a model that was written from the page;
# - the same with those of the Rust crate fluent-langneg, and which rules make each difference, if VENDOR is a folder of vendored
#   crates with fluent-langneg, unic-langid and what these stand on;
# - what is looked up with what ICU's LocaleMatcher finds, if there is ICU with its headers.
#
# It asks the Python module, so run bindings/python/run.sh before, or let KOZHVADI_LIBRARY name the shared library. It needs no
# network, and says what it leaves out. It ends with 1 if a comparison failed.
set -eu
here=$(cd "$(dirname "$0")" && pwd)
built=$(mktemp -d)
trap 'rm -rf "$built"' EXIT
failed=0

# Runs a comparison.
try() {
    echo "== $1"
    python3 -B "$here/$@" || failed=1
}

if command -v node >/dev/null; then try with_intl.py; else echo '== with_intl.py: left out, there is no node'; fi
try compare.py
if [ $# -eq 1 ]; then
    cp -R "$here/langneg/Cargo.toml" "$here/langneg/src" "$built"
    vendor=$(cd "$1" && pwd)
    (cd "$built" && cargo build --quiet --release --offline --target-dir target \
        --config 'source.crates-io.replace-with="vendor"' --config "source.vendor.directory='$vendor'")
    try with_langneg.py "$built/target/release/langneg"
else
    echo '== with_langneg.py: left out, no folder of crates is given'
fi
if c++ -O1 -o "$built/matcher" "$here/matcher.cpp" -licuuc 2>/dev/null; then
    try with_icu.py "$built/matcher"
else
    echo '== with_icu.py: left out, there is no ICU'
fi
exit $failed
