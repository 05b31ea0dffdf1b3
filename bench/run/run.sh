#!/bin/sh
# Answers the same requests by the program `ftl` and by one over the Rust crate fluent-bundle, compares the bytes that they write,
# and prints the ratios of their processor times, start to end, and of one request line: above 1 ftl is faster. After
# them is the peak memory of both.
#
#   run.sh VENDOR SOURCE REQUESTS
#
# VENDOR is a folder of vendored crates with fluent-bundle, unic-langid and what these stand on. SOURCE is a Fluent source, and
# REQUESTS a file of request lines. It needs rt and cargo, and no network.
set -eu
[ $# -eq 3 ] || { sed -n '2,9s/^# \{0,1\}//p' "$0" >&2; exit 2; }
here=$(cd "$(dirname "$0")" && pwd)
vendor=$(cd "$1" && pwd)
source=$2
root=$here/../..
ftl=$root/crates/ftl/out/ftl
built=$(mktemp -d)
trap 'rm -rf "$built"' EXIT
cp -R "$here/Cargo.toml" "$here/src" "$built"
(cd "$built" && cargo build --quiet --release --offline --target-dir target \
    --config 'source.crates-io.replace-with="vendor"' --config "source.vendor.directory='$vendor'")
bin=$built/target/release
"$root/ftl" run "$source" </dev/null # builds it

# Runs both on a file of requests, and prints the ratio of their times.
compare() {
    rust=$("$bin/measure" "$2" "$built/expected" "$bin/answers" "$source")
    ours=$("$bin/measure" "$2" "$built/written" "$ftl" run "$source")
    others=$(diff "$built/expected" "$built/written" | grep -c '^>') || :
    echo "$rust $ours" >>"$built/times"
    echo "$rust $ours" | awk -v name="$1" -v others="$others" '{
        printf "%s: ratio %.2f, %.1f and %.1f ms; %.1f and %.1f MB; ", name, $1 / $3, $1 / 1e6, $3 / 1e6, $2 / 1e3, $4 / 1e3
        print (others ? others " lines are others" : "the same bytes") }'
}

: >"$built/none"
for _ in 1 2 3 4 5 6 7 8 9 10; do cat "$3"; done >"$built/tenfold"
compare 'no request' "$built/none"
compare 'each request once' "$3"
compare 'each request ten times' "$built/tenfold"
awk -v lines="$(wc -l <"$3")" 'NR == 2 { rust = $1; ours = $3 }
    NR == 3 { rust = $1 - rust; ours = $3 - ours; n = 9 * lines
        printf "a request line: ratio %.2f, %.0f and %.0f ns\n", rust / ours, rust / n, ours / n }' "$built/times"
