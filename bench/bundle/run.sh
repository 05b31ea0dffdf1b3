#!/bin/sh
# Times bundles, beside those of the Rust crate fluent-bundle: formatting a message of text alone, one with two variables, and one with
# a select and a term; adding the messages of a source and asking for each of them; and adding 125,000 to 2,000,000 messages. Prints the
# least processor time of five rounds, and the ratios: above 1 ours is faster. Where adding is linear, its time an id grows no more than
# a hash map's does, which misses the processor's caches more often as it grows.
#
#   run.sh VENDOR [SOURCE]
#
# VENDOR is a folder of vendored crates with fluent-bundle, unic-langid and what these stand on, and SOURCE a Fluent source without
# damage. Our half is the program in ours/, which is proved and built for it. It needs rt, python3 and cargo, and no network.
set -eu
[ $# -ge 1 ] || { sed -n '2,11s/^# \{0,1\}//p' "$0" >&2; exit 2; }
here=$(cd "$(dirname "$0")" && pwd)
root=$(cd "$here/../.." && pwd)
vendor=$(cd "$1" && pwd)
. "$root/tools/kit.sh"
built=$(mktemp -d)
trap 'rm -rf "$built"' EXIT
[ $# -eq 1 ] || cp "$2" "$built/source.ftl"
cp -R "$here/Cargo.toml" "$here/src" "$built"
cp "$here/../syntax/src/clock.rs" "$built/src"
(cd "$built" && cargo build --quiet --release --offline --target-dir target \
    --config 'source.crates-io.replace-with="vendor"' --config "source.vendor.directory='$vendor'")
python3 -B "$root/tools/lib/scratch.py" "$built/scratch" 'bench_bundle: fluent_ast fluent_bundle anyhow' "$here/ours"
crate=$built/scratch/crates/bench_bundle

# both MODE FILE..: what ours and the Rust crate's took, and the bytes of their texts, a line a file.
both() {
    (cd "$crate" && rt run -- "$@" >"$built/ours" 2>"$built/log") || { cat "$built/log" >&2; exit 1; }
    "$built/target/release/bundles" "$@" >"$built/rust"
    paste -d ' ' "$built/ours" "$built/rust"
}

# A name a line on its input, the lines of `both` after it, and by how much the times are to be divided for nanoseconds.
ratios() {
    paste -d ':' - "$1" | awk -F : -v times="$2" '{
        split($2, took, " ")
        printf "%s: %.0f ns, fluent-bundle %.0f, ratio %.2f", $1, took[1] / times, took[3] / times, took[3] / took[1]
        print (took[2] == took[4] ? "" : "; the texts differ") }'
}

echo 'm = Hello, this is a message of text alone.' >"$built/text.ftl"
# shellcheck disable=SC2016
echo 'm = Hello, { $name }, you have { $count } new messages.' >"$built/variables.ftl"
cat >"$built/select.ftl" <<'SOURCE'
-brand = Kozhvadi
m = { $count ->
    [one] One page is open in { -brand }.
   *[other] { $count } pages are open in { -brand }.
}
SOURCE
both formatting "$built/text.ftl" "$built/variables.ftl" "$built/select.ftl" >"$built/times"
printf '%s\n' 'text alone' 'two variables' 'a select and a term' | ratios "$built/times" 10000
if [ -e "$built/source.ftl" ]; then
    both asking "$built/source.ftl" >"$built/times"
    echo 'adding the source and asking for each' | ratios "$built/times" 1
fi

counts='125000 250000 500000 1000000 2000000'
set --
for count in $counts; do
    awk -v n="$count" 'BEGIN { for (i = 0; i < n; i++) print "message-" i " = Text" }' >"$built/$count.ftl"
    set -- "$@" "$built/$count.ftl"
done
both adding "$@" >"$built/times"
echo "$counts" | tr ' ' '\n' | paste -d ' ' - "$built/times" | awk '
    { ours = $2 / $1; rust = $3 / $1; printf "%d ids: %.0f ns an id, fluent-bundle %.0f, ratio %.2f", $1, ours, rust, rust / ours }
    before { printf "; grown by %.2f, fluent-bundle by %.2f", ours / before, rust / rust_before }
    { print ""; before = ours; rust_before = rust }'
