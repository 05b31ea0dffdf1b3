#!/bin/sh
# Times what programs do from C, Rust and Python: from Rust beside the crate fluent-bundle, and from Python beside fluent.runtime. From C
# it also times an answer beside what the engine takes for it. Ratios of one run count, and not the times of two.
#
#   run.sh [--instructions [--write]] [VENDOR [FOLDER]]
#
# VENDOR is a folder of vendored crates with fluent-bundle, unic-langid and what these stand on; without it Rust is skipped. FOLDER has the
# files of one language, such as those of Firefox, which are added to a bundle; without it that is skipped. With --instructions the
# instructions of each step are counted by valgrind, which takes some minutes; --write also puts them into bench/results.json. It needs rt
# and a C compiler, and cargo and python3 for the others.
set -eu
here=$(cd "$(dirname "$0")" && pwd)
root=$(cd "$here/../.." && pwd)
counts='' writes=''
[ "${1-}" != --instructions ] || { counts=1 && shift; }
[ "${1-}" != --write ] || { writes=--write && shift; }
. "$root/bindings/library.sh"
built=$(mktemp -d)
trap 'rm -rf "$built"' EXIT
files=${2:+$(cd "$2" && pwd)}
for program in answers works; do
    cc -O2 -Wall -Wextra -I "$header" -o "$built/$program" "$here/$program.c" -L "$library" -lfluent_c -L "$kit" -llibc_c
done
rust=-
if [ $# -ge 1 ]; then
    vendor=$(cd "$1" && pwd)
    mkdir "$built/rust"
    cp -R "$here/Cargo.toml" "$here/src" "$built/rust"
    cp "$root/bench/syntax/src/clock.rs" "$built/rust/src"
    mkdir "$built/rust/kozhvadi"
    cp -R "$root/bindings/rust/Cargo.toml" "$root/bindings/rust/build.rs" "$root/bindings/rust/src" "$built/rust/kozhvadi"
    (cd "$built/rust" && FLUENT_C_LIB=$library RATTLE_KIT_C=$kit cargo build --quiet --release --offline --target-dir target \
        --config 'source.crates-io.replace-with="vendor"' --config "source.vendor.directory='$vendor'")
    rust=$built/rust/target/release/bindings
fi
python=-
if command -v python3 >/dev/null; then
    python=$built/python
    mkdir "$python"
    cp -R "$root/bindings/python/kozhvadi" "$python"
    cc -shared -o "$python/kozhvadi/libfluent_c.so" -Wl,--whole-archive "$library/libfluent_c.a" -Wl,--no-whole-archive \
        -L "$kit" -llibc_c
    "$root/bindings/python/extension.sh" "$python/kozhvadi/_fast.abi3.so"
fi
if [ -n "$counts" ]; then
    python3 "$here/instructions.py" ${writes:+"$writes"} "$built/works" "$rust" "$python" ${files:+"$files"}
    exit
fi
echo 'C, next to the engine:'
"$built/answers"
echo 'C:'
"$built/works"
if [ "$rust" != - ]; then
    echo 'Rust:'
    "$rust" ${files:+"$files"}
else
    echo 'Rust: no crates: skipped'
fi
if [ "$python" != - ]; then
    for without in '' 1; do
        echo "Python${without:+, without the extension}:"
        KOZHVADI_CTYPES=$without PYTHONPATH=$python python3 "$here/works.py"
    done
else
    echo 'Python: skipped'
fi
