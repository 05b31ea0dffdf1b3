#!/bin/sh
# Types the first programs of the pages for C, C++, Rust and Python as somebody would who has a clone of the repository and no
# release: in a copy of its files, at a home with nothing in it. The library is there as first_look.sh would build it.
set -eu
root=$(cd "$(dirname "$0")/.." && pwd)
. "$root/bindings/library.sh"
room=$(mktemp -d)
trap 'rm -rf "$room"' EXIT
clone=$room/kozhvadi
mkdir -p "$clone"
tar -C "$root" --exclude=./.git --exclude=out --exclude=target --exclude=release --exclude='*.so' -cf - . | tar -C "$clone" -xf -
mkdir -p "$clone/crates/fluent_c/out/unproved"
cp "$library/libfluent_c.a" "$clone/crates/fluent_c/out/unproved"

# typed PAGE PROGRAM..: types a page, if there are these programs.
typed() {
    page=$1
    shift
    for program; do
        command -v "$program" >/dev/null || { echo "$page: skipped, there is no $program"; return 0; }
    done
    home=$room/home
    rm -rf "$home"
    mkdir "$home"
    (
        export RUSTUP_HOME="${RUSTUP_HOME:-$HOME/.rustup}" CARGO_HOME="${CARGO_HOME:-$HOME/.cargo}" HOME="$home"
        unset FLUENT_C_LIB KOZHVADI_LIBRARY PKG_CONFIG_PATH PYTHONPATH
        cd "$clone"
        python3 "$root/tools/release/typed.py" --without Install "$clone/docs/$page"
    )
    echo "$page: passed"
}

typed c-and-cpp/first-program-in-c.md cc pkg-config
typed c-and-cpp/cpp.md c++ pkg-config
typed rust/first-program.md cc cargo
typed python/first-program.md cc
