#!/usr/bin/env bash
# Makes a release for Linux on x86-64 from what the gate left: the folder OUT/kozhvadi-VERSION-linux-x86_64 and its tarball.
# Proves nothing. Two runs over one commit make the same bytes.
#
#   tools/release.sh [OUT]      OUT is a folder; without it, `release` in this repository
#
# Needs crates/ftl/out/ftl, which `rt ci` leaves, crates/fluent_c/out/libfluent_c.a, which bindings/build.sh makes, a C
# compiler with binutils, and python3; with Python's headers the wheel gets the extension.
set -euo pipefail
here=$(cd "$(dirname "$0")" && pwd)
root=$(cd "$here/.." && pwd)
made=$here/release

fail() {
    echo "release.sh: $*" >&2
    exit 1
}

program=$root/crates/ftl/out/ftl
[ -x "$program" ] || fail "there is no crates/ftl/out/ftl: run rt ci first"
[ -f "${FLUENT_C_LIB:-$root/crates/fluent_c/out}/libfluent_c.a" ] ||
    fail "there is no crates/fluent_c/out/libfluent_c.a: run bindings/build.sh first"
# shellcheck source=/dev/null
. "$root/bindings/library.sh"

version=$("$program" --version)
version=${version#ftl }
name=kozhvadi-$version-linux-x86_64
out=${1:-$root/release}
mkdir -p "$out"
folder=$(cd "$out" && pwd)/$name
rm -rf "$folder" "$folder.tar.gz"
mkdir -p "$folder"/{bin,lib/pkgconfig,lib/cmake/kozhvadi,include,share/cargo,share/python}

# The time that files get: that of the commit.
SOURCE_DATE_EPOCH=$(git -C "$root" log -1 --format=%ct 2>/dev/null || echo 1577836800)
export SOURCE_DATE_EPOCH

program_part() {
    install -m 755 "$program" "$folder/bin/ftl"
    strip --strip-debug "$folder/bin/ftl"
    python3 "$made/help.py" "$folder/bin/ftl" "$folder/share"
}

# Both libraries with the toolchain's part and the calls of fluent_handle.h inside, so that -lfluent_c is all that a program
# links.
library_part() {
    local parts
    parts=$(mktemp -d)
    (
        cd "$parts"
        mkdir fluent kit
        (cd fluent && ar x "$library/libfluent_c.a")
        (cd kit && ar x "$kit/liblibc_c.a" && for part in *; do mv "$part" "../fluent/kit_$part"; done)
        cc -std=c11 -O2 -fPIC -I "$header" -c -o fluent/fluent_handle.o "$root/bindings/ffi/fluent_handle.c"
        find fluent -type f | LC_ALL=C sort | xargs ar rcsD libfluent_c.a
        # The calls of the headers, and nothing else, are what the shared library gives out.
        echo "{ global: fluent_*; local: *; };" >exported
        cc -shared -o libfluent_c.so -Wl,-soname,libfluent_c.so.0 -Wl,--build-id=none -Wl,--version-script,exported \
            -Wl,--gc-sections -Wl,--whole-archive libfluent_c.a -Wl,--no-whole-archive
        strip --strip-debug libfluent_c.so
    )
    install -m 644 "$parts/libfluent_c.a" "$folder/lib/libfluent_c.a"
    install -m 755 "$parts/libfluent_c.so" "$folder/lib/libfluent_c.so.$version"
    ln -s "libfluent_c.so.$version" "$folder/lib/libfluent_c.so.0"
    ln -s libfluent_c.so.0 "$folder/lib/libfluent_c.so"
    rm -rf "$parts"
    install -m 644 "$header"/*.h "$root/bindings/ffi/fluent_handle.h" "$root/bindings/cpp/fluent.hpp" "$folder/include"
    sed "s/@VERSION@/$version/" "$made/fluent_c.pc" >"$folder/lib/pkgconfig/fluent_c.pc"
    local file
    for file in "$made"/cmake/*.cmake; do
        sed "s/@VERSION@/$version/" "$file" >"$folder/lib/cmake/kozhvadi/${file##*/}"
    done
}

cargo_part() {
    local package=$folder/share/cargo/kozhvadi
    mkdir -p "$package/lib"
    cp -R "$root/bindings/rust/Cargo.toml" "$root/bindings/rust/build.rs" "$root/bindings/rust/src" "$package"
    cp "$folder/lib/libfluent_c.a" "$package/lib"
}

python_part() {
    local parts
    parts=$(mktemp -d)
    "$root/bindings/python/extension.sh" "$parts/_fast.abi3.so"
    python3 "$made/wheel.py" "$root/bindings/python" "$folder/lib/libfluent_c.so.$version" "$parts/_fast.abi3.so" "$version" \
        "$folder/share/python"
    rm -rf "$parts"
}

# What editors take: highlighting for Vim, Emacs, and those that read grammars of TextMate, and the extension for Visual
# Studio Code.
editor_part() {
    mkdir -p "$folder/share/editors"
    cp -R "$root/editors/vim" "$root/editors/emacs" "$root/editors/fluent.tmLanguage.json" "$folder/share/editors"
    python3 "$made/vsix.py" "$root/editors" "$version" "$folder/share/editors" >/dev/null
}

# The hooks of this repository as those of a project whose people have `ftl` on their path.
hooks_part() {
    mkdir -p "$folder/share/pre-commit"
    {
        printf 'repos:\n  - repo: local\n    hooks:\n'
        sed 's/^/      /' "$root/.pre-commit-hooks.yaml"
    } >"$folder/share/pre-commit/.pre-commit-config.yaml"
}

program_part
library_part
cargo_part
python_part
editor_part
hooks_part
python3 "$made/pages.py" "$root" "$folder"
install -m 755 "$made/install.sh" "$folder/install.sh"
install -m 644 "$made/README.md" "$folder/README.md"

cd "$folder"
find . -type f ! -name SHA256SUMS -printf '%P\n' | LC_ALL=C sort | xargs -d '\n' sha256sum >SHA256SUMS
find . -exec touch -h -d "@$SOURCE_DATE_EPOCH" {} +
cd ..
tar --sort=name --owner=0 --group=0 --numeric-owner --mtime="@$SOURCE_DATE_EPOCH" --mode=go-w -cf - "$name" |
    gzip -9n >"$name.tar.gz"
echo "$folder.tar.gz"

# The oldest C library that has all that the program and the library use.
oldest=$(objdump -T "$folder/bin/ftl" "$folder/lib/libfluent_c.so" | grep -o 'GLIBC_[0-9.]*' | sort -uV | tail -n 1)
echo "needs $oldest or newer"
