#!/bin/sh
# Installs this release below PREFIX, or removes it again.
#
#   ./install.sh PREFIX             copies bin, lib, include and share
#   ./install.sh --remove PREFIX    removes what it copied, and folders that are then empty
#
# Afterwards `PREFIX/bin/ftl` runs, and `pkg-config --cflags --libs fluent_c` finds the library if PKG_CONFIG_PATH has
# PREFIX/lib/pkgconfig.
set -eu
here=$(cd "$(dirname "$0")" && pwd)

usage() {
    echo 'usage: install.sh [--remove] PREFIX' >&2
    exit 2
}

remove=no
if [ "${1-}" = --remove ]; then
    remove=yes
    shift
fi
[ $# -eq 1 ] && [ -n "$1" ] || usage
case $1 in -*) usage ;; esac
prefix=$1

# What is installed, a path a line.
files() {
    (cd "$here" && find bin lib include share \( -type f -o -type l \) -print)
}

folders() {
    (cd "$here" && find bin lib include share -depth -type d -print)
}

if [ "$remove" = yes ]; then
    files | while IFS= read -r file; do rm -f "$prefix/$file"; done
    folders | while IFS= read -r folder; do rmdir "$prefix/$folder" 2>/dev/null || :; done
else
    (cd "$here" && sha256sum --quiet -c SHA256SUMS) || {
        echo 'install.sh: this release is damaged: nothing was installed' >&2
        exit 1
    }
    mkdir -p "$prefix"
    files | while IFS= read -r file; do
        mkdir -p "$prefix/$(dirname "$file")"
        cp -P "$here/$file" "$prefix/$file"
    done
    echo "installed below $prefix"
fi
