#!/bin/sh
# Lets pkg-config find the static library of a folder, and the headers of this repository: writes FOLDER/fluent_c.pc.
#
#   pkg_config.sh FOLDER
#
# A program is then built as over a release, if PKG_CONFIG_PATH names FOLDER. RATTLE_KIT_C names the folder of liblibc_c.a;
# without it that of the kit whose `rt` is on the path is taken.
set -eu
root=$(cd "$(dirname "$0")/.." && pwd)
folder=$(cd "$1" && pwd)
if [ -n "${RATTLE_KIT_C:-}" ]; then
    kit=$RATTLE_KIT_C
else
    . "$root/tools/kit.sh"
    kit=$kit/c
fi
version=$(sed -n 's/^version = "\(.*\)"$/\1/p' "$root/bindings/rust/Cargo.toml")
cat >"$folder/fluent_c.pc" <<PC
Name: fluent_c
Description: Fluent messages for C, of the repository in $root
Version: $version
Cflags: -I$root/crates/fluent_c -I$root/bindings/cpp
Libs: -L$folder -lfluent_c -L$kit -llibc_c
PC
