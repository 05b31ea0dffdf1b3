# shellcheck shell=sh
# Finds the static library and the kit's library for C, for the scripts beside this file, which read it with `.`.
#
# It takes the root of the repository in `root`. FLUENT_C_LIB names the folder of libfluent_c.a; without it that of this
# repository is taken, and build.sh builds the library first if it isn't there. RATTLE_KIT_C names the folder of liblibc_c.a;
# without it that of the kit whose `rt` is on the path is taken.
# shellcheck disable=SC2034,SC2154 # root: see above
header=$root/crates/fluent_c
if [ -n "${RATTLE_KIT_C:-}" ]; then
    kit=$RATTLE_KIT_C
else
    . "$root/tools/kit.sh"
    kit=$kit/c
fi
library=${FLUENT_C_LIB:-$header/out}
[ -f "$library/libfluent_c.a" ] || "$root/bindings/build.sh" >/dev/null
