# shellcheck shell=sh
# Finds the toolchain, for scripts that read this file with `.`: `kit` is its folder. Without the command `rt` it says so, and
# ends the script with 126.
command -v rt >/dev/null || {
    echo "$0: there is no rt, the command of the toolchain, on the path: README.md, 'Set up'" >&2
    exit 126
}
# shellcheck disable=SC2034 # the script that reads this file uses it
kit=$(dirname "$(dirname "$(readlink -f "$(command -v rt)")")")
