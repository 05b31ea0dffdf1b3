#!/bin/sh
# Runs the program `ftl` on these words, in the caller's folder and on its streams, and ends with its status.
#
# Takes the proved program that this script, `rt run` or the gate built. If there is none, or a source of it is younger, says
# so, proves and builds it, and says on a terminal how far that is. Its first word may be
#
#   --unproved    takes another program, which it builds without proofs, and says each time that nothing of it is proved
#   --no-build    takes the proved program as it is
#
# Ends with 126 if the program can't be built.
set -eu

root=$(dirname -- "$(readlink -f -- "$0")")
crate=$root/crates/ftl
. "$root/tools/lib/crates.sh"

# What proving takes: memory for each crate that is proved at a time, and disk, in GB.
memory_needed=3
disk_needed=10

fail() {
    echo "ftl: $*" >&2
    exit 126
}

# The crates of the program, a line each.
crates() {
    crates_used ftl
}

# why_build NAME FILE SINCE FOLDER..: why the program that the file has must be built: there is none, or a source in these
# folders of its crates is younger than SINCE. Nothing if it needn't be.
why_build() (
    cd "$root/crates"
    name=$1 file=$2 since=$3
    shift 3
    if [ ! -x "$file" ]; then
        echo "the $name isn't built"
        return
    fi
    # shellcheck disable=SC2046 # no name of a crate has a space
    set -- $(for part; do crates | sed "s|\$|/$part|"; done)
    younger=$(find ../crates.txt "$@" -newer "$since" 2>/dev/null | head -n 1)
    [ -z "$younger" ] || echo "crates/$younger is younger than the $name" | sed 's|^crates/\.\./||'
)

memory_left() {
    awk '/^MemAvailable:/ { print int($2 / 1000000) }' /proc/meminfo
}

disk_left() {
    df -Pk "$root" | awk 'NR == 2 { print int($4 / 1000000) }'
}

# How many crates are proved at a time: one more than there are processors, since those that wait for another one count too,
# but not more than the memory bears. With more of them each takes longer, and so does the longest chain.
jobs() {
    at_once=$(($(nproc) + 1))
    bearable=$(($(memory_left) / memory_needed))
    echo $((at_once < bearable ? at_once : bearable))
}

# need WHY COMMANDS: ends the script if one of the commands is missing that it builds the program with, for this reason.
need() {
    for command in $2; do
        command -v "$command" >/dev/null || fail "$1, and there is no $command on the path to build it: README.md, 'Set up'"
    done
}

# build KIND: builds by the function build_KIND, and shows what that printed if it fails. On a terminal says each second by the
# function far_KIND how far it is.
build() {
    watcher=
    trap 'rm -f "$log"; unwatch' EXIT
    trap 'exit 130' INT
    trap 'exit 143' TERM
    if [ -t 2 ]; then
        watch "far_$1" >&2 &
        watcher=$!
    fi
    status=0
    "build_$1" >"$log" 2>&1 || status=$?
    unwatch
    if [ "$status" -ne 0 ]; then
        cat "$log" >&2
        fail 'the program was not built'
    fi
    rm -f "$log"
    trap - EXIT INT TERM
}

# Says each second how far the build is, until the script ends or is done with it.
watch() {
    begun=$(date +%s)
    while kill -0 "$$" 2>/dev/null; do
        printf '\rftl: %s ' "$("$1" $(($(date +%s) - begun)))"
        sleep 1
    done
}

unwatch() {
    [ -n "$watcher" ] || return 0
    kill "$watcher" 2>/dev/null || :
    watcher=
    echo >&2
}

# Proves and builds the program, and tries it on the run that is stored next to it.
build_proved() (
    cd "$crate"
    mkdir -p out && : >"$built.new"
    rt all check --jobs "$(jobs)" && rt run -- run data/hello.ftl <stdin && mv -f "$built.new" "$built"
)

far_proved() {
    echo "$(grep '^== ' "$log" | grep -cv summary || :) of $count crates, $(($1 / 60)) minutes"
}

build_unproved() {
    python3 -B "$root/tools/unproved.py" "$program"
}

far_unproved() {
    echo "$1 seconds"
}

# Takes the proved program, which is proved and built first if it has to be and there is room for it.
take_proved() {
    program=$crate/out/ftl
    built=$crate/out/ftl.built # as old as the sources from which this script built the program
    since=$built
    [ -e "$since" ] || since=$program
    why=$(why_build program "$program" "$since" src specs proofs)
    [ -n "$why" ] || return 0

    need "$why" rt
    count=$(crates | wc -l) memory=$(memory_left) disk=$(disk_left)
    if [ "$memory" -lt "$memory_needed" ] || [ "$disk" -lt "$disk_needed" ]; then
        fail "$why; to prove its $count crates takes $memory_needed GB of memory and $disk_needed GB of disk," \
            "and $memory and $disk are free; --unproved as the first word takes a program without proofs"
    fi
    log=$(mktemp)
    echo "ftl: $why, so its $count crates are proved first, once; the log is $log" >&2
    echo 'ftl: --unproved as its first word takes a program without proofs, which is built in about four minutes' >&2
    [ ! -x "$program" ] || echo "ftl: with --no-build as its first word, ftl takes the program as it is" >&2
    build proved
}

# Takes the program without proofs, which is built first if it has to be.
take_unproved() {
    program=$crate/out/unproved/ftl
    why=$(why_build 'unproved program' "$program" "$program" src)
    if [ -n "$why" ]; then
        need "$why" 'rt python3'
        log=$(mktemp)
        echo "ftl: $why, so it is built first, once, in about four minutes" >&2
        build unproved
    fi
    echo 'ftl: unproved: this program was built without its proofs' >&2
}

case ${1-} in
--no-build)
    shift
    program=$crate/out/ftl
    [ -x "$program" ] || fail "the program isn't built; --unproved as the first word takes a program without proofs"
    ;;
--unproved)
    shift
    take_unproved
    ;;
*) take_proved ;;
esac

# Placeables that nest deep take stack: as much of it as the system lets this process have.
ulimit -s "$(ulimit -H -s)" 2>/dev/null || :

exec "$program" "$@"
