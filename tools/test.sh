#!/usr/bin/env bash
# The merge gate, in stages: what needs no build, then rt ci, which proves and builds everything and runs the rows, then what
# runs over the built program and library.
#
#   tools/test.sh [--quick]      --quick builds a program and a library without proofs, and runs what it can over them
#
# Its last line is 'N passed, M failed', and it ends with 1 if anything failed.
set -uo pipefail
cd "$(dirname "$0")/.." || exit
. tools/kit.sh || exit

. tools/lib/steps.sh

building=
log=$(mktemp)
trap 'rm -f "$log" "$log.library"; [[ -z $building ]] || kill "$building"' EXIT

# Runs a command whose last line is 'N passed, M failed', and adds its counts, and those of a line 'K skipped' above it. A
# command that ends without the last line, or with a status other than 0 though it counted no failure, has failed.
count() {
    local status=0
    echo "== $*"
    "$@" 2>&1 | tee "$log" || status=$?
    if [[ $(tail -n 1 "$log") =~ ^([0-9]+)\ passed,\ ([0-9]+)\ failed ]]; then
        ((passed += BASH_REMATCH[1], failed += BASH_REMATCH[2]))
        ((status != 0 && BASH_REMATCH[2] == 0)) && ((failed += 1))
    else
        ((failed += 1))
    fi
    if [[ $(tail -n 2 "$log" | head -n 1) =~ ^([0-9]+)\ skipped$ ]]; then
        ((skipped += BASH_REMATCH[1]))
    fi
}

# Runs a command that needs these programs, or says which of them is missing.
count_with() {
    is_possible "== ${*:2}" "$1" && count "${@:2}"
}

# Whether each file of the crates is in the toolchain's layout, as one check.
layout() {
    local status=0
    find crates -path '*/out' -prune -o \( -name '*.rt' -o -name '*.antt' \) -print0 |
        xargs -0 "$kit/bin/rattle" fmt --check || status=1
    echo "$((1 - status)) passed, $status failed"
    return "$status"
}

# What needs no build.
sources() {
    count_with python3 tools/house/check.py --sources
    count_with python3 tools/plurals/compare.py
    count_with python3 tools/numbers/compare.py
    count_with python3 tools/dates/compare.py
    count_with python3 tools/explanations.py --check
    count_with python3 bench/plot.py --check
    count layout
}

# What runs over a built program.
over_program() {
    count_with python3 tools/script.sh
    count_with python3 tools/house/check.py --calls --program "$1"
    count_with python3 tools/rows.py "$1"
    count_with python3 tools/checks.py "$1"
    count_with python3 tools/projects.py "$1"
    count_with python3 tools/numbers/program.py "$1"
    count_with python3 tools/languages/program.py "$1"
}

# Whether the library without proofs is built, whose build ended with this status, as one check.
unproved_library() {
    cat "$log.library"
    echo "$(($1 == 0)) passed, $(($1 != 0)) failed"
    return "$1"
}

# Runs what needs no proof and takes no more than some minutes. The library is built while the program is built and tried.
quick() {
    local built=0
    python3 -B bindings/unproved.py crates/fluent_c/out/unproved >"$log.library" 2>&1 &
    building=$!
    sources
    over_program crates/ftl/out/unproved/ftl
    wait "$building" || built=$?
    building=
    count unproved_library "$built"
    count tools/bindings.sh "$PWD/crates/fluent_c/out/unproved"
    skip '== rt ci' 'since it proves'
    skip '== tools/more_rows.sh' 'since it takes four minutes more'
    skip '== tools/stranger.sh' 'since it makes a release'
}

# Proves everything, and runs all tests.
gate() {
    local library stage before
    # The libraries that an earlier gate left: rt ci would put them back in the place of its own, which the bindings stand on.
    for library in crates/*/out/rlib; do
        [[ -e $library/stamp ]] || rm -rf "$library"
    done
    sources
    before=$failed
    count rt ci
    if ((failed == before)); then
        over_program crates/ftl/out/ftl
        count_with python3 tools/more_rows.sh
        count tools/bindings.sh
        count tools/stranger.sh
    else
        for stage in tools/script.sh 'the calls of pages' tools/rows.py tools/checks.py tools/projects.py \
            tools/numbers/program.py tools/languages/program.py tools/more_rows.sh tools/bindings.sh \
            tools/stranger.sh; do
            skip "== $stage" 'since rt ci failed'
        done
    fi
}

case $* in
'') gate ;;
--quick) quick ;;
*)
    echo 'usage: tools/test.sh [--quick]' >&2
    exit 2
    ;;
esac

[[ $* == --quick ]] && echo 'nothing was proved: tools/test.sh proves everything'
counts
