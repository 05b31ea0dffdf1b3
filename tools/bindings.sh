#!/usr/bin/env bash
# Runs the tests of bindings/ and examples/ over the static library, and that of calls whose allocations are refused.
#
#   tools/bindings.sh [LIBRARY]      LIBRARY is the folder of libfluent_c.a; without it, the library is built over the
#                                    libraries that the gate left
# Its last lines are 'K skipped', if a program was missing, and 'N passed, M failed'. It ends with 1 if anything failed.
set -uo pipefail
cd "$(dirname "$0")/.."

. tools/lib/steps.sh

# Runs a command that needs these programs, or says which of them is missing.
run_with() {
    is_possible "== ${*:2}" "$1" || return 0
    echo "== ${*:2}"
    if "${@:2}"; then
        ((passed += 1))
    else
        echo "${*:2} failed"
        ((failed += 1))
    fi
}

# The library of the gate's own run: without FLUENT_C_LIB, that of this repository is taken.
unset FLUENT_C_LIB
if [[ -n ${1-} ]]; then
    export FLUENT_C_LIB=$1
else
    run_with rt bindings/build.sh
fi
if ((failed + skipped == 0)); then
    run_with cc bindings/c/run.sh
    run_with c++ bindings/cpp/run.sh
    run_with cc bindings/ffi/run.sh
    run_with 'cc cargo' bindings/rust/run.sh
    run_with 'cc python3' bindings/python/run.sh
    run_with 'cc python3' bindings/first_programs.sh
    run_with 'nvim python3' bindings/python/in_editor.sh
    run_with 'chromium python3' bindings/python/in_browser.sh
    run_with cc examples/c/run.sh
    run_with 'cc rustc' examples/rust/run.sh
    run_with cc bench/bindings/refused.sh
fi

counts
