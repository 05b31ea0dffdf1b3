# shellcheck shell=bash
# Runs or skips the steps of a test and counts them, for scripts that read this file with `.`. Their last lines are 'K skipped',
# if a step was skipped, and 'N passed, M failed'.
passed=0 failed=0 skipped=0

# skip STEP WHY
skip() {
    echo "$1: skipped, $2"
    ((skipped += 1))
}

# is_possible STEP PROGRAMS: whether these programs, one word each, are on the path. If one is missing, the step is skipped.
is_possible() {
    local program
    for program in $2; do
        if ! command -v "$program" >/dev/null; then
            skip "$1" "there is no $program"
            return 1
        fi
    done
}

# step NAME COMMAND..: whether the command ends well in the folder `room`. If it doesn't, what it printed is shown.
step() {
    # shellcheck disable=SC2154 # the script that reads this file has `room`
    if (cd "$room" && "${@:2}") >"$log" 2>&1; then
        echo "$1: passed"
        ((passed += 1))
    else
        echo "$1: failed"
        cat "$log"
        ((failed += 1))
    fi
}

# Prints the last lines, and ends well if no step failed.
counts() {
    ((skipped > 0)) && echo "$skipped skipped"
    echo "$passed passed, $failed failed"
    ((failed == 0))
}
