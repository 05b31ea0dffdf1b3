#!/usr/bin/env bash
# Tries the script `ftl` as callers run it, in a scratch repository whose build takes no time: the program there prints its folder,
# its words and its input, and ends with 3. The last step builds the program of this repository without proofs.
# The last line is 'N passed, M failed', and the status is 1 if anything failed.
set -uo pipefail
root=$(cd "$(dirname "$0")/.." && pwd)
. "$root/tools/kit.sh" || exit

. "$root/tools/lib/steps.sh"
scratch=$(mktemp -d)
trap 'rm -rf "$scratch"' EXIT
room=$scratch/elsewhere log=$scratch/log # of the steps
mkdir "$room"
top="$scratch/a checkout"
proved=$top/crates/ftl/out/ftl
program=$top/crates/ftl/out/unproved/ftl
unproved='ftl: unproved: this program was built without its proofs'
missing='and there is no'
built='so it is built first, once, in about four minutes'

# ends STATUS STDOUT STDERR WORD..: whether the script ends so on these words. The texts are without their last line end.
# `script` is another path of the script, and `commands` the only folder of commands.
ends() {
    local status=0
    echo in | PATH=${commands:-$PATH} "${script:-$top/ftl}" "${@:4}" >"$scratch/stdout" 2>"$scratch/stderr" || status=$?
    diff <(echo "$1") <(echo "$status") && diff <(echo "$2") <(echo "$(<"$scratch/stdout")") &&
        diff <(echo "$3") <(echo "$(<"$scratch/stderr")")
}

# What the program prints on these words.
printed() {
    printf '%s: %s\nin' "$PWD" "$*"
}

# A repository with a program, one that is proved, and a build of another.
make_repository() {
    mkdir -p "$top/crates/ftl/src" "$top/crates/ftl/out" "$top/crates/below/specs" "$top/tools/lib"
    cp "$root/ftl" "$top"
    cp "$root/tools/lib/crates.sh" "$top/tools/lib"
    printf 'ftl: below\nbelow:\n' >"$top/crates.txt"
    touch "$top/crates/ftl/src/main.rt" "$top/crates/below/specs/Lib.antt"
    find "$top" -exec touch -d '2 hours ago' {} +
    cat >"$top/tools/unproved.py" <<'PYTHON'
import os, sys
if os.path.exists(f"{os.path.dirname(__file__)}/refused"):
    sys.exit("unproved.py: refused")
os.makedirs(os.path.dirname(sys.argv[1]), exist_ok=True)
with open(f"{sys.argv[1]}.{os.getpid()}", "w") as program:
    program.write('#!/bin/sh\necho "$PWD: $*"\ncat\nexit 3\n')
    os.chmod(program.name, 0o755)
os.rename(program.name, sys.argv[1])
PYTHON
}

# A folder of the commands that the script uses, without the one that is named.
commands_without() {
    mkdir "$scratch/without $1"
    for command in rt python3 bash sh awk cat date df dirname find grep head kill mktemp nproc readlink rm sed sleep wc; do
        [[ $command == "$1" ]] || ln -s "$(type -P "$command")" "$scratch/without $1"
    done
    echo "$scratch/without $1"
}

without_rt() {
    commands=$(commands_without rt)
    ends 126 '' "ftl: the unproved program isn't built, $missing rt on the path to build it: README.md, 'Set up'" --unproved a &&
        ends 126 '' "ftl: the program isn't built, $missing rt on the path to build it: README.md, 'Set up'" a
}

gate_without_rt() {
    commands="$scratch/without rt" script=$root/tools/test.sh
    ends 126 '' "$script: there is no rt, the command of the toolchain, on the path: README.md, 'Set up'"
}

without_python() {
    commands=$(commands_without python3)
    ends 126 '' "ftl: the unproved program isn't built, $missing python3 on the path to build it: README.md, 'Set up'" --unproved a
}

refused() {
    touch "$top/tools/refused"
    ends 126 '' "ftl: the unproved program isn't built, $built
unproved.py: refused
ftl: the program was not built" --unproved a
    local status=$?
    rm "$top/tools/refused"
    return "$status"
}

builds_once() {
    ends 3 "$(printed a 'b  c')" "ftl: the unproved program isn't built, $built
$unproved" --unproved a 'b  c' && ends 3 "$(printed)" "$unproved" --unproved
}

by_link() {
    ln -s "$top/ftl" 'a link' && script=$PWD/'a link' && ends 3 "$(printed a)" "$unproved" --unproved a
}

younger() {
    touch -d '1 hour ago' "$program" && touch "$top/crates/below/specs/Lib.antt" &&
        ends 3 "$(printed)" "$unproved" --unproved && touch "$top/crates/ftl/src/main.rt" &&
        ends 3 "$(printed)" "ftl: crates/ftl/src/main.rt is younger than the unproved program, $built
$unproved" --unproved && ends 3 "$(printed)" "$unproved" --unproved
}

two_at_once() {
    rm "$program"
    "$top/ftl" --unproved </dev/null >/dev/null 2>&1 &
    "$top/ftl" --unproved </dev/null >/dev/null 2>&1
    [[ $? == 3 ]] && { wait $!; [[ $? == 3 ]]; }
}

# The unproved program is there, and isn't taken.
no_build() {
    ends 126 '' "ftl: the program isn't built; --unproved as the first word takes a program without proofs" --no-build a &&
        printf '#!/bin/sh\necho proved\n' >"$proved" && chmod +x "$proved" && ends 0 proved '' --no-build && ends 0 proved '' a
}

of_this_repository() {
    "$root/ftl" --unproved --version >stdout 2>stderr && grep -qx 'ftl [0-9.]*' stdout && [[ $(tail -n 1 stderr) == "$unproved" ]] &&
        script=$root/ftl && ends 2 '' "$unproved
$("$root/crates/ftl/out/unproved/ftl" --no-such-option 2>&1)" --unproved --no-such-option
}

make_repository
step 'without rt it says so' without_rt
step 'without rt the gate says so too' gate_without_rt
step 'without python3 it says so' without_python
step 'a build that is refused is shown' refused
step 'it builds the unproved program once, and says each time that it is unproved' builds_once
step 'by a link, from another folder' by_link
step 'it builds the unproved program again if the code is younger' younger
step 'two builds at once are both right' two_at_once
step 'the unproved program is never taken for the proved one' no_build
step 'it builds the program of this repository' of_this_repository
counts
