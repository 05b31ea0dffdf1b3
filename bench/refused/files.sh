#!/usr/bin/env bash
# Refuses each call on files of `ftl tidy` in turn, and then ends the program at each in turn, as a kill would. A file must then hold
# its old text or its tidy text, whole, with its mode, and nothing else may lie there but, after a kill, the new file of a replacement.
# The next run must remove that. A file that changes while it is tidied must stay as it was changed, and be reported.
#
#   files.sh [PROGRAM]
#
# PROGRAM is crates/ftl/out/ftl. The last line is 'N passed, M failed', and the status is 1 if anything failed.
set -euo pipefail
here=$(cd "$(dirname "$0")" && pwd)
program=$(realpath "${1:-$here/../../crates/ftl/out/ftl}")
work=$(mktemp -d)
trap 'rm -rf "$work"' EXIT
cc -shared -fPIC -O1 -Wall -o "$work/files.so" "$here/files.c" -ldl
old=$'a  =  1\n\n\n\nb={ $x }\n' tidy=$'a = 1\n\nb = { $x }\n' junk=$'x = { y\n'
passed=0 failed=0

# lies FILE TEXT..: whether a file holds one of these texts, with its mode
lies() {
    local file=$1 text
    shift
    [[ $(stat -c %a "$file") == 640 ]] || return 1
    for text; do
        ! cmp -s "$file" <(printf %s "$text") || return 0
    done
    return 1
}

# is_whole LEFT: whether all that lies here is as it may be; LEFT says whether a new file may be left
is_whole() {
    lies a.ftl "$old" "$tidy" && lies l/b.ftl "$old" "$tidy" && lies l/junk.ftl "$junk" || return 1
    local others
    others=$(find . -type f ! -name a.ftl ! -name b.ftl ! -name junk.ftl)
    [[ -z $others ]] || { [[ $1 == yes ]] && [[ $others == *.new ]]; }
}

# is_tidied: whether another run tidies what is left to tidy, and removes what the first left
is_tidied() {
    "$program" tidy . >"$work/names" 2>"$work/reports" || true
    lies a.ftl "$tidy" && lies l/b.ftl "$tidy" && is_whole no
}

# make_files: makes the files of a run
make_files() {
    rm -rf "$work/folder" "$work/told"
    mkdir -p "$work/folder/l"
    cd "$work/folder"
    printf %s "$old" | tee a.ftl >l/b.ftl
    printf %s "$junk" >l/junk.ftl
    chmod 640 a.ftl l/*.ftl
}

for kill in "" 1; do
    number=0
    while :; do
        number=$((number + 1))
        make_files
        status=0
        env REFUSED_CALL=$number ${kill:+REFUSED_KILL=1} REFUSED_TOLD=$work/told LD_PRELOAD=$work/files.so \
            "$program" tidy . >"$work/names" 2>"$work/reports" || status=$?
        [[ -e $work/told ]] || break
        call=$(<"$work/told")
        left=no
        [[ -z $kill && $call != unlink ]] || left=yes
        if is_whole $left && is_tidied; then
            passed=$((passed + 1))
        else
            failed=$((failed + 1))
            echo "${kill:+killed at }$call, number $number, status $status: $(find . -type f -exec sh -c 'echo "$1: $(od -An -c "$1" | tr -d "\n")"' - {} \;)"
        fi
    done
done

make_files
status=0
env REFUSED_EDIT=l/b.ftl LD_PRELOAD=$work/files.so "$program" tidy l/b.ftl a.ftl >"$work/names" 2>"$work/reports" || status=$?
if [[ $status == 3 && $(<"$work/names") == a.ftl && $(<"$work/reports") == "ftl: l/b.ftl: cannot write: changed while it was tidied" ]] &&
    lies a.ftl "$tidy" && lies l/b.ftl "$old"$'edit = 1\n' && [[ -z $(find . -name '*.new') ]]; then
    passed=$((passed + 1))
else
    failed=$((failed + 1))
    echo "changed while it is tidied, status $status: $(<"$work/names") $(<"$work/reports")"
fi
cd /
[[ $passed -gt 0 ]] || failed=1
echo "$passed passed, $failed failed"
[[ $failed == 0 ]]
