#!/bin/sh
# Builds the C programs of this folder and that of docs/c-and-cpp/first-program-in-c.md over the static library, runs them, and
# compares what they print: that of the page with what it says, messages.c with `expected`, functions.c and dates.c with
# functions.expected and dates.expected, and the tests of `tests` with theirs; numerals.c compares what it formats itself, and
# doubles.py what doubles.c writes, also in a locale with a decimal comma; threads.c asks from eight threads, and is built with
# the sanitizer for them if the compiler has it. That of the page, named.c, functions.c and dates.c are built as C++ too, if there is a compiler for it, and no warning is let through. The
# tests count the blocks of memory that are left; they are built with the sanitizers if the compiler has them, and else run
# under valgrind if it is there.
set -eu
here=$(cd "$(dirname "$0")" && pwd)
root=$(cd "$here/../.." && pwd)
. "$root/bindings/library.sh"
built=$(mktemp -d)
trap 'rm -rf "$built"' EXIT
# The version of the header is that of the packages.
version=$(sed -n 's/^version = "\(.*\)"$/\1/p' "$root/bindings/rust/Cargo.toml")
minor=${version#*.}
number=$((${version%%.*} * 1000000 + ${minor%%.*} * 1000 + ${version##*.}))
grep -qx "#define FLUENT_VERSION $number" "$header/fluent_c.h"
page=$root/docs/c-and-cpp/first-program-in-c.md
sed '1,/^```c$/d;/^```$/,$d' "$page" >"$built/first.c"
cp "$here/messages.c" "$here/named.c" "$here/functions.c" "$here/dates.c" "$built"
strict='-Wall -Wextra -Wpedantic -Werror'
for program in first messages named functions dates; do
    cc -std=c11 -O2 $strict -I "$header" -o "$built/$program" "$built/$program.c" -L "$library" -lfluent_c -L "$kit" -llibc_c
    "$built/$program" >"$built/$program.printed"
    cat "$built/$program.printed"
done
if command -v c++ >/dev/null; then
    for program in first named functions dates; do
        c++ -std=c++20 -O2 $strict -I "$header" -o "$built/$program" -x c++ "$built/$program.c" -x none -L "$library" -lfluent_c \
            -L "$kit" -llibc_c
        "$built/$program" | cmp - "$built/$program.printed"
    done
fi
grep -qxF "$(cat "$built/first.printed")" "$page"
diff "$here/expected" "$built/messages.printed"
diff "$here/functions.expected" "$built/functions.printed"
diff "$here/dates.expected" "$built/dates.printed"

# Builds the tests, and the programs that are run with them, with these flags.
build_tests() {
    cc -std=c11 -O1 -g -Wall -Wextra "$@" -I "$header" -Wl,--wrap=malloc -Wl,--wrap=realloc -Wl,--wrap=free \
        -o "$built/tests" "$here"/tests/*.c -L "$library" -lfluent_c -L "$kit" -llibc_c
    for program in languages numerals functions dates doubles; do
        cc -O1 -g -Wall -Wextra "$@" -I "$header" -o "$built/$program" "$here/$program.c" -L "$library" -lfluent_c -L "$kit" -llibc_c
    done
}

checker=
echo 'int main(void) { return 0; }' >"$built/none.c"
if cc -fsanitize=address,undefined -o "$built/none" "$built/none.c" 2>/dev/null && "$built/none"; then
    build_tests -fsanitize=address,undefined -fno-sanitize-recover=undefined
else
    build_tests
    checker=$(command -v valgrind >/dev/null && echo 'valgrind --quiet --error-exitcode=1 --leak-check=full' || echo)
fi
$checker "$built/languages" "$root/examples/l10n" | tee "$built/languages.printed"
diff "$root/examples/l10n/expected" "$built/languages.printed"
"$built/numerals" "$root/tests/numerals/rows.txt"
$checker "$built/functions" >"$built/functions.printed"
diff "$here/functions.expected" "$built/functions.printed"
$checker "$built/dates" >"$built/dates.printed"
diff "$here/dates.expected" "$built/dates.printed"
LC_ALL=C python3 "$here/doubles.py" "$built/doubles" .
if localedef -i de_DE -f UTF-8 "$built/de_DE.UTF-8" 2>/dev/null; then
    LOCPATH=$built LC_ALL=de_DE.UTF-8 python3 "$here/doubles.py" "$built/doubles" ,
else
    echo 'doubles with the point ",": skipped, localedef makes no de_DE.UTF-8'
fi
# Threads need a sanitizer of their own.
sanitizer=-fsanitize=thread
cc $sanitizer -o "$built/none" "$built/none.c" 2>/dev/null && "$built/none" || sanitizer=
cc -O1 -g -Wall -Wextra -pthread $sanitizer -I "$header" -o "$built/threads" "$here/threads.c" -L "$library" -lfluent_c -L "$kit" -llibc_c
"$built/threads" >"$built/threads.printed"
echo "${sanitizer:-no sanitizer for threads}: $(cat "$built/threads.printed")"
$checker "$built/tests" >"$built/tests.printed" || { cat "$built/tests.printed"; exit 1; }
cat "$built/tests.printed"
diff "$here/tests/expected" "$built/tests.printed"
