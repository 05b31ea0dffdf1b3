#!/bin/sh
# Builds the program of docs/c-and-cpp/cpp.md over the static library with each compiler for C++ that is there, as C++17, C++20 and C++23,
# and lets no warning through; each has to print what the page says. Passes the tests of the folder `tests` through each in each
# standard. Builds them as C++17 with the sanitizers for addresses and undefined behavior, and as C++23 with the one for threads,
# and runs them; and the example notes.cpp, which has to print `notes.expected`. A compiler without a sanitizer builds the tests
# without it. The tests are one unit, not optimized: reading the header takes most of the time of each, and optimizing checks of
# sanitizers takes more than running them.
set -eu
here=$(cd "$(dirname "$0")" && pwd)
root=$(cd "$here/../.." && pwd)
. "$root/bindings/library.sh"
built=$(mktemp -d)
trap 'rm -rf "$built"' EXIT
strict='-Wall -Wextra -Wpedantic -Wold-style-cast -Wshadow -Wconversion -Wzero-as-null-pointer-constant -Werror'

# build COMPILER OUT FLAGS.. FILES..: a program over the library.
build() {
    compiler=$1 out=$2
    shift 2
    "$compiler" $strict -pthread "$@" -I "$here" -I "$header" -o "$out" -L "$library" -lfluent_c -L "$kit" -llibc_c
}

compilers=
for compiler in g++ clang++; do
    if command -v $compiler >/dev/null; then compilers="$compilers $compiler"; fi
done
compilers=${compilers:- c++}
last=${compilers##* }

page=$root/docs/c-and-cpp/cpp.md
sed '1,/^```cpp$/d;/^```$/,$d' "$page" >"$built/first.cpp"
for compiler in $compilers; do
    for standard in 17 20 2b; do
        build $compiler "$built/first" -std=c++$standard "$built/first.cpp"
        printed=$("$built/first")
        grep -qxF "$printed" "$page"
        echo "$compiler, C++$standard: $printed"
    done
done

echo 'int main() { return 0; }' >"$built/none.cpp"
for test in "$here"/tests/*.cpp; do
    echo "#include \"$test\""
done >"$built/tests.cpp"
# Builds the tests with a sanitizer, and runs them. Its words are the compiler, the standard and the sanitizers.
run_tests() {
    sanitizer="-fsanitize=$3 -fno-sanitize-recover=all"
    { $1 $sanitizer -o "$built/none" "$built/none.cpp" && "$built/none"; } 2>/dev/null || sanitizer=
    build $1 "$built/tests" -std=c++$2 -g $sanitizer "$built/tests.cpp"
    printf '%s' "$1, C++$2, ${sanitizer:-without sanitizers}: "
    "$built/tests" "$root/examples/l10n"
}
for compiler in $compilers; do
    for standard in 17 20 2b; do
        $compiler $strict -std=c++$standard -fsyntax-only -I "$here" -I "$header" "$built/tests.cpp"
    done
    run_tests "$compiler" 17 address,undefined
    run_tests "$compiler" 2b thread
done

build "$last" "$built/notes" -std=c++17 "$here/notes.cpp"
for language in de en pl_PL.UTF-8 fr; do
    env -i LANG=$language "$built/notes" "$root/examples/notes" <"$here/notes.input"
done >"$built/notes.printed"
diff "$here/notes.expected" "$built/notes.printed"
