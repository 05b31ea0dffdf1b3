#!/usr/bin/env bash
# Makes a release and uses it as somebody would who has nothing else: in an empty folder, with nothing of this repository in
# reach of a path. Its last lines are 'K skipped', if a program was missing, and 'N passed, M failed'.
set -uo pipefail
root=$(cd "$(dirname "$0")/.." && pwd)

. "$root/tools/lib/steps.sh"
room=$(mktemp -d)
log=$room/log
trap 'rm -rf "$room"' EXIT

# Runs a step that needs these programs, or says which of them is missing.
step_with() {
    is_possible "$2" "$1" && step "${@:2}"
}

same_twice() {
    "$root/tools/release.sh" "$room/one" >/dev/null && "$root/tools/release.sh" "$room/two" >/dev/null || return
    cmp "$room"/one/*.tar.gz "$room"/two/*.tar.gz
}

# A block of lines that the release's README has to be copied, by its number from 1.
printed() {
    awk -v wanted="$1" '/^    / { block += !inside; inside = 1; if (block == wanted) print substr($0, 5); next } { inside = 0 }' \
        "$room/a stranger/kozhvadi/README.md"
}

# Runs such a block, at a home with nothing in it but what earlier blocks put there.
follows() {
    local rustup=${RUSTUP_HOME:-$HOME/.rustup} cargo=${CARGO_HOME:-$HOME/.cargo}
    HOME=$room/home RUSTUP_HOME=$rustup CARGO_HOME=$cargo bash -euc "$(printed "$1")"
}

unpacks() {
    mkdir -p home 'a stranger' && cd 'a stranger' && tar xzf "$room"/one/*.tar.gz && mv kozhvadi-* kozhvadi &&
        (cd kozhvadi && sha256sum --quiet -c SHA256SUMS) && [ "$(kozhvadi/bin/ftl --version)" = "ftl $version" ] &&
        printf 'hello = Hello, { $name }!\n' >hello.ftl
}

# The program, in a folder with a space, in a pipe.
answers() {
    cd 'a stranger' && [ "$(printf 'hello\tname=Jane\n' | kozhvadi/bin/ftl run --no-isolating hello.ftl)" = "$(printf 'ok 12 0\nHello, Jane!')" ]
}

man_page_lists_commands() {
    cd 'a stranger' && kozhvadi/bin/ftl --help | sed -n '/^Commands:/,/^$/s/^  \([a-z]*\) .*/\1/p' | grep -v '^help$' |
        while read -r command; do
            grep -q "^.SS ftl $command" kozhvadi/share/man/man1/ftl.1 || exit 1
            for file in bash-completion/completions/ftl zsh/site-functions/_ftl fish/vendor_completions.d/ftl.fish; do
                grep -qw -- "$command" "kozhvadi/share/$file" || exit 1
            done
            kozhvadi/bin/ftl "$command" --help | grep -o -- '--[a-z][a-z-]*' | sort -u | while read -r option; do
                grep -qF -- "${option//-/\\-}" kozhvadi/share/man/man1/ftl.1 || exit 1
            done || exit 1
        done
}

completes() {
    cd 'a stranger' && bash -c '
        . kozhvadi/share/bash-completion/completions/ftl
        COMP_WORDS=(ftl li) COMP_CWORD=1; _ftl; [ "${COMPREPLY[*]}" = lint ] || exit 1
        COMP_WORDS=(ftl lint --format j) COMP_CWORD=3; _ftl; [ "${COMPREPLY[*]}" = json ] || exit 1
        COMP_WORDS=(ftl lint --color al) COMP_CWORD=3; _ftl; [ "${COMPREPLY[*]}" = always ] || exit 1
        COMP_WORDS=(ftl lint --ignore cyc) COMP_CWORD=3; _ftl; [ "${COMPREPLY[*]}" = cyclic-reference ] || exit 1
        COMP_WORDS=(ftl lint --select syntax,cyc) COMP_CWORD=3; _ftl; [ "${COMPREPLY[*]}" = syntax,cyclic-reference ]'
}

installs() {
    (cd 'a stranger/kozhvadi' && [ "$(follows 1 | tail -n 1)" = "ftl $version" ]) || return
    cd 'a stranger' && kozhvadi/install.sh "$room/prefix of mine" && [ "$("$room/prefix of mine/bin/ftl" --version)" = "ftl $version" ] &&
        kozhvadi/install.sh --remove "$room/prefix of mine" && [ -z "$(find "$room/prefix of mine" -type f)" ]
}

# The pages on the command, each in a folder of its own.
command_pages() {
    (typed command/command-line.md) && (typed command/finding-mistakes.md) && (typed command/project.md)
}

damage_is_noticed() {
    cp -R 'a stranger/kozhvadi' damaged && echo x >>damaged/include/fluent_c.h && ! damaged/install.sh "$room/nowhere" &&
        [ ! -e "$room/nowhere" ]
}

# Does what a page of the release says, in an empty folder at that home.
typed() {
    local rustup=${RUSTUP_HOME:-$HOME/.rustup} cargo=${CARGO_HOME:-$HOME/.cargo}
    mkdir -p "typed/$1" && cd "typed/$1" &&
        env -u FLUENT_C_LIB -u RATTLE_KIT_C HOME="$room/home" RUSTUP_HOME="$rustup" CARGO_HOME="$cargo" PATH="$room/home/.local/bin:$PATH" \
            python3 "$root/tools/release/typed.py" "$room/home/.local/share/doc/kozhvadi/docs/$1"
}

# Each link of a page leads to a file of the release, once it is installed, and to a heading that is there.
links_lead_somewhere() {
    python3 - home/.local/share <<'PYTHON'
import re, sys
from pathlib import Path

pages = [*Path(sys.argv[1]).rglob("*.md")]
links = [(page, link) for page in pages for link in re.findall(r"\]\(([^)\s]+)\)", page.read_text()) if "://" not in link]

def is_dead(page, link):
    path, _, heading = link.partition("#")
    target = page.parent / path if path else page
    if not target.exists() or not heading:
        return not target.exists()
    names = re.findall(r"^#+ (.*)$", target.read_text(), re.M)
    return heading not in [re.sub(r"[^\w\- ]", "", name.lower()).replace(" ", "-") for name in names]

dead = [f"{page}: {link}" for page, link in links if is_dead(page, link)]
sys.exit("\n".join(dead) if dead or len(links) < 50 else 0)
PYTHON
}

# The C program of the README, over pkg-config; and the first one of the page, as it says and by the static library.
c_program() {
    follows 2 | diff "$root/bindings/c/functions.expected" - && (typed c-and-cpp/first-program-in-c.md) || return
    cd typed/c-and-cpp/first-program-in-c.md && export PKG_CONFIG_PATH=$room/home/.local/lib/pkgconfig
    cc -Wall -Wextra -o static first.c $(pkg-config --cflags fluent_c) "$room/home/.local/lib/libfluent_c.a" &&
        [ "$(./static)" = "$(./first)" ]
}

# The program of the page for C++, as it says, and found by CMake over the shared library and over the static one; and the
# example.
cpp_program() {
    local doc=home/.local/share/doc/kozhvadi target
    (typed c-and-cpp/cpp.md) && mkdir cpp && cp typed/c-and-cpp/cpp.md/inbox.cpp cpp/first.cpp || return
    cat >cpp/CMakeLists.txt <<'CMAKE'
cmake_minimum_required(VERSION 3.13)
project(stranger CXX)
find_package(kozhvadi 0.1 REQUIRED)
foreach(kind IN ITEMS fluent fluent_static)
    add_executable(first_${kind} first.cpp)
    target_link_libraries(first_${kind} PRIVATE kozhvadi::${kind})
endforeach()
add_executable(notes ${NOTES})
target_link_libraries(notes PRIVATE kozhvadi::fluent)
CMAKE
    cmake -S cpp -B cpp/built -DCMAKE_PREFIX_PATH="$room/home/.local" -DNOTES="$room/$doc/examples/notes.cpp" &&
        cmake --build cpp/built || return
    for target in fluent fluent_static; do
        [ "$(cpp/built/first_$target)" = '3 messages are unread.' ] || return
    done
    [ "$(echo b | env -i LANG=de cpp/built/notes "$doc/examples/notes" | tail -n 1)" = 'Auf Wiedersehen, friend.' ]
}

# The program of the page for other languages, and the example, over the shared library.
lua_program() {
    local library=$room/home/.local/lib/libfluent_c.so
    sed '1,/^```lua$/d;/^```$/,$d' home/.local/share/doc/kozhvadi/bindings/ffi/README.md >first.lua &&
        [ "$(luajit first.lua "$library")" = 'Jane has one message.' ] &&
        luajit home/.local/share/doc/kozhvadi/examples/inbox.lua "$library" | diff "$root/bindings/ffi/inbox.expected" -
}

# The example for Go, with the line that the page adds to it.
go_program() {
    mkdir go && sed 's|^// #include|// #cgo pkg-config: fluent_c\n&|' home/.local/share/doc/kozhvadi/examples/inbox.go >go/inbox.go &&
        cd go || return
    export PKG_CONFIG_PATH=$room/home/.local/lib/pkgconfig GO111MODULE=off GOCACHE=$room/go/cache
    go run inbox.go | diff "$root/bindings/ffi/inbox.expected" -
}

exports_the_headers_alone() {
    diff <(nm -D --defined-only home/.local/lib/libfluent_c.so | sed -n 's/.* T //p' | sed 's/@.*//' | sort) \
        <(sed -n 's/^[a-z].*\b\(fluent_[a-z_0-9]*\)(.*/\1/p' home/.local/include/fluent_c.h home/.local/include/fluent_handle.h | sort -u)
}

python_program() {
    follows 3 || return
    cd 'a stranger' && [ "$(../home/kozhvadi/bin/python -c '
from kozhvadi import Bundle, _extension
from pathlib import Path
assert Path(_extension.__file__).with_name("_fast.abi3.so").exists() == (_extension.calls_type is not None)
bundle = Bundle([open("hello.ftl").read()], isolating=False)
print(bundle.format("hello", name="Jane").text)
import doctest, importlib.metadata
session = importlib.metadata.metadata("kozhvadi")["Description"].partition("```python")[2].partition("```")[0]
assert doctest.DocTestRunner().run(doctest.DocTestParser().get_doctest(session, {}, "README", None, 0)) == (0, 5)')" = 'Hello, Jane!' ]
}

# The first program of the page, in the environment that is there.
python_page() {
    typed python/first-program.md
}

# Calls the program of a hook of the release with files, as pre-commit does.
hook() {
    local line
    line=$(sed -n "/- id: $1\$/,/entry:/s/^ *entry: //p" .pre-commit-config.yaml)
    shift
    eval "$line" '"$@"'
}

# The hook for findings, over a commit of two languages with a mistake in each. A third file has one, and isn't part of it.
hooks_name_mistakes() {
    mkdir -p hooks/l10n/{en,de,pl} && cd hooks && cp ../home/.local/share/pre-commit/.pre-commit-config.yaml . || return
    printf 'locales = ["de", "pl"]\n[[paths]]\nreference = "l10n/en/**"\nl10n = "l10n/{locale}/**"\n' >l10n.toml
    printf 'hello = Hello, { -who }!\n' >l10n/en/menu.ftl
    printf 'hello =   Hallo, { -whom }!\n' | tee l10n/de/menu.ftl >l10n/pl/menu.ftl
    printf -- '-who = you\n' | tee l10n/{en,de}/terms.ftl >l10n/pl/terms.ftl
    printf 'bye = { -whom }\n' >l10n/de/other.ftl
    export PATH=$room/home/.local/bin:$PATH
    ! hook ftl-lint l10n/de/menu.ftl l10n/pl/menu.ftl >found || return
    [ "$(grep -c 'error: .*\[unknown-term\]$' found)" = 2 ] && [ "$(grep -c 'error: ' found)" = 2 ] &&
        grep -q '^l10n/de/menu.ftl:1' found && grep -q '^l10n/pl/menu.ftl:1' found || return
    hook ftl-lint l10n/de/terms.ftl && hook ftl-tidy l10n/de/menu.ftl && [ "$(cat l10n/de/menu.ftl)" = 'hello = Hallo, { -whom }!' ]
}

# The example that changes files, over a file of the stranger's.
python_example() {
    cd 'a stranger' &&
        ../home/kozhvadi/bin/python ../home/.local/share/doc/kozhvadi/examples/migrate.py . --id hello=greeting >changes &&
        grep -qx '+greeting = Hello, { $name }!' changes
}

# Starts a server of the languages of the release, which prints its address, and asks it for a page in French.
greets() {
    local server status
    "$@" home/.local/share/doc/kozhvadi/examples/l10n >address 2>/dev/null &
    server=$!
    timeout 20 bash -c 'until [ -s address ]; do sleep 0.1; done'
    python3 -c '
import sys, urllib.request
request = urllib.request.Request(sys.argv[1] + "?name=Jane", headers={"Accept-Language": "fr"})
page = urllib.request.urlopen(request, timeout=20).read().decode()
sys.exit("Bienvenue, \u2068Jane\u2069." not in page)' "$(cat address)"
    status=$?
    kill "$server"
    return $status
}

python_site() {
    greets home/kozhvadi/bin/python home/.local/share/doc/kozhvadi/examples/middleware.py
}

# The language server, and the page of the playground with its two files.
python_tools() {
    local message='{"id":1,"method":"initialize","params":{"capabilities":{}}}'
    cd 'a stranger' && printf 'Content-Length: %d\r\n\r\n%s' ${#message} "$message" >message &&
        { ../home/kozhvadi/bin/kozhvadi-server <message >answer || [ $? = 1 ]; } && grep -q '"name":"kozhvadi"' answer &&
        ../home/kozhvadi/bin/kozhvadi-playground --help | grep -q -- --reference &&
        ../home/kozhvadi/bin/python -c '
from kozhvadi.playground._pages import Playground
import threading, urllib.request
server = Playground(0, dict)
threading.Thread(target=server.serve_forever, daemon=True).start()
for name in ("", "page.css", "page.js", "assist.js", "start"):
    assert urllib.request.urlopen(server.address + name).read()'
}

# The mode of Emacs and the syntax of Vim are where the guide says.
highlights() {
    local share=home/.local/share/editors
    [ -s "$share/fluent.tmLanguage.json" ] && python3 -m zipfile -l "$share/kozhvadi-$version.vsix" | grep -q extension/package.json || return
    if command -v vim >/dev/null; then
        vim -es -N -u NONE -i NONE --cmd "set runtimepath^=$share/vim" -c 'filetype plugin on | syntax on' \
            -c 'edit a\ stranger/hello.ftl' -c 'call writefile([&filetype, synIDattr(synID(1, 1, 1), "name")], "seen")' -c 'qa!' </dev/null
        [ "$(paste -sd' ' seen)" = 'fluent fluentMessage' ] || return
    fi
    if command -v emacs >/dev/null; then
        emacs -Q --batch -L "$share/emacs" -l fluent-mode --eval '(find-file "a stranger/hello.ftl")' \
            --eval '(princ major-mode)' | grep -qx fluent-mode
    fi
}

# A package to which the README's lines add this one, and the first program of the page.
rust_program() {
    cargo init --quiet --vcs none --name stranger rust && (cd rust && follows 4) && typed rust/first-program.md
}

rust_server() {
    mkdir -p rust/examples && cp home/.local/share/doc/kozhvadi/examples/server.rs rust/examples &&
        (cd rust && env -u FLUENT_C_LIB -u RATTLE_KIT_C cargo build --quiet --offline --example server) &&
        greets rust/target/debug/examples/server
}

version=$("$root/crates/ftl/out/ftl" --version | cut -d' ' -f2)
step_with 'cc ar python3 tar gzip' 'two releases are the same' same_twice
step_with tar 'the release unpacks, and its sums hold' unpacks
step_with tar 'ftl answers' answers
step_with tar 'the man page and the completions have each command and option' man_page_lists_commands
step_with bash 'bash completes' completes
step_with tar 'it installs and is removed' installs
step_with python3 'the pages on the command, on mistakes and on a project show what ftl prints' command_pages
step_with tar 'its hooks for pre-commit name what is wrong with the files of a commit' hooks_name_mistakes
step_with tar 'a damaged release is not installed' damage_is_noticed
step_with python3 'the links of its pages lead somewhere' links_lead_somewhere
step_with 'cc pkg-config python3' 'the first program in C does what its page says' c_program
step_with 'c++ cmake pkg-config python3' 'the first program in C++ does what its page says, and CMake finds the library' cpp_program
step_with luajit 'programs for LuaJIT call it by handles' lua_program
step_with 'go cc pkg-config' 'the example for Go calls it by handles' go_program
step_with nm 'the shared library gives out the headers alone' exports_the_headers_alone
step_with python3 'pip installs the wheel, and a program uses it' python_program
step_with python3 'the first program in Python does what its page says' python_page
step_with python3 'an example in Python changes a file' python_example
step_with python3 'an example in Python is a site' python_site
step_with python3 'its language server and its playground begin' python_tools
step_with python3 'editors highlight a file' highlights
step_with 'cargo python3' 'the first program in Rust does what its page says' rust_program
step_with 'cargo python3' 'an example in Rust is a web server' rust_server

counts
