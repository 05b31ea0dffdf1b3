#!/usr/bin/env python3
"""Puts the pages, the examples and the sources that they use into a release.

    pages.py ROOT RELEASE

A page is where it is in the repository, below RELEASE/share/doc/kozhvadi, but for that of the Cargo package. What only
someone with the repository can do is left out: the beginnings of three pages are those of this folder, and a section on
building or on tests isn't there. A link to what isn't in the release becomes its words, and the script `./ftl` the
program.
"""

import os
import re
import shutil
import sys
from pathlib import Path

DOC = Path('share/doc/kozhvadi')
CARGO = Path('share/cargo/kozhvadi')
EXAMPLES = ('functions', 'languages', 'messages')
PROGRAMS = (
    'bindings/cpp/notes.cpp',
    'bindings/ffi/inbox.lua',
    'bindings/ffi/inbox.go',
    'bindings/rust/examples/server.rs',
    'examples/python/middleware.py',
    'examples/python/migrate.py',
)

# What a page of the repository begins with in a release, up to its first section.
BEGINNINGS = {
    'bindings/README.md': 'bindings.md',
    'bindings/python/README.md': 'python.md',
    'bindings/rust/README.md': 'cargo.md',
}
# Pages of `docs/inside` for someone who chooses the library or doubts it.
INSIDE = ('trusted', 'proved', 'validation', 'speed')
# Pages and sections for someone with the repository.
OF_THE_REPOSITORY = ('install.md', 'style.md')
LEFT_OUT = re.compile(r'^## (?:Build it|Tests|The script `ftl`)\n.*?(?=^## |\Z)', re.M | re.S)
# The script of the repository, where a release has the program.
SCRIPT = re.compile(r'(?<![\w/.])\./ftl\b(?! --(?:unproved|no-build))')
LINK = re.compile(r'!?\[([^\]]*)\]\(([^)\s#]+)(#[^)\s]*)?\)')


def released(root: Path) -> dict[str, Path]:
    """The files of the repository that a release has, and where it has them."""
    docs = ('docs', *(f'docs/{name}' for name in ('command', 'c-and-cpp', 'rust', 'python', 'rattle', 'reference')))
    bindings = ('bindings', *(f'bindings/{name}' for name in ('c', 'cpp', 'ffi', 'python')))
    pages = [page for folder in docs + bindings for page in root.glob(f'{folder}/*.md') if page.name not in OF_THE_REPOSITORY]
    pages += [root / f'docs/inside/{name}.md' for name in INSIDE]
    patterns = ('*.ftl', 'l10n/*/main.ftl', 'notes/*/notes.ftl')
    sources = [path for pattern in patterns for path in root.glob(f'examples/{pattern}')]
    places = {str(path.relative_to(root)): DOC / path.relative_to(root) for path in sorted(pages + sources)}
    places |= {f'bindings/c/{name}.c': DOC / 'examples' / f'{name}.c' for name in EXAMPLES}
    for example in PROGRAMS:
        places[example] = DOC / 'examples' / Path(example).name
    headers = [*root.glob('crates/fluent_c/*.h'), root / 'bindings/ffi/fluent_handle.h', root / 'bindings/cpp/fluent.hpp']
    places |= {str(path.relative_to(root)): Path('include') / path.name for path in headers}
    return places | {
        'CHANGELOG.md': DOC / 'CHANGELOG.md',
        'SECURITY.md': DOC / 'SECURITY.md',
        'crates/fluent_plurals/LICENSE-UNICODE': DOC / 'LICENSE-UNICODE',
        'bindings/rust/README.md': CARGO / 'README.md',
    }


def linked(text: str, page: str, places: dict[str, Path]) -> str:
    """The text of a page with links that lead somewhere in the release. Without a place, the page has none."""
    def link(found: re.Match[str]) -> str:
        words, target, heading = found.groups(default='')
        if '://' in target:
            return found[0]
        aim = places.get(os.path.normpath(Path(page).parent / target))
        if aim is None or page not in places:
            return words
        return f'[{words}]({os.path.relpath(aim, places[page].parent)}{heading})'

    return LINK.sub(link, text)


def page_of(root: Path, page: str, places: dict[str, Path]) -> str:
    """A page as a release has it."""
    text = (root / page).read_text(encoding='utf-8')
    if page in BEGINNINGS:
        beginning = (Path(__file__).parent / BEGINNINGS[page]).read_text(encoding='utf-8')
        text = beginning + text[text.index('\n## '):]
    text = linked(LEFT_OUT.sub('', text).rstrip() + '\n', page, places)
    examples = os.path.relpath(DOC / 'examples', CARGO)
    if page.startswith('docs/'):
        text = SCRIPT.sub('ftl', text)
    return re.sub(r'\bbindings/c(?:pp)?/(\w+\.c(?:pp)?)\b', r'examples/\1', text).replace('"../../examples/', f'"{examples}/')


def example_of(root: Path, example: str) -> str:
    """A program in C or C++ with the way to build it from a release."""
    name, compiler = Path(example), 'cc' if example.endswith('.c') else 'c++ -std=c++17'
    text = (root / example).read_text(encoding='utf-8')
    return text.replace(
        'Build and run it by run.sh beside this file.',
        f'Build it: {compiler} {name.name} $(pkg-config --cflags --libs fluent_c) -o {name.stem}')


def main() -> None:
    root, release = map(Path, sys.argv[1:])
    places = released(root)
    for path, place in places.items():
        if place.parts[0] == 'include':
            continue
        (release / place).parent.mkdir(parents=True, exist_ok=True)
        if path.endswith('.md'):
            (release / place).write_text(page_of(root, path, places), encoding='utf-8')
        elif path.endswith(('.c', '.cpp')):
            (release / place).write_text(example_of(root, path), encoding='utf-8')
        else:
            shutil.copyfile(root / path, release / place)


if __name__ == '__main__':
    main()
