#!/usr/bin/env python3
"""Copies the rows of tests/more_rows whose modules are named, or all of them.

    modules.py ROWS COPY [MODULE..]

ROWS is their folder, and COPY the new folder of the sources: these modules, and a root file that declares and calls no other.
Prints the libraries that the copied sources name, of those in the file `uses`.
"""
import re
import shutil
import sys
from pathlib import Path

ROOT_FILE = 'main.rt.txt'


def statements(body: str) -> list[str]:
    """The statements of a block, each with what ends it."""
    return re.findall(r'\s*[^;]+;?', body)


def root_of(text: str, modules: list[str]) -> str:
    """The root file with these modules alone."""
    head, opened, body = text.rstrip().removesuffix('}').partition('fn main(rt: HostRuntime) -> Result<()> {')
    chosen = [it.strip().removesuffix(';') for it in statements(body) if any(f'{name}::' in it for name in modules)]
    lines = [it for it in head.split('\n') if not re.match(r'mod \w+;', it) or it[4:-1] in modules]
    if not any('tell(' in it for it in chosen):
        lines.remove('use rows_common::tell;')
    return '\n'.join(lines) + opened + ''.join(f'\n    {it.removesuffix("?")}?;' for it in chosen) + '\n    Ok(())\n}\n'


def copied(rows: Path, copy: Path, modules: list[str]) -> None:
    """Copies the sources of these modules with their root file."""
    copy.mkdir()
    (copy / ROOT_FILE).write_text(root_of((rows / 'src' / ROOT_FILE).read_text(), modules))
    for name in modules:
        if (rows / 'src' / name).is_dir():
            shutil.copytree(rows / 'src' / name, copy / name)
        else:
            shutil.copy(rows / 'src' / f'{name}.rt.txt', copy)


def main(rows: Path, copy: Path, *modules: str) -> None:
    known = re.findall(r'^mod (\w+);', (rows / 'src' / ROOT_FILE).read_text(), re.M)
    unknown = [name for name in modules if name not in known]
    if unknown:
        sys.exit(f'more_rows.sh: no module {", ".join(unknown)}: there are {", ".join(known)}')
    uses = (rows / 'uses').read_text().split()
    if not modules:
        shutil.copytree(rows / 'src', copy)
        print(*uses)
        return
    copied(rows, copy, [*modules])
    code = '\n'.join(file.read_text() for file in copy.rglob('*.txt'))
    print(*(name for name in uses if re.search(rf'\b{name}\b', code)))


if __name__ == '__main__':
    main(Path(sys.argv[1]), Path(sys.argv[2]), *sys.argv[3:])
