#!/usr/bin/env python3
"""Makes the wheel of the Python module, with the shared library inside, and the extension if there is one.

    wheel.py BINDINGS LIBRARY EXTENSION VERSION OUT

Python without the stable ABI takes the same wheel, and does without the extension.

A wheel is a zip file with a record of its files. This one is made from sorted files with one time, so that the same
commit gives the same bytes, and needs no build backend.
"""
import base64
import hashlib
import os
import re
import sys
import time
import zipfile
from pathlib import Path

from pages import page_of

TAG = 'py3-none-linux_x86_64'


def metadata(bindings, version):
    """What the package is, with its page as the description."""
    fields = (
        'Metadata-Version: 2.1\n'
        'Name: kozhvadi\n'
        f'Version: {version}\n'
        'Summary: Fluent messages from a proved library\n'
        'Requires-Python: >=3.10\n'
        'Description-Content-Type: text/markdown\n'
    )
    return f'{fields}\n{page_of(bindings.parents[1], "bindings/python/README.md", {})}'.encode()


def wheel():
    return f'Wheel-Version: 1.0\nGenerator: kozhvadi\nRoot-Is-Purelib: false\nTag: {TAG}\n'.encode()


def record(files, name):
    def line(path, data):
        digest = base64.urlsafe_b64encode(hashlib.sha256(data).digest()).rstrip(b'=').decode()
        return f'{path},sha256={digest},{len(data)}\n'

    return ''.join(line(path, data) for path, data in sorted(files.items())).encode() + f'{name},,\n'.encode()


# The commands of the package, as pyproject.toml has them, and the pages that explain the codes of findings.
SCRIPTS = re.compile(r'^\[project\.scripts\]\n((?:[\w-]+ = "[\w.:]+"\n)+)', re.M)
PAGES = ('reference/codes.md', 'reference/lint.md', 'command/editors.md')


def entry_points(bindings):
    scripts = SCRIPTS.search((bindings / 'pyproject.toml').read_text(encoding='utf-8'))[1]
    return f'[console_scripts]\n{scripts}'.replace('"', '').encode()


def contents(bindings, library, extension, version):
    package = bindings / 'kozhvadi'
    files = {
        f'kozhvadi/{path.relative_to(package)}': path.read_bytes()
        for path in package.rglob('*')
        if path.suffix in ('.py', '.pyi', '.typed', '.html', '.css', '.js') or path.name == 'py.typed'
    }
    files['kozhvadi/libfluent_c.so'] = library.read_bytes()
    if extension.is_file():
        files['kozhvadi/_fast.abi3.so'] = extension.read_bytes()
    for page in PAGES:
        files[f'kozhvadi/server/pages/{page}'] = page_of(bindings.parents[1], f'docs/{page}', {}).encode()
    info = f'kozhvadi-{version}.dist-info'
    files[f'{info}/METADATA'] = metadata(bindings, version)
    files[f'{info}/WHEEL'] = wheel()
    files[f'{info}/entry_points.txt'] = entry_points(bindings)
    files[f'{info}/RECORD'] = record(files, f'{info}/RECORD')
    return files


def main():
    bindings, library, extension, version, out = sys.argv[1:]
    files = contents(Path(bindings), Path(library), Path(extension), version)
    moment = time.gmtime(max(int(os.environ.get('SOURCE_DATE_EPOCH', '315532800')), 315532800))[:6]
    with zipfile.ZipFile(Path(out) / f'kozhvadi-{version}-{TAG}.whl', 'w', zipfile.ZIP_DEFLATED) as made:
        for path, data in sorted(files.items()):
            entry = zipfile.ZipInfo(path, moment)
            entry.compress_type = zipfile.ZIP_DEFLATED
            entry.external_attr = (0o755 if path.endswith('.so') else 0o644) << 16
            made.writestr(entry, data)


if __name__ == '__main__':
    main()
