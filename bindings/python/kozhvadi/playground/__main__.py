"""Serves the page until it is interrupted."""

from __future__ import annotations

import argparse
import errno
import re
import sys
import webbrowser
from pathlib import Path
from typing import Any

from .._samples import has_rules, is_tag
from . import __doc__ as about
from ._examples import EXAMPLES, FIRST
from ._pages import Playground
from ._project import Project, placed

# Links to the page keep their address if it has the same port each time.
_PORT = 8137

# Names of folders that are languages.
_TAG = re.compile(r"[a-z]{2,3}(?:[-_][A-Za-z]{2,4})?")

def _words() -> argparse.Namespace:
    parser = argparse.ArgumentParser(prog="kozhvadi-playground", description=about)
    parser.add_argument("path", nargs="*", type=Path, help="files that the page shows, or folders of them")
    parser.add_argument(
        "--reference", action="append", default=[], type=Path, help="the file or folder that they are a translation of"
    )
    parser.add_argument("--write", action="store_true", help="the page has a button that saves a file")
    parser.add_argument("--locale", help="the language, such as pl; without it, that of a folder's name, or else en")
    parser.add_argument("--port", type=int, default=_PORT, help=f"{_PORT} without it; 0 is any that is free")
    parser.add_argument("--open", action="store_true", help="open the page in a browser")
    words = parser.parse_args()
    words.locale = words.locale or _by_pattern(words.path) or _guessed(words.path)
    if not is_tag(words.locale):
        parser.error(f"the locale {words.locale!r} is no tag of a language")
    return words


def _by_pattern(paths: list[Path]) -> str | None:
    """The language that the project's file says of the first of these paths that it knows."""
    try:
        found = [placed(each) for path in paths for each in ([path] if path.is_file() else sorted(path.rglob("*.ftl"))[:1])]
    except (OSError, ValueError):
        # It is said once the files are read.
        return None
    return next((each.locale for each in found if each and each.locale), None)


def _guessed(paths: list[Path]) -> str:
    """The language that a folder of these paths is named by."""
    names = [each.name for path in paths for each in (path, *path.parents)]
    return next((name for name in names if _TAG.fullmatch(name) and has_rules(name)), "en")


def main() -> int:
    words = _words()

    def start() -> dict[str, Any]:
        """What the page shows at first. The files that were named are read, and no others."""
        project = Project.read(words.path, words.reference)
        name = next(iter(project.files), "")
        only = next(iter(project.references.values()), "")
        return {
            "source": project.files.get(name, FIRST),
            "reference": project.references.get(name, "" if project.files else only),
            "locale": words.locale,
            "name": name,
            "examples": EXAMPLES,
            "writes": words.write and bool(project.files),
            "project": project,
        }

    try:
        start()
        server = Playground(words.port, start)
    except (OSError, ValueError, OverflowError) as error:
        in_use = isinstance(error, OSError) and error.errno == errno.EADDRINUSE
        why = f"port {words.port} is in use: name another one, or --port 0 for any that is free" if in_use else error
        print(f"kozhvadi.playground: {why}", file=sys.stderr)
        return 1
    print(f"{server.address} shows the page, on this machine alone. Ctrl-C ends it.", flush=True)
    if words.open:
        webbrowser.open(server.address)
    try:
        server.serve_forever()
    except KeyboardInterrupt:
        pass
    finally:
        server.server_close()
    return 0


if __name__ == "__main__":
    sys.exit(main())
