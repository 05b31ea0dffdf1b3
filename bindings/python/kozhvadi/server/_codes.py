"""Where the codes of findings are explained."""

from __future__ import annotations

import re
from functools import lru_cache
from pathlib import Path

from ._wire import Json

# A wheel has the pages; in the repository they are where readers find them.
_HERE = Path(__file__).resolve()
_FOLDERS = [_HERE.parent / "pages", _HERE.parents[4] / "docs"] if len(_HERE.parents) > 4 else [_HERE.parent / "pages"]
_PAGES = ("reference/codes.md", "reference/lint.md", "command/editors.md")

_CODE = re.compile(r"`([a-z][a-z0-9-]*)`")
_SECTION = re.compile(r"### `([a-z][a-z0-9-]*)`$")


@lru_cache(maxsize=1)
def _links() -> dict[str, str]:
    """The page and the line of each code: its section, or else the first row of a table that begins with it."""
    folder = next((each for each in _FOLDERS if (each / _PAGES[0]).is_file()), None)
    links: dict[str, str] = {}
    for page in _PAGES if folder else ():
        path = (folder or _HERE) / page
        for number, line in enumerate(path.read_text(encoding="utf-8").splitlines(), 1):
            for code in _SECTION.findall(line) or _of_row(line):
                links.setdefault(code, f"{path.as_uri()}#L{number}")
    return links


def _of_row(line: str) -> list[str]:
    """The codes of a row of a table: those of its first cell, if the next one is how bad they are."""
    cells = line.split("|")
    is_row = len(cells) > 3 and cells[2].strip() in ("error", "warning", "note", "hint")
    return _CODE.findall(cells[1]) if is_row else []


def link_of(code: str) -> Json:
    """The link of a code, for a finding, if there is a page that explains it."""
    link = _links().get(code)
    return {"codeDescription": {"href": link}} if link else {}
