"""Patterns of paths, as a project's file has them: `l10n/{locale}/**`."""

from __future__ import annotations

import posixpath
import re
from collections.abc import Callable, Iterator, Sequence
from typing import NamedTuple

TEXT, LOCALE, WILDCARD = "text", "locale", "wildcard"

# Any text, folders with a slash after each, and a name or a piece of one.
_REST, _FOLDERS, _STAR = "**", "**/", "*"

_SPECIAL = re.compile(r"(?P<deep>(?<![^/}])\*\*(?:/|$))|(?P<star>\*)|\{ *(?P<name>\w+) *\}")

# What was found for more paths than these is forgotten.
_MOST_KNOWN = 50_000


class Part(NamedTuple):
    """A text, the language, or a wildcard."""

    kind: str
    text: str


def parts_of(written: str, named: Callable[[str], Sequence[Part]]) -> Iterator[Part]:
    """The parts of a pattern as it is written. `named` has those of a name in braces."""
    at = 0
    for found in _SPECIAL.finditer(written):
        if found.start() > at:
            yield Part(TEXT, written[at : found.start()])
        at = found.end()
        if found["name"]:
            yield from named(found["name"])
        else:
            yield Part(WILDCARD, found["deep"] or found["star"])
    if at < len(written):
        yield Part(TEXT, written[at:])


def below(root: str, parts: Sequence[Part]) -> Pattern:
    """A pattern below a folder. `.`, `..` and doubled slashes are resolved as text."""
    # A part that isn't text stands between two NULs, with the slash of `**/` after them.
    written = "".join(each.text if each.kind == TEXT else f"\0{each.text}\0" for each in parts)
    path = posixpath.normpath(posixpath.join(root, written.replace("**/\0", "**\0/")))
    pieces = path.replace("**\0/", "**/\0").split("\0")
    return Pattern(Part(_kind(text, number), text) for number, text in enumerate(pieces) if text)


def _kind(text: str, number: int) -> str:
    if number % 2 == 0:
        return TEXT
    return LOCALE if text == LOCALE else WILDCARD


class Pattern:
    """A pattern that complete paths match, or don't."""

    def __init__(self, parts: Iterator[Part]) -> None:
        self.parts = tuple(parts)
        self._known: dict[tuple[str, str], tuple[str, ...] | None] = {}

    @property
    def wildcards(self) -> list[str]:
        """Its wildcards, in their order."""
        return [each.text for each in self.parts if each.kind == WILDCARD]

    @property
    def has_locale(self) -> bool:
        return any(each.kind == LOCALE for each in self.parts)

    def texts(self, path: str, locale: str = "") -> tuple[str, ...] | None:
        """What its wildcards stand for in a path, for a language. Nothing if the path doesn't match."""
        key = (path, locale)
        if key not in self._known:
            if len(self._known) >= _MOST_KNOWN:
                self._known.clear()
            self._known[key] = _texts(self._for(locale), path)
        return self._known[key]

    def filled(self, texts: Sequence[str], locale: str) -> str:
        """The path in which the wildcards stand for these texts."""
        left = iter(texts)
        return "".join(next(left) if each.kind == WILDCARD else each.text for each in self._for(locale))

    def start(self, locale: str = "") -> str:
        """The folder in which, or below which, the paths are that match; or the only path."""
        text = ""
        for each in self._for(locale):
            if each.kind == WILDCARD:
                return text.rpartition("/")[0] or "/"
            text += each.text
        return text

    def _for(self, locale: str) -> list[Part]:
        return [Part(TEXT, locale) if each.kind == LOCALE else each for each in self.parts]


def _texts(parts: Sequence[Part], path: str) -> tuple[str, ...] | None:
    """What each wildcard stands for: of several ways, the one in which earlier wildcards take as much as they can."""
    ends = [[len(path)]]
    for part in reversed(parts):
        ends.append(_starts(part, path, ends[-1]))
        if not ends[-1]:
            return None
    if 0 not in ends.pop():
        return None
    at, found = 0, []
    for part in parts:
        after = ends.pop()
        if part.kind == TEXT:
            at += len(part.text)
        else:
            end = max(each for each in after if _may_be(part.text, path[at:each]) and each >= at)
            found.append(path[at:end])
            at = end
    return tuple(found)


def _starts(part: Part, path: str, ends: Sequence[int]) -> list[int]:
    """Where a part may begin, if it ends at one of these places."""
    if part.kind == TEXT:
        return [end - len(part.text) for end in ends if path.endswith(part.text, 0, end)]
    if part.text == _REST:
        return list(range(max(ends) + 1))
    if part.text == _FOLDERS:
        last = max((end for end in ends if path[:end].endswith("/")), default=0)
        return sorted({*ends, *range(last - 1)})
    return sorted({start for end in ends for start in range(path.rfind("/", 0, end) + 1, end + 1)})


def _may_be(wildcard: str, text: str) -> bool:
    """Whether a wildcard may stand for a text."""
    if wildcard == _STAR:
        return "/" not in text
    return wildcard == _REST or not text or (len(text) > 1 and text.endswith("/"))
