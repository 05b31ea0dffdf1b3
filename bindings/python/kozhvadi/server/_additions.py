"""What brings messages of the reference that have no translation into the files of a language, with their text."""

from __future__ import annotations

import re
from collections.abc import Collection, Iterable
from typing import NamedTuple

from .._scan import Entry
from ._documents import Document

_COMMENT = re.compile(rb"#(?:[ \r\n]|$)")
_BLANK_LINE = re.compile(rb"\n[ \t]*\r?\n")


class Addition(NamedTuple):
    """A text that is written at an offset."""

    offset: int
    text: str


def additions(document: Document, original: Document, ids: Iterable[str]) -> list[Addition]:
    """What adds messages of a file of the reference to its translation, in the order of the reference: after the
    message that is before it there, or else before the first one that is after it."""
    wanted, end = set(ids), line_end(document.source)
    have = {entry.key: entry for entry in reversed(document.places.entries)}
    after: dict[int, str] = {}
    leading: list[str] = []
    anchor: Entry | None = None
    for entry, is_apart in _entries(original):
        if entry.key in have:
            if anchor is None and leading:
                start = block_start(document.source, have[entry.key].start)
                after[start] = "".join(f"{text}{end}" for text in leading) + (end if is_apart else "")
                leading = []
            anchor = have[entry.key]
        elif not entry.is_term and entry.id in wanted:
            wanted.discard(entry.id)
            text = _text(original, entry, end)
            if anchor is None:
                leading.append(text)
            else:
                after[anchor.end] = after.get(anchor.end, "") + (end * 2 if is_apart else end) + text
    found = [Addition(offset, text) for offset, text in after.items()]
    return [*found, *_at_end(document, leading, end)]


def _at_end(document: Document, texts: list[str], end: str) -> list[Addition]:
    """Messages at the end of a file that has none of those near them."""
    if not texts:
        return []
    lead = end if document.source and not document.source.endswith(b"\n") else ""
    return [Addition(len(document.source), lead + "".join(f"{text}{end}" for text in texts))]


def _entries(original: Document) -> Iterable[tuple[Entry, bool]]:
    """The entries of a file, and whether a blank line is before each and its comment."""
    end = 0
    for entry in original.places.entries:
        start = block_start(original.source, entry.start)
        yield entry, bool(end and _BLANK_LINE.search(original.source, end, start))
        end = entry.end


def _text(original: Document, entry: Entry, end: str) -> str:
    """An entry with its comment, with these line ends."""
    start = block_start(original.source, entry.start)
    return original.source[start : entry.end].decode(errors="replace").replace("\r\n", "\n").replace("\n", end)


def block_start(source: bytes, start: int) -> int:
    """Where the comment of the entry at an offset begins, or else the entry."""
    while start:
        line = source.rfind(b"\n", 0, start - 1) + 1
        if not _COMMENT.match(source, line):
            break
        start = line
    return start


def without(original: Document, have: Collection[str]) -> str:
    """The text of a file of the reference without the entries that a language has elsewhere."""
    source, parts, at = original.source, [], 0
    for entry in original.places.entries:
        if entry.key in have:
            start = block_start(source, entry.start)
            parts.append(source[at:start])
            last = source.find(b"\n", entry.end)
            at = len(source) if last < 0 else last + 1
    return b"".join([*parts, source[at:]]).decode(errors="replace")


def line_end(source: bytes) -> str:
    """The line ends of a source: CR LF if there is one."""
    return "\r\n" if b"\r\n" in source else "\n"
