"""Tidying a document, or the entries that are selected in it."""

from __future__ import annotations

from collections.abc import Iterator

from .._linting import TidyError, tidy
from .._stopping import go_on
from ._additions import block_start, line_end
from ._checks import position_of
from ._documents import Document
from ._session import REQUEST_FAILED, Params, Refused
from ._wire import Json
from ._workspace import Workspace


class Formatting:
    """Answers which edits tidy a document."""

    def __init__(self, workspace: Workspace) -> None:
        self._workspace = workspace

    def document(self, params: Params) -> list[Json]:
        """The edit that tidies a document, of the lines that change."""
        document = self._opened(params)
        return _changed_lines(document, _tidy(document, document.text))

    def selection(self, params: Params) -> list[Json]:
        """The edits that tidy the entries which a range is in or touches, each with its comment. Entries that can't be
        read stay as they are, as long as another of them can be."""
        document, range = self._opened(params), params["range"]
        start, end = (document.offset(position_of(range[name])) for name in ("start", "end"))
        spans = list(_spans_of_entries(document, start, end))
        edits: list[Json] = []
        refused: Refused | None = None
        for span in spans:
            go_on()
            try:
                edits += _tidy_span(document, *span)
            except Refused as error:
                refused = refused or error
        if refused and len(spans) == 1:
            raise refused
        return edits

    def _opened(self, params: Params) -> Document:
        document = self._workspace.document(params["textDocument"]["uri"].text)
        if document is None:
            raise Refused(REQUEST_FAILED, "the document isn't open")
        return document


def _tidy(document: Document, text: str) -> str:
    try:
        return tidy(text)
    except TidyError as error:
        raise Refused(REQUEST_FAILED, f"{document.name} can't be tidied: {error}") from error


def _changed_lines(document: Document, text: str) -> list[Json]:
    """One edit of the lines between those that stay."""
    old, new = document.text.splitlines(keepends=True), text.splitlines(keepends=True)
    first = 0
    while first < min(len(old), len(new)) and old[first] == new[first]:
        first += 1
    last = 0
    while last < min(len(old), len(new)) - first and old[-1 - last] == new[-1 - last]:
        last += 1
    if first == len(old) == len(new):
        return []
    start = len("".join(old[:first]).encode())
    end = len("".join(old[: len(old) - last]).encode())
    return [{"range": document.range(start, end), "newText": "".join(new[first : len(new) - last])}]


def _spans_of_entries(document: Document, start: int, end: int) -> Iterator[tuple[int, int]]:
    """The entries that a stretch is in or touches: each from its comment to the end of its last line with text."""
    for entry in document.places.entries:
        first = block_start(document.source, entry.start)
        last = first + len(document.source[first : entry.end].rstrip())
        line = document.source.find(b"\n", last)
        last = len(document.source) if line < 0 else line
        if first <= end and start <= last:
            yield first, last


def _tidy_span(document: Document, start: int, end: int) -> list[Json]:
    """The edit that tidies an entry, in the line ends of its document, if it changes."""
    old = document.source[start:end].decode(errors="replace").rstrip("\r")
    new = _tidy(document, old).rstrip("\n").replace("\n", line_end(document.source))
    if old == new:
        return []
    return [{"range": document.range(start, start + len(old.encode())), "newText": new}]
