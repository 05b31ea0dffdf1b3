"""The structure of a source: what is folded, and what a selection grows to."""

from __future__ import annotations

import re
from collections.abc import Iterable, Iterator
from itertools import groupby

from .._scan import Entry
from .._stopping import go_on
from .._tokens import Token
from ._additions import block_start
from ._checks import position_of
from ._documents import Document
from ._session import Params
from ._wire import Json
from ._workspace import Workspace

_GROUP = re.compile(rb"^(##|###)(?: |\r?$)", re.MULTILINE)
_OPENING = {b"{": b"}", b"(": b")"}

Span = tuple[int, int]


class Structure:
    """Answers what belongs together in a document."""

    def __init__(self, workspace: Workspace) -> None:
        self._workspace = workspace

    def folds(self, params: Params) -> list[Json]:
        """The entries, attributes and selects of more than one line, the comments, and the groups."""
        document = self._workspace.document(params["textDocument"]["uri"].text)
        if document is None:
            return []
        folded = [*_entry_folds(document), *_comment_folds(document), *_group_folds(document)]
        told = {(first, last): kind for first, last, kind in folded if first < last}
        return [
            {"startLine": first, "endLine": last, **({"kind": kind} if kind else {})}
            for (first, last), kind in sorted(told.items())
        ]

    def selections(self, params: Params) -> list[Json]:
        """For each position what a selection there grows to, step by step."""
        document = self._workspace.document(params["textDocument"]["uri"].text)
        places = params["positions"].items
        if document is None:
            return []
        return [_selection(document, document.offset(position_of(place))) for place in places]


def _entry_folds(document: Document) -> Iterator[tuple[int, int, str]]:
    for entry in document.places.entries:
        go_on()
        yield *_lines(document, entry.start, entry.end), ""
        for part in entry.parts:
            if part.attribute:
                yield *_lines(document, part.start, part.end), ""
            for select in part.selects:
                first, last = _lines(document, select.start, select.end)
                # The line of the brace stays visible.
                yield first, last - 1, ""


def _lines(document: Document, start: int, end: int) -> Span:
    """The lines of two offsets."""
    return document.lines.position(start)[0], document.lines.position(end)[0]


def _comment_folds(document: Document) -> Iterator[tuple[int, int, str]]:
    lines = (document.lines.position(each.start)[0] for each in document.tokens if each.kind == "comment")
    for _, together in groupby(enumerate(lines), lambda numbered: numbered[1] - numbered[0]):
        numbers = [number for _, number in together]
        yield numbers[0], numbers[-1], "comment"


def _group_folds(document: Document) -> Iterator[tuple[int, int, str]]:
    """A comment of a group folds up to the next one, and that of a resource too."""
    starts: list[Span] = []
    for found in _GROUP.finditer(document.source):
        number = document.lines.position(found.start())[0]
        level = len(found[1])
        if not starts or starts[-1] != (number - 1, level):
            starts.append((number, level))
        else:
            starts[-1] = number, level
    end = document.lines.position(len(document.source.rstrip()))[0]
    for (number, level), (after, _) in zip(starts, [*starts[1:], (end + 1, 0)]):
        if level == 2:
            yield number, _last_with_text(document, number, after - 1), "region"


def _last_with_text(document: Document, first: int, last: int) -> int:
    while last > first and not document.lines.line(last).strip():
        last -= 1
    return last


def _selection(document: Document, offset: int) -> Json:
    spans = sorted(set(_spans_at(document, offset)), key=lambda span: (span[1] - span[0], -span[0]))
    found: Json | None = None
    grown: list[Span] = []
    for span in spans:
        if not grown or (span[0] <= grown[-1][0] and grown[-1][1] <= span[1]):
            grown.append(span)
    for span in reversed(grown):
        inner: Json = {"range": document.range(*span)}
        found = {**inner, "parent": found} if found else inner
    return found or {"range": document.range(offset, offset)}


def _spans_at(document: Document, offset: int) -> Iterator[Span]:
    """What an offset is in: a token, what is in brackets, a variant, a select, a part, an entry, the document."""
    yield 0, len(document.source)
    for entry in document.places.entries:
        start = block_start(document.source, entry.start)
        if not start <= offset <= entry.end:
            continue
        yield start, entry.end
        spans = [(entry.start, entry.end), *_spans_of(document, entry)]
        yield from (span for span in spans if span[0] <= offset <= span[1])


def _spans_of(document: Document, entry: Entry) -> Iterator[Span]:
    tokens = [each for each in document.tokens if entry.start <= each.start < entry.end]
    yield from ((each.start, each.end) for each in tokens if each.kind != "sign")
    yield from _pairs(document.source, tokens)
    for part in entry.parts:
        yield part.start, part.end
        value = _trimmed(document.source, part.name_end, part.end)
        yield value
        for select in part.selects:
            starts = [variant.start for variant in select.variants]
            for variant, end in zip(select.variants, [*starts[1:], select.end or part.end]):
                yield _trimmed(document.source, variant.start, end)
                yield _trimmed(document.source, variant.pattern, end)


def _pairs(source: bytes, tokens: Iterable[Token]) -> Iterator[Span]:
    """What is between brackets, with them."""
    opened: list[Token] = []
    for each in tokens:
        sign = source[each.start : each.end]
        if each.kind != "sign":
            continue
        if sign in _OPENING:
            opened.append(each)
        elif opened and sign == _OPENING[source[opened[-1].start : opened[-1].end]]:
            start = opened.pop()
            yield start.start, each.end
            yield _trimmed(source, start.end, each.start)


def _trimmed(source: bytes, start: int, end: int) -> Span:
    """A stretch without the blank and the sign `=` at its front, and without the blank at its end."""
    while start < end and source[start] in b" =\r\n":
        start += 1
    while end > start and source[end - 1] in b" \r\n":
        end -= 1
    return start, end
