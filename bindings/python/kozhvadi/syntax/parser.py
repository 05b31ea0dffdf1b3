"""Reads sources."""

from __future__ import annotations

import gc
from collections.abc import Iterator
from contextlib import contextmanager
from functools import partial
from typing import cast

from .. import _library as c
from .._errors import SourceError
from .._linting import refuse
from .._reports import source_errors
from .._values import encoded
from . import _placed, ast
from .errors import CODES


class FluentParser:
    """Reads sources into trees. `with_spans=False` leaves out where nodes are.

    The library reads the source, as it does for all its calls; what it can't read is junk.
    """

    def __init__(self, with_spans: bool = True) -> None:
        self.with_spans = with_spans

    def parse(self, source: str) -> ast.Resource:
        """The tree of a source.

        Raises `ValueError` if the source can't be written in UTF-8, and `MemoryError` if it nests too deep for 1.5 MB of
        the machine's stack.
        """
        counts = c.FluentCounts()
        text = encoded(source, "the source")
        _checked(c.library.fluent_parse(text, len(text), counts))
        span = ast.Span(0, len(source)) if self.with_spans else None
        return ast.Resource.of(span, partial(_entries, source, self.with_spans))

    def parse_entry(self, source: str) -> ast.EntryType:
        """The first message or term of a source, or junk. Comments before it are passed over, its own too."""
        for entry in self.parse(source).body:
            if isinstance(entry, (ast.Message, ast.Term)):
                if entry.comment is not None and entry.span is not None:
                    entry.span.start = cast(ast.Span, entry.id.span).start - isinstance(entry, ast.Term)
                entry.comment = None
                return entry
            if isinstance(entry, ast.Junk):
                return entry
        return ast.Junk("")


def _checked(status: int) -> None:
    if status != c.READ:
        refuse(status, "the source")


def _entries(source: str, with_spans: bool) -> list[ast.EntryType]:
    """The entries of a source."""
    with _without_collector():
        entries = _placed.entries(source, _node_lines(source.encode()), with_spans)
    junk = [entry for entry in entries if isinstance(entry, ast.Junk)]
    if junk:
        _annotate(source, junk, with_spans)
    return entries


@contextmanager
def _without_collector() -> Iterator[None]:
    """Keeps the garbage collector from going over nodes while they are made, which would take twice as long."""
    is_collecting = gc.isenabled()
    gc.disable()
    try:
        yield
    finally:
        if is_collecting:
            gc.enable()


def _node_lines(source: bytes) -> str:
    """The lines of the nodes of a source, as docs/reference/nodes.md has them."""
    made = c.FluentText()
    try:
        _checked(c.library.fluent_nodes(source, len(source), made))
        return c.string_of(made)
    finally:
        c.library.fluent_free_text(made)


def _annotate(source: str, junk: list[ast.Junk], with_spans: bool) -> None:
    """Says why each stretch of junk can't be read: there is one error for each, in their order."""
    for stretch, error in zip(junk, _errors(source.encode())):
        annotation = ast.Annotation(CODES.get(error.kind, "E0001"), message=str(error).split(": ", 1)[-1])
        if with_spans:
            place = _index(source, error)
            annotation.add_span(place, place)
        stretch.add_annotation(annotation)


def _errors(source: bytes) -> list[SourceError]:
    """The errors of a source, as a bundle of it has them."""
    bundle, report = c.FluentBundle(), c.FluentText()
    listed, count = c.sources([source])
    try:
        _checked(c.library.fluent_bundle_new_within(listed, count, b"", 0, True, False, c.THREAD_STACK, bundle))
        _checked(c.library.fluent_bundle_errors(bundle, report))
        lines = c.lines_of(report)
    finally:
        c.library.fluent_free_text(report)
        c.library.fluent_bundle_free(bundle)
    return source_errors([line for line in lines if line.startswith("source ")], [("source 1", source)], False)


def _index(source: str, error: SourceError) -> int:
    """Where an error is in its source."""
    start = 0
    for _ in range((error.line or 1) - 1):
        start = source.index("\n", start) + 1
    return start + (error.column or 1) - 1
