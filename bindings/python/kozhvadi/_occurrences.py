"""Where the names of a source are."""

from __future__ import annotations

import json
from typing import NamedTuple

from . import _library as c
from ._linting import refuse
from ._values import encoded


class Symbol(NamedTuple):
    """What a name stands for: a "message", a "term", an "attribute", a "variable" or a "function".

    `owner` is the id of the message or term that an attribute or a variable belongs to, with the `-` of a term.
    """

    kind: str
    name: str
    owner: str | None = None

    def __str__(self) -> str:
        """The name as a source has it."""
        if self.kind == "attribute":
            return f"{self.owner}.{self.name}"
        return {"term": "-", "variable": "$"}.get(self.kind, "") + self.name


class Occurrence(NamedTuple):
    """A place in a source that names a symbol: the offsets where the name begins and ends, without its `$` and `-`, in
    bytes of UTF-8. `is_definition` says whether the symbol is defined there, and not referred to."""

    symbol: Symbol
    start: int
    end: int
    is_definition: bool


def occurrences(source: str) -> list[Occurrence]:
    """Where the messages, terms, attributes, variables and functions of a source are defined and referred to, in the
    order of their offsets. A stretch that can't be read has none.

    >>> for found in occurrences("hi = Hello, { $name } of { -brand }!\\n"):
    ...     print(found.symbol, found.start, found.end, found.is_definition)
    hi 0 2 True
    $name 15 19 False
    -brand 28 33 False

    Raises `ValueError` if the source can't be written in UTF-8, and `MemoryError` if it nests too deep for 1.5 MB of the
    machine's stack.
    """
    return occurrences_in(encoded(source, "the source"))


def occurrences_in(source: bytes) -> list[Occurrence]:
    """The same of the bytes of a source. Raises `ValueError` if they aren't UTF-8."""
    text = c.FluentText()
    try:
        status = c.library.fluent_occurrences(source, len(source), text)
        if status == c.NOT_UTF8:
            raise ValueError("the source isn't UTF-8")
        if status != c.READ:
            refuse(status, "the source")
        lines = c.lines_of(text)
    finally:
        c.library.fluent_free_text(text)
    return [
        Occurrence(
            Symbol(found["kind"], found["name"], found["owner"]), found["start"], found["end"], found["definition"]
        )
        for found in json.loads(f"[{','.join(lines)}]")
    ]
