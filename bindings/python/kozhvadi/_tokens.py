"""The tokens of a source that is being edited, as highlighting wants them.

They are found by the walk of `Scan`, so broken entries have those up to where they break.
"""

from __future__ import annotations

import re
from typing import NamedTuple

from ._scan import BLANK, CALLED, NAMED, VARIANT, Scan

_COMMENT = re.compile(rb"#{1,3}(?=[ \r\n]|$)[^\r\n]*")


class Token(NamedTuple):
    """A token between two offsets, on one line. `kind` is "comment", "message", "term", "attribute", "variable",
    "function", "argument", "key", "string", "number" or "sign"; `is_definition` says that a name is defined there."""

    start: int
    end: int
    kind: str
    is_definition: bool = False


class Tokens(Scan):
    """The tokens of a source, in the order of their offsets."""

    def __init__(self, source: bytes) -> None:
        self.tokens: list[Token] = []
        super().__init__(source)

    def _mark(self, kind: str, span: tuple[int, int], is_definition: bool = False) -> None:
        self.tokens.append(Token(*span, kind, is_definition))

    def _line(self) -> str:
        comment = _COMMENT.match(self.source, self.at)
        if comment:
            self._mark("comment", comment.span())
        return super()._line()

    def _entry(self, head: re.Match[bytes], comment: str) -> None:
        self._mark("term" if head[1] else "message", (head.start(), head.end(2)), True)
        self._mark("sign", (head.end() - 1, head.end()))
        super()._entry(head, comment)

    def _attribute(self, found: re.Match[bytes]) -> None:
        self._mark("attribute", (found.start(), found.end(1)), True)
        self._mark("sign", (found.end() - 1, found.end()))
        super()._attribute(found)

    def _variants(self) -> None:
        blank = BLANK.match(self.source, self.at)
        variant = VARIANT.match(self.source, blank.end() if blank else self.at)
        if variant:
            if variant[1]:
                self._mark("sign", variant.span(1))
            is_number = variant[2][:1] not in b"ABCDEFGHIJKLMNOPQRSTUVWXYZabcdefghijklmnopqrstuvwxyz"
            self._mark("number" if is_number else "key", variant.span(2))
        before = self.at
        super()._variants()
        if self.source[self.at - 1 : self.at] == b"}" and self.at > before and not variant:
            self._mark("sign", (self.at - 1, self.at))

    def _text(self) -> None:
        super()._text()
        sign = self.source[self.at - 1 : self.at]
        if sign in (b"{", b"}"):
            self._mark("sign", (self.at - 1, self.at))

    def _take(self, token: re.Match[bytes]) -> None:
        for kind in ("string", "number", "variable", "sign"):
            if token[kind]:
                self._mark(kind, token.span())
        if token["term"]:
            self._mark("term", (token.start(), token.end("term")))
            if token["attribute"]:
                self._mark("attribute", (token.start("attribute") - 1, token.end()))
        is_name = bool(token["name"])
        if is_name:
            self._mark(self._kind_of(), token.span())
        found = len(self.occurrences)
        super()._take(token)
        for each in self.occurrences[found:] if is_name else ():
            if each.symbol.kind == "attribute":
                self._mark("attribute", (each.start - 1, each.end))

    def _kind_of(self) -> str:
        """What a name is that ends here."""
        if CALLED.match(self.source, self.at):
            return "function"
        is_argument = self.open[-1].kind == "call" and NAMED.match(self.source, self.at)
        return "argument" if is_argument else "message"
