"""Semantic tokens: what each token of a source is, for an editor's colours."""

from __future__ import annotations

from collections.abc import Iterable

from .._stopping import go_on
from .._tokens import Token
from ._checks import position_of
from ._documents import Document
from ._session import Params
from ._wire import Json
from ._workspace import Workspace

# The types of the protocol for the kinds of tokens. Of signs, those that are operators have one.
TYPES = {
    "comment": "comment",
    "message": "function",
    "term": "type",
    "attribute": "property",
    "variable": "variable",
    "function": "macro",
    "argument": "parameter",
    "key": "enumMember",
    "string": "string",
    "number": "number",
    "sign": "operator",
}
_NUMBERS = {kind: number for number, kind in enumerate(TYPES)}
_OPERATORS = (b"=", b"->", b"*")
_DECLARATION = 1

LEGEND = {"tokenTypes": list(TYPES.values()), "tokenModifiers": ["declaration"]}


class Highlighting:
    """Answers what the tokens of a document are."""

    def __init__(self, workspace: Workspace) -> None:
        self._workspace = workspace

    def full(self, params: Params) -> Json:
        """The tokens of a document."""
        document = self._workspace.document(params["textDocument"]["uri"].text)
        return {"data": _data(document, document.tokens) if document else []}

    def of_range(self, params: Params) -> Json:
        """The tokens in a range of a document."""
        document = self._workspace.document(params["textDocument"]["uri"].text)
        asked = params["range"]
        places = [position_of(asked[name]) for name in ("start", "end")]
        if document is None:
            return {"data": []}
        start, end = (document.offset(place) for place in places)
        return {"data": _data(document, (each for each in document.tokens if start <= each.end and each.start <= end))}


def _data(document: Document, tokens: Iterable[Token]) -> list[int]:
    """Five numbers a token: its place from the token before it, its length, its type, and whether it defines a name."""
    data: list[int] = []
    line = character = 0
    for each in tokens:
        go_on()
        if each.kind == "sign" and document.source[each.start : each.end] not in _OPERATORS:
            continue
        (own, start), (_, end) = document.lines.position(each.start), document.lines.position(each.end)
        if own != line:
            character = 0
        modifiers = _DECLARATION if each.is_definition else 0
        data += [own - line, start - character, end - start, _NUMBERS[each.kind], modifiers]
        line, character = own, start
    return data
