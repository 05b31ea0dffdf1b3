"""What a call takes, while its arguments are being typed."""

from __future__ import annotations

import re
from collections.abc import Iterable, Iterator
from typing import NamedTuple

from .._builtins import BUILTINS
from .._occurrences import Symbol
from .._scan import inside
from .._stopping import go_on
from ._checks import position_of
from ._documents import Document
from ._session import Params
from ._wire import Json
from ._workspace import Workspace

_NAMED = re.compile(rb"[ \r\n]*([A-Za-z][A-Za-z0-9_-]*)?[ \r\n]*(:?)")
_PIECE = re.compile(rb'"(?:[^"\\\n]|\\[^\n])*"?|[(){},]|[^"(){},]+')
_DEEPER = {b"(": 1, b"{": 1, b")": -1, b"}": -1}


class _Parameter(NamedTuple):
    """What may be passed: `name` is that of a named argument, and empty for the first value."""

    name: str
    shown: str


class Signatures:
    """Answers what the call at a position takes."""

    def __init__(self, workspace: Workspace) -> None:
        self._workspace = workspace

    def help(self, params: Params) -> Json | None:
        """The parameters of the function or term that is called at a position, and which of them is being typed."""
        document = self._workspace.document(params["textDocument"]["uri"].text)
        if document is None:
            return None
        offset = document.offset(position_of(params["position"]))
        place = inside(document.source, offset)
        if place.kind != "call" or place.callee is None:
            return None
        parameters = list(self._parameters(document, place.callee))
        if not parameters:
            return None
        callee = place.callee.name if place.callee.kind == "function" else str(place.callee)
        shown = [each.shown for each in parameters]
        signature = {"label": f"{callee}({', '.join(shown)})", "parameters": [{"label": each} for each in shown]}
        active = _active(parameters, document.source[place.start + 1 : offset])
        return {"signatures": [signature], "activeSignature": 0, "activeParameter": active}

    def _parameters(self, document: Document, callee: Symbol) -> Iterator[_Parameter]:
        if callee.kind == "function":
            known = BUILTINS.get(callee.name)
            if known:
                yield _Parameter("", known.operand)
                yield from (_Parameter(name, f"{name}: {each.described}") for name, each in known.options.items())
            elif callee.name in self._workspace.functions(document):
                yield _Parameter("", "a value")
                yield from (_Parameter(name, f"{name}: ") for name in self._passed(document, callee.name))
            return
        catalog = self._workspace.samples(self._workspace.catalog(document).documents)
        entry = catalog.entries.get(str(callee))
        parts = [part.attribute for part in entry.parts] if entry else []
        names = dict.fromkeys(each.name for part in parts for each in catalog.variables(str(callee), part))
        yield from (_Parameter(name, f"{name}: ") for name in names)

    def _passed(self, document: Document, function: str) -> Iterable[str]:
        """The names of the arguments that a function of the program is called with, in the reference and the catalog."""
        reference, catalog = self._workspace.reference(document), self._workspace.catalog(document)
        holders = [each for each in [*reference.documents, *catalog.documents] if function in each.text]
        return dict.fromkeys(name for each in holders for name in _arguments_of(each, function))


def _arguments_of(document: Document, function: str) -> Iterator[str]:
    """The names of the arguments of the calls of a function in a document, which may be in each other."""
    go_on()
    open_calls: list[str] = []
    last = ""
    for token in document.tokens:
        text = document.source[token.start : token.end].decode(errors="replace")
        if text == "(" and token.kind == "sign":
            open_calls.append(last)
        elif text == ")" and token.kind == "sign" and open_calls:
            open_calls.pop()
        elif token.kind == "argument" and open_calls[-1:] == [function]:
            yield text
        last = text if token.kind == "function" else ""


def _active(parameters: list[_Parameter], arguments: bytes) -> int:
    """The place of the parameter that the last of these arguments is for. There is none at the end of the list."""
    number, last = 0, b""
    depth = 0
    for piece in _PIECE.findall(arguments):
        if piece == b"," and not depth:
            number, last = number + 1, b""
            continue
        depth += _DEEPER.get(piece, 0)
        last += piece
    found = _NAMED.match(last)
    name = found[1].decode() if found and found[1] else ""
    is_named = bool(found and found[2])
    for place, each in enumerate(parameters):
        if each.name and name and (each.name == name if is_named else each.name.startswith(name)):
            return place
        if not each.name and not number and not is_named:
            return place
    return len(parameters)
