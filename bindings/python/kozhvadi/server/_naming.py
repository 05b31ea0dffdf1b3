"""Names: where they are defined and used, and what renames them."""

from __future__ import annotations

import re
from collections.abc import Iterator

from .._occurrences import Occurrence, Symbol
from .._scan import Entry
from ._checks import position_of
from ._documents import Document, Loaded
from ._session import INVALID_PARAMS, REQUEST_FAILED, Params, Refused
from ._wire import Json
from ._workspace import Workspace

_NAME = re.compile(r"[A-Za-z][A-Za-z0-9_-]*")

# Kinds of symbols by the protocol: a text, a constant, a property.
_MESSAGE, _TERM, _ATTRIBUTE = 15, 14, 7

# At most this many symbols of the workspace are listed.
_MOST = 500


class Naming:
    """Answers questions on names."""

    def __init__(self, workspace: Workspace) -> None:
        self._workspace = workspace
        self.has_nested_symbols = self.has_versions = False

    def _asked(self, params: Params) -> tuple[Document, Occurrence] | None:
        """The document that is asked about, and the name at the position."""
        document = self._document(params)
        found = document.places.at(document.offset(position_of(params["position"]))) if document else None
        return (document, found) if document and found else None

    def _document(self, params: Params) -> Document | None:
        return self._workspace.document(params["textDocument"]["uri"].text)

    def definition(self, params: Params) -> list[Json]:
        """Where a name is defined: in the documents that are loaded with this one, or else in the reference.

        A variable is defined by the program. So it is found in the reference, in the message of the same id, or else
        where it is first used.
        """
        asked = self._asked(params)
        if asked is None:
            return []
        document, found = asked
        catalog = self._workspace.catalog(document).documents
        reference = self._workspace.reference(document).documents
        if found.symbol.kind == "variable":
            return self._uses(found.symbol, reference)[:1] or self._uses(found.symbol, [document])[:1]
        return self._definitions(found.symbol, catalog) or self._definitions(found.symbol, reference)

    def references(self, params: Params) -> list[Json]:
        """Where a name is used in the workspace; and where it is defined, if that is asked for."""
        asked = self._asked(params)
        if asked is None:
            return []
        with_definitions = params.at("context", "includeDeclaration") is not False
        return [
            _location(document, found)
            for document, found in _named(asked[1].symbol, self._workspace.all(asked[0]))
            if with_definitions or not found.is_definition
        ]

    def highlights(self, params: Params) -> list[Json]:
        """Where a name is in the document."""
        asked = self._asked(params)
        if asked is None:
            return []
        document, found = asked
        return [
            {"range": document.range(each.start, each.end), "kind": 3 if each.is_definition else 2}
            for each in document.places.of(found.symbol)
        ]

    def _definitions(self, symbol: Symbol, documents: list[Document]) -> list[Json]:
        return [
            _location(document, found)
            for document in documents
            for found in document.places.of(symbol)
            if found.is_definition
        ]

    def _uses(self, symbol: Symbol, documents: list[Document]) -> list[Json]:
        return [_location(document, found) for document in documents for found in document.places.of(symbol)]

    def prepare(self, params: Params) -> Json | None:
        """The name that would be renamed."""
        asked = self._asked(params)
        if asked is None or asked[1].symbol.kind == "function":
            return None
        document, found = asked
        return {"range": document.range(found.start, found.end), "placeholder": found.symbol.name}

    def rename(self, params: Params) -> Json | None:
        """The edits that rename a message, a term, an attribute or a variable in each file of the workspace."""
        asked = self._asked(params)
        if asked is None:
            raise Refused(REQUEST_FAILED, "there is no name here")
        symbol = asked[1].symbol
        if symbol.kind == "function":
            raise Refused(REQUEST_FAILED, f"{symbol.name} is a function of the program")
        name = params["newName"].text.strip().removeprefix({"term": "-", "variable": "$"}.get(symbol.kind, ""))
        if not _NAME.fullmatch(name):
            words = "a name begins with a letter from A to Z, and has letters, digits, `-` and `_`"
            raise Refused(INVALID_PARAMS, f"{words}: {name!r}")
        if name == symbol.name:
            return {"changes": {}}
        everything = self._workspace.all(asked[0])
        self._refuse_if_unread(everything)
        self._refuse_if_taken(symbol, name, everything)
        edits: dict[str, tuple[Document, list[Json]]] = {}
        for document, found in _named(symbol, everything):
            _, listed = edits.setdefault(document.uri, (document, []))
            listed.append({"range": document.range(found.start, found.end), "newText": name})
        return self._workspace_edit(edits)

    def _refuse_if_unread(self, everything: Loaded) -> None:
        """A file whose names aren't known may have the name."""
        deep = [each.as_too_deep() for each in everything.documents if each.places.is_refused]
        for path, why in (*everything.unread, *deep):
            words = f"{self._workspace.shown(path)} {why}, so the names in it are unknown, and nothing is renamed"
            raise Refused(REQUEST_FAILED, words)

    def _refuse_if_taken(self, symbol: Symbol, name: str, everything: Loaded) -> None:
        """Two entries of one id would clash, and so would a message and a term."""
        taken = [Symbol(symbol.kind, name, symbol.owner)]
        if symbol.kind in ("message", "term"):
            taken = [Symbol("message", name), Symbol("term", name)]
        is_held = symbol.kind == "variable"
        holders = [document for document, found in _named(symbol, everything) if found.is_definition or is_held]
        near = holders
        if symbol.kind in ("message", "term"):
            # Only what is loaded with a file that has the entry can clash with it.
            near = [each for holder in holders for each in self._workspace.catalog(holder).documents]
        for document in {each.uri: each for each in near}.values():
            for found in (each for other in taken for each in document.places.of(other)):
                if found.is_definition or symbol.kind == "variable":
                    raise Refused(REQUEST_FAILED, f"{document.name} has `{found.symbol}` already")

    def _workspace_edit(self, edits: dict[str, tuple[Document, list[Json]]]) -> Json:
        if not self.has_versions:
            return {"changes": {uri: listed for uri, (_, listed) in edits.items()}}
        return {
            "documentChanges": [
                {"textDocument": {"uri": uri, "version": document.version}, "edits": listed}
                for uri, (document, listed) in edits.items()
            ]
        }

    def symbols(self, params: Params) -> list[Json]:
        """The messages and terms of a document, with their attributes."""
        document = self._document(params)
        if document is None:
            return []
        if self.has_nested_symbols:
            return [_symbol(document, entry) for entry in document.places.entries]
        return [_flat(document, entry) for entry in document.places.entries]

    def workspace_symbols(self, params: Params) -> list[Json]:
        """The messages and terms of the workspace whose ids have a text in them."""
        query = params["query"].text.lower()
        found: list[Json] = []
        for document in self._workspace.all().documents:
            found += [_flat(document, entry) for entry in document.places.entries if query in entry.key.lower()]
            if len(found) >= _MOST:
                break
        return found[:_MOST]


def _named(symbol: Symbol, loaded: Loaded) -> Iterator[tuple[Document, Occurrence]]:
    """Where documents name a symbol."""
    for document in loaded.documents:
        for found in document.places.of(symbol):
            yield document, found


def _location(document: Document, found: Occurrence) -> Json:
    return {"uri": document.uri, "range": document.range(found.start, found.end)}


def _symbol(document: Document, entry: Entry) -> Json:
    value = entry.parts[0]
    end = entry.name_start + len(entry.id)
    text = document.source[value.name_end : value.end].decode(errors="replace").lstrip(" =")
    return {
        "name": entry.key,
        "detail": text.partition("\n")[0].strip()[:80],
        "kind": _TERM if entry.is_term else _MESSAGE,
        "range": document.range(entry.start, max(entry.end, end)),
        "selectionRange": document.range(entry.start, end),
        "children": [
            {
                "name": f".{part.attribute}",
                "kind": _ATTRIBUTE,
                "range": document.range(part.start, max(part.end, part.name_end)),
                "selectionRange": document.range(part.start, part.name_end),
            }
            for part in entry.parts[1:]
        ],
    }


def _flat(document: Document, entry: Entry) -> Json:
    return {
        "name": entry.key,
        "kind": _TERM if entry.is_term else _MESSAGE,
        "location": {"uri": document.uri, "range": document.range(entry.start, entry.end)},
    }
