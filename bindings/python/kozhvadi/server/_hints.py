"""What is shown beside the text: that of the reference and of terms, and how often a message or term is referred to."""

from __future__ import annotations

from collections import Counter
from collections.abc import Iterator

from .._occurrences import Occurrence
from .._scan import Entry
from .._stopping import go_on
from ._checks import position_of
from ._documents import Document
from ._session import Params
from ._wire import Json
from ._workspace import Workspace

# A text is cut after this many characters.
_LONGEST = 60


class Hints:
    """Answers what an editor shows beside or above the lines of a document."""

    def __init__(self, workspace: Workspace) -> None:
        self._workspace = workspace

    def hints(self, params: Params) -> list[Json]:
        """The text of the reference after the first line of each message in a range, and that of each term after its
        name."""
        document = self._workspace.document(params["textDocument"]["uri"].text)
        asked = params["range"]
        first, last = (position_of(asked[name])[0] for name in ("start", "end"))
        if document is None:
            return []
        reference = self._sources(self._workspace.reference(document).documents)
        catalog = self._sources(self._workspace.catalog(document).documents)
        found = [*self._originals(document, reference), *self._terms(document, catalog)]
        return [each for each in found if first <= each["position"]["line"] <= last]

    @staticmethod
    def _sources(documents: list[Document]) -> dict[str, str]:
        """The values of entries as the sources have them, each on one line."""
        texts: dict[str, str] = {}
        for document in documents:
            for entry in document.places.entries:
                texts.setdefault(entry.key, _value(document, entry))
        return texts

    @staticmethod
    def _originals(document: Document, reference: dict[str, str]) -> Iterator[Json]:
        for entry in document.places.entries:
            text = reference.get(entry.key)
            if text and not entry.is_term:
                line = document.lines.position(entry.start)[0]
                end = document.offset((line, len(document.source)))
                yield {
                    "position": document.range(end, end)["start"],
                    "label": _cut(text),
                    "tooltip": text,
                    "paddingLeft": True,
                }

    @staticmethod
    def _terms(document: Document, catalog: dict[str, str]) -> Iterator[Json]:
        for found in document.places.occurrences:
            text = catalog.get(str(found.symbol)) if found.symbol.kind == "term" and not found.is_definition else None
            if text:
                place = document.range(found.end, found.end)["start"]
                yield {"position": place, "label": f"= {_cut(text)}", "tooltip": text, "paddingLeft": True}

    def lenses(self, params: Params) -> list[Json]:
        """How often each term of a document is referred to in the workspace, and each message if it is."""
        document = self._workspace.document(params["textDocument"]["uri"].text)
        if document is None:
            return []
        counts = Counter(
            found.symbol
            for each in self._workspace.all(document).documents
            for found in _going_on(each)
            if found.symbol.kind in ("message", "term") and not found.is_definition
        )
        return [
            _lens(document, entry, counts[entry.symbol])
            for entry in document.places.entries
            if entry.is_term or counts[entry.symbol]
        ]


def _going_on(document: Document) -> Iterator[Occurrence]:
    go_on()
    return iter(document.places.occurrences)


def _lens(document: Document, entry: Entry, count: int) -> Json:
    title = "1 reference" if count == 1 else f"{count} references"
    place = document.range(entry.start, entry.name_start + len(entry.id))
    return {"range": place, "command": {"title": title, "command": ""}}


def _value(document: Document, entry: Entry) -> str:
    """The value of an entry as the source has it, on one line."""
    part = entry.parts[0]
    text = document.source[part.name_end : part.end].decode(errors="replace").lstrip(" =\r\n")
    return " ".join(text.split())


def _cut(text: str) -> str:
    return text if len(text) <= _LONGEST else f"{text[: _LONGEST - 1]}…"
