"""What may follow at the caret of a page: the language server's answer, for the files that the page has."""

from __future__ import annotations

from typing import Any

from .._positions import utf16_length
from ..server._completion import Completion
from ..server._documents import Document, Loaded
from ..server._session import Params
from ..server._workspace import Workspace
from ._looking import Asked

# More are of no use to a reader.
_MOST = 50


class _Shown(Workspace):
    """The files of a page as a workspace that has no folders."""

    def __init__(self, asked: Asked) -> None:
        super().__init__()
        self._asked = asked
        self.shown = Document("playground:", asked.source)
        others = [text for name, text in asked.others.items() if name != asked.name]
        self._catalog = [self.shown, *(Document("playground:", text) for text in others)]
        references = {**asked.references, asked.name: asked.reference}
        self._compared = {name: Document("playground:", text) for name, text in references.items()}

    def document(self, uri: str) -> Document | None:
        return self.shown

    def catalog(self, document: Document) -> Loaded:
        return Loaded(self._catalog)

    def reference(self, document: Document) -> Loaded:
        return Loaded(list(self._compared.values()))

    def counterpart(self, document: Document) -> Document | None:
        return self._compared[self._asked.name]

    def locale(self, document: Document) -> str | None:
        return self._asked.locale


def completed(asked: Asked) -> dict[str, Any]:
    """What may stand between two places of the source, the second of which is the caret."""
    workspace = _Shown(asked)
    before = asked.source.encode("utf-16-le")[: 2 * asked.at].decode("utf-16-le", "ignore")
    line, character = workspace.shown.lines.position(len(before.encode()))
    given = {"textDocument": {"uri": "playground:"}, "position": {"line": line, "character": character}}
    found = Completion(workspace).complete(Params(given))
    at = utf16_length(before)
    length = character - found[0]["textEdit"]["range"]["start"]["character"] if found else 0
    begun = before[len(before) - length :].lower()
    items = [
        {"label": each["label"], "detail": each.get("detail", ""), "text": each["textEdit"]["newText"]}
        for each in found
        if each["label"].lower().startswith(begun)
    ]
    return {"start": at - length, "end": at, "items": items[:_MOST]}
