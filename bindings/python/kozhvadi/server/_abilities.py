"""What a client can do, as it says in `initialize`, and what the server then says that it can do."""

from __future__ import annotations

from dataclasses import dataclass
from typing import Any

from ._actions import CREATE_FILES, KINDS
from ._highlighting import LEGEND
from ._moving import FILTERS
from ._session import Params

_CAPABILITIES = {
    "textDocumentSync": {"openClose": True, "change": 2, "save": {"includeText": False}},
    "definitionProvider": True,
    "referencesProvider": True,
    "documentHighlightProvider": True,
    "hoverProvider": True,
    "completionProvider": {"triggerCharacters": ["{", "$", "-", ".", "(", "["], "resolveProvider": False},
    "documentSymbolProvider": True,
    "workspaceSymbolProvider": True,
    "documentFormattingProvider": True,
    "documentRangeFormattingProvider": True,
    "signatureHelpProvider": {"triggerCharacters": ["("], "retriggerCharacters": [",", ":"]},
    "renameProvider": {"prepareProvider": True},
    "codeActionProvider": {"codeActionKinds": KINDS},
    "codeLensProvider": {"resolveProvider": False},
    "executeCommandProvider": {"commands": [CREATE_FILES]},
    "foldingRangeProvider": True,
    "selectionRangeProvider": True,
    "inlayHintProvider": True,
    "semanticTokensProvider": {"legend": LEGEND, "full": True, "range": True},
    "workspace": {
        "workspaceFolders": {"supported": True, "changeNotifications": True},
        "fileOperations": {"willRename": {"filters": FILTERS}},
    },
}


@dataclass(frozen=True)
class Abilities:
    """What a client can do.

    `pulls` says that it asks for findings, and asks again if the server says so: then the server sends none by itself.
    """

    counts_bytes: bool = False
    nested_symbols: bool = False
    snippets: bool = False
    markdown: bool = True
    related: bool = False
    links: bool = False
    versions: bool = False
    creates: bool = False
    renames: bool = False
    applies: bool = False
    watches: bool = False
    pulls: bool = False

    @staticmethod
    def of(params: Params, counts_bytes: bool) -> Abilities:
        """Those that the parameters of `initialize` have. With `counts_bytes` the client counts bytes without saying so."""
        can = params["capabilities"]
        document, workspace = can.get("textDocument"), can.get("workspace")
        formats = document.at("hover", "contentFormat")
        operations = workspace.at("workspaceEdit", "resourceOperations")
        known = operations if isinstance(operations, list) else []
        encodings = can.at("general", "positionEncodings")
        return Abilities(
            counts_bytes=counts_bytes or (isinstance(encodings, list) and encodings[:1] == ["utf-8"]),
            nested_symbols=document.at("documentSymbol", "hierarchicalDocumentSymbolSupport") is True,
            snippets=document.at("completion", "completionItem", "snippetSupport") is True,
            markdown=not isinstance(formats, list) or "markdown" in formats,
            related=document.at("publishDiagnostics", "relatedInformation") is True,
            links=document.at("publishDiagnostics", "codeDescriptionSupport") is True,
            versions=workspace.at("workspaceEdit", "documentChanges") is True,
            creates="create" in known,
            renames="rename" in known,
            applies=workspace.at("applyEdit") is True,
            watches=workspace.at("didChangeWatchedFiles", "dynamicRegistration") is True,
            pulls=isinstance(document.at("diagnostic"), dict) and workspace.at("diagnostics", "refreshSupport") is True,
        )

    def answered(self) -> dict[str, Any]:
        """What the server can do for this client. Its positions count bytes if that is what the client likes best."""
        told: dict[str, Any] = {**_CAPABILITIES, "positionEncoding": "utf-8" if self.counts_bytes else "utf-16"}
        if self.pulls:
            told["diagnosticProvider"] = {
                "identifier": "kozhvadi",
                "interFileDependencies": True,
                "workspaceDiagnostics": True,
            }
        return told
