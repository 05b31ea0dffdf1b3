"""The server: what it can do, and the loop that reads, answers and checks."""

from __future__ import annotations

import sys
import time
from collections.abc import Callable
from queue import Empty
from typing import Any

from .. import __version__
from .._project_file import NAME
from .._stopping import stop_if
from ._abilities import Abilities
from ._actions import CREATE_FILES, Actions
from ._changes import changed
from ._checks import Checks
from ._completion import Completion
from ._documents import Document
from ._formatting import Formatting
from ._highlighting import Highlighting
from ._hints import Hints
from ._hovering import Hovering
from ._inbox import Inbox
from ._moving import Moving
from ._naming import Naming
from ._parent import watch
from ._session import INVALID_PARAMS, PARSE_ERROR, REQUEST_FAILED, Params, Refused, Session
from ._settings import Settings, own, own_among_others, settings_in
from ._signatures import Signatures
from ._structure import Structure
from ._wire import Damaged, Input, Json, Output, writer
from ._workspace import Workspace

# While messages keep coming, documents are checked this often, in seconds.
_PATIENCE = 0.3

# This many warnings are shown at most, each once.
_MOST_SHOWN = 1000


class Server:
    """A language server that sends its messages by a function. With `counts_bytes` positions do so, whatever the client
    says."""

    def __init__(self, send: Callable[[object], None], counts_bytes: bool = False) -> None:
        self._send, self._counts_bytes = send, counts_bytes
        self.workspace = Workspace()
        self._checks = Checks(self.workspace)
        self._actions = Actions(self.workspace, self._checks)
        self._naming, self._hovering = Naming(self.workspace), Hovering(self.workspace)
        self._completion, self._moving = Completion(self.workspace), Moving(self.workspace)
        self._structure, self._hints = Structure(self.workspace), Hints(self.workspace)
        self._highlighting, self._formatting = Highlighting(self.workspace), Formatting(self.workspace)
        self._signatures = Signatures(self.workspace)
        self._unchecked: dict[str, None] = {}
        self._shown: set[str] = set()
        self._initial: dict[str, Any] = {}
        self._is_stale = False
        self.ended: Callable[[], None] = lambda: None
        self._can = Abilities()
        self._asked = 0
        self.session = Session(send, _with_params(self._answers()), _with_params(self._notices()))

    def _answers(self) -> dict[str, Callable[[Params], object]]:
        """What answers each request."""
        return {
            "initialize": self._initialize,
            "shutdown": lambda _: None,
            "textDocument/definition": self._naming.definition,
            "textDocument/references": self._naming.references,
            "textDocument/documentHighlight": self._naming.highlights,
            "textDocument/documentSymbol": self._naming.symbols,
            "workspace/symbol": self._naming.workspace_symbols,
            "textDocument/prepareRename": self._naming.prepare,
            "textDocument/rename": self._naming.rename,
            "textDocument/hover": self._hovering.hover,
            "textDocument/completion": self._completion.complete,
            "textDocument/signatureHelp": self._signatures.help,
            "textDocument/codeAction": self._checks_asked(self._actions.actions),
            "workspace/executeCommand": self._checks_asked(self._execute),
            "textDocument/formatting": self._formatting.document,
            "textDocument/rangeFormatting": self._formatting.selection,
            "textDocument/foldingRange": self._structure.folds,
            "textDocument/selectionRange": self._structure.selections,
            "textDocument/inlayHint": self._hints.hints,
            "textDocument/codeLens": self._hints.lenses,
            "textDocument/semanticTokens/full": self._highlighting.full,
            "textDocument/semanticTokens/range": self._highlighting.of_range,
            "textDocument/diagnostic": self._checks.pulled,
            "workspace/diagnostic": self._checks.pulled_of_workspace,
            "workspace/willRenameFiles": self._moving.moves,
        }

    def _notices(self) -> dict[str, Callable[[Params], object]]:
        """What takes each notification."""
        return {
            "initialized": self._watch,
            "textDocument/didOpen": self._open,
            "textDocument/didChange": self._change,
            "textDocument/didClose": self._close,
            "textDocument/didSave": lambda _: self._check_all(),
            "workspace/didChangeConfiguration": self._configure,
            "workspace/didChangeWatchedFiles": lambda _: self._check_all(),
            "workspace/didChangeWorkspaceFolders": self._change_folders,
        }

    def check(self) -> None:
        """Checks what has changed, and sends what is found."""
        while self._unchecked:
            uri = next(iter(self._unchecked))
            document = self.workspace.open.get(uri)
            published = self._checks.check(document) if document else []
            for words in self._troubles(document) if document else ():
                self._show(words)
            self._unchecked.pop(uri, None)
            for each in published:
                self._unchecked.pop(each["uri"], None)
                self._publish(each)
        if self._is_stale:
            self._is_stale = False
            self._request("workspace/diagnostic/refresh", None)

    def _troubles(self, document: Document) -> list[str]:
        """Why a document may not be compared with all that it should be."""
        wrong, absent = self.workspace.wrong_project(document), self.workspace.missing_reference(document)
        told = [f"the project's file isn't used: {wrong}"] if wrong else []
        return [*told, *([absent] if absent else []), *self._checks.unread]

    def give_up(self) -> None:
        """Leaves what couldn't be checked, until it changes."""
        self._unchecked.clear()

    @property
    def has_unchecked(self) -> bool:
        return bool(self._unchecked)

    def _publish(self, found: Json) -> None:
        """Sends what was found in a document. A client that asks for findings is told to ask again."""
        if self._can.pulls:
            self._is_stale = True
        else:
            self._send({"jsonrpc": "2.0", "method": "textDocument/publishDiagnostics", "params": found})

    def _request(self, method: str, params: object) -> None:
        """Asks the client for something. Its reply isn't waited for."""
        self._asked += 1
        asked: Json = {"jsonrpc": "2.0", "id": f"{method} {self._asked}", "method": method}
        self._send(asked if params is None else {**asked, "params": params})

    def _checks_asked(self, answer: Callable[[Params], object]) -> Callable[[Params], object]:
        """An answer that needs what is found in the documents as they are."""

        def answered(params: Params) -> object:
            self.check()
            return answer(params)

        return answered

    def _initialize(self, params: Params) -> Json:
        self._can = can = Abilities.of(params, self._counts_bytes)
        self._naming.has_nested_symbols, self._naming.has_versions = can.nested_symbols, can.versions
        self._completion.has_snippets, self._hovering.has_markdown = can.snippets, can.markdown
        self._checks.has_related, self._checks.has_links = can.related, can.links
        self._actions.has_versions, self._actions.can_create = can.versions, can.creates
        self._moving.can_rename = can.versions and can.renames
        self.workspace.counts_bytes = can.counts_bytes
        folders = params.at("workspaceFolders")
        uris = [each["uri"].text for each in params["workspaceFolders"].items] if isinstance(folders, list) else []
        root = params.at("rootUri")
        self.workspace.set_roots(uris or ([root] if isinstance(root, str) else []))
        self._initial = self._settings_in(own(params.at("initializationOptions")))
        self.workspace.settings = Settings(**self._initial)
        watch(params.at("processId"), lambda: self.ended())
        return {"capabilities": can.answered(), "serverInfo": {"name": "kozhvadi", "version": __version__}}

    def _watch(self, _: Params) -> None:
        """Asks the client to report changes of files that aren't open."""
        if self._can.watches:
            watched = {"watchers": [{"globPattern": "**/*.ftl"}, {"globPattern": f"**/{NAME}"}]}
            asked = {"id": "watch", "method": "workspace/didChangeWatchedFiles", "registerOptions": watched}
            params = {"registrations": [asked]}
            self._send({"jsonrpc": "2.0", "id": "watch", "method": "client/registerCapability", "params": params})

    def _settings_in(self, given: object) -> dict[str, Any]:
        """The settings of a value. What is wrong with it is shown to the user."""
        fit, wrong = settings_in(given)
        for words in wrong:
            self._show(words)
        return fit

    def _show(self, words: str) -> None:
        """Shows a warning to the user, unless it was shown before."""
        if words not in self._shown and len(self._shown) < _MOST_SHOWN:
            self._shown.add(words)
            shown = {"type": 2, "message": f"kozhvadi: {words}"}
            self._send({"jsonrpc": "2.0", "method": "window/showMessage", "params": shown})

    def _configure(self, params: Params) -> None:
        """Takes settings in place of those of the initialization options. If there are none, nothing changes: some
        clients send null and wait to be asked, and others send the settings of all their servers."""
        given = self._settings_in(own_among_others(params["settings"].value))
        if given:
            self.workspace.settings = Settings(**{**self._initial, **given})
            self._check_all()

    def _change_folders(self, params: Params) -> None:
        added, removed = ([each["uri"].text for each in params["event"][name].items] for name in ("added", "removed"))
        self.workspace.change_roots(added, removed)
        self._check_all()

    def _open(self, params: Params) -> None:
        document = params["textDocument"]
        self._take(document["uri"].text, document["text"].text, document.get("version").value)

    def _change(self, params: Params) -> None:
        changes = params["contentChanges"].items
        uri = params["textDocument"]["uri"].text
        document = self.workspace.open.get(uri)
        if document is None:
            raise Refused(REQUEST_FAILED, f"{uri} isn't open")
        if changes:
            text = changed(document.text, changes, self._can.counts_bytes)
            self._take(uri, text, params["textDocument"].get("version").value)

    def _take(self, uri: str, text: str, version: object) -> None:
        is_number = isinstance(version, int) and not isinstance(version, bool)
        document = self.workspace.take(uri, text, version if is_number and isinstance(version, int) else None)
        self._unchecked[uri] = None
        if self.workspace.is_of_reference(document):
            # The documents that are compared with it come after it.
            self._check_all()

    def _close(self, params: Params) -> None:
        uri = params["textDocument"]["uri"].text
        if self.workspace.drop(uri):
            self._unchecked.pop(uri, None)
            self._publish(self._checks.forget(uri))
            self._check_all()

    def _check_all(self) -> None:
        self._unchecked.update(dict.fromkeys(self.workspace.open))

    def _execute(self, params: Params) -> None:
        """Creates the files that the language of a document lacks: the client gets the edit as a request."""
        command = params["command"].text
        if command != CREATE_FILES:
            raise Refused(INVALID_PARAMS, f"there is no command {command!r}")
        if not self._can.applies:
            raise Refused(REQUEST_FAILED, "the client takes no edits that it didn't ask for")
        given = params["arguments"].items
        document = self.workspace.open.get(given[0].text) if given else None
        if document is None:
            raise Refused(REQUEST_FAILED, "the argument of the command isn't the URI of an open document")
        files = self._checks.files(document.uri)
        if files:
            applied = {"label": "Create missing files", "edit": self._actions.creating(document, files)}
            self._request("workspace/applyEdit", applied)


def _with_params(handlers: dict[str, Callable[[Params], object]]) -> dict[str, Callable[[object], object]]:
    def answering(handler: Callable[[Params], object]) -> Callable[[object], object]:
        return lambda given: handler(Params(given))

    return {name: answering(handler) for name, handler in handlers.items()}


def serve(given: Input, output: Output, counts_bytes: bool = False) -> int:
    """Answers the messages of a stream until `exit`, or its end. Returns 0 if it was shut down before that."""
    server, inbox = Server(writer(output), counts_bytes), Inbox(given)
    server.ended = inbox.end
    stop_if(lambda: inbox.is_stopped)
    since = time.monotonic()
    try:
        while not server.session.is_over:
            try:
                got = inbox.next(0 if server.has_unchecked else None)
            except Empty:
                _check(server)
                since = time.monotonic()
                continue
            if got is None:
                break
            message, is_cancelled = got
            if isinstance(message, Damaged):
                server.session.refuse(None, PARSE_ERROR, str(message))
            else:
                server.session.receive(message, is_cancelled)
            if not server.has_unchecked:
                since = time.monotonic()
            elif time.monotonic() - since > _PATIENCE:
                _check(server)
                since = time.monotonic()
    except BrokenPipeError:
        # The editor is gone.
        return 1
    return 0 if server.session.is_shut_down else 1


def _check(server: Server) -> None:
    """Checks what has changed. Whatever goes wrong, the server goes on."""
    try:
        server.check()
    except BrokenPipeError:
        raise
    except Exception as error:  # noqa: BLE001
        server.give_up()
        print(f"kozhvadi.server: a check failed: {type(error).__name__}: {error}", file=sys.stderr)
