"""What mends findings: fixes of a place, of a complete file, and files that a language lacks."""

from __future__ import annotations

from collections.abc import Iterable
from pathlib import Path

from .._fixes import Fix, extent, fixes
from .._linting import Finding
from ._additions import Addition, additions, without
from ._checks import Checks, MissingFile, diagnostic, last_line, missing_messages, position_of
from ._documents import Document
from ._session import Params
from ._wire import Json
from ._workspace import Workspace

CREATE_FILES = "kozhvadi.createMissingFiles"
QUICK, FIX_ALL, ADD_ALL = "quickfix", "source.fixAll.kozhvadi", "source.addMissing.kozhvadi"
KINDS = [QUICK, FIX_ALL, ADD_ALL]

# This many messages or files that are missing are offered one by one.
_SINGLE = 20


class Actions:
    """Answers how what is found in a document can be mended."""

    def __init__(self, workspace: Workspace, checks: Checks) -> None:
        self._workspace, self._checks = workspace, checks
        self.has_versions = self.can_create = False

    def actions(self, params: Params) -> list[Json]:
        """The fixes for what is found in a range of a document, and those of the complete document."""
        document = self._workspace.open.get(params["textDocument"]["uri"].text)
        if document is None:
            return []
        asked = params["range"]
        start, end = (document.offset(position_of(asked[name])) for name in ("start", "end"))
        found = [*self._quick(document, start, end), *self._of_file(document)]
        return [each for each in found if _is_wanted(each["kind"], params.at("context", "only"))]

    def _quick(self, document: Document, start: int, end: int) -> list[Json]:
        """The fixes for what is found between two offsets."""
        found: list[Json] = []
        for finding, fix in self._fixes(document):
            first, last = extent(document.source, finding.offset)
            if first <= end and start <= last:
                told = [diagnostic(document, finding)]
                found.append(_action(fix.title, QUICK, self._edit(document, [fix]), told))
                found[-1]["isPreferred"] = len(found) == 1
        if self._checks.lacks(document.uri) and end >= last_line(document):
            found += self._additions(document)
        if self._checks.files(document.uri) and document.lines.position(start)[0] == 0:
            found += self._creations(document)
        return found

    def _of_file(self, document: Document) -> list[Json]:
        """What is offered at each place of a document."""
        found = []
        sure = self._sure_fixes(document)
        if sure:
            found.append(_action("Mend what is sure in this file", FIX_ALL, self._edit(document, sure)))
        if self._checks.lacks(document.uri):
            every = self._additions(document)[:1]
            found += [_action(each["title"], ADD_ALL, each["edit"]) for each in every]
        return found

    def _fixes(self, document: Document) -> Iterable[tuple[Finding, Fix]]:
        findings = self._checks.found(document.uri)
        if not findings:
            return
        entries = self._workspace.samples(self._workspace.catalog(document).documents)
        compared = self._workspace.samples(self._workspace.reference(document).documents)
        functions = self._workspace.functions(document)
        for finding in findings:
            for fix in fixes(finding, document.places, entries, compared, functions):
                yield finding, fix

    def _sure_fixes(self, document: Document) -> list[Fix]:
        """The fixes that need no choice: names that a finding's hint has, and variants. One of each finding, and none
        that changes what another one changes."""
        sure: list[Fix] = []
        mended: set[Finding] = set()
        end = 0
        for finding, fix in self._fixes(document):
            is_sure = not finding.code.startswith("unknown-") or f"`{fix.text}`" in (finding.hint or "")
            if is_sure and finding not in mended and fix.start >= end:
                mended.add(finding)
                sure.append(fix)
                end = fix.end
        return sure

    def _additions(self, document: Document) -> list[Json]:
        """What adds the messages that are missing, with the text of the reference."""
        original, lacks = self._workspace.counterpart(document), self._checks.lacks(document.uri)
        if original is None:
            return []
        every = "the message" if len(lacks) == 1 else f"all {len(lacks)} messages"
        groups = [(f"Add {every} of the reference", lacks)]
        groups += [(f"Add `{id}` of the reference", [id]) for id in lacks[:_SINGLE] if len(lacks) > 1]
        told = [missing_messages(document, lacks)]
        return [
            _action(title, QUICK, self._edit(document, additions(document, original, ids)), told)
            for title, ids in groups
        ]

    def _creations(self, document: Document) -> list[Json]:
        """What creates the files that the language of a document lacks."""
        files, told = self._checks.files(document.uri), [self._checks.missing_files(document)]
        titled = [(f"Create {self._workspace.shown(each.path)}", [each]) for each in files[:_SINGLE]]
        if len(files) > 1:
            titled.insert(0, (f"Create all {len(files)} files that are missing", files))
        return [_action(title, QUICK, self.creating(document, wanted), told) for title, wanted in titled]

    def creating(self, document: Document, files: Iterable[MissingFile]) -> Json:
        """The edit that creates files with the text of the reference, but for the entries that the language has."""
        have = self._workspace.samples(self._workspace.catalog(document).documents).entries
        texts = {each.path: without(each.original, have) for each in files}
        start = {"line": 0, "character": 0}
        edits = {path: [{"range": {"start": start, "end": start}, "newText": text}] for path, text in texts.items()}
        if not (self.has_versions and self.can_create):
            return {"changes": {path.as_uri(): edit for path, edit in edits.items()}}
        return {"documentChanges": [each for path, edit in edits.items() for each in _created(path, edit)]}

    def _edit(self, document: Document, changes: Iterable[Fix | Addition]) -> Json:
        edits = [
            {"range": document.range(each.start, each.end), "newText": each.text}
            if isinstance(each, Fix)
            else {"range": document.range(each.offset, each.offset), "newText": each.text}
            for each in changes
        ]
        return {"changes": {document.uri: edits}}


def _created(path: Path, edits: list[Json]) -> list[Json]:
    uri = path.as_uri()
    options = {"ignoreIfExists": True}
    created = {"kind": "create", "uri": uri, "options": options}
    return [created, {"textDocument": {"uri": uri, "version": None}, "edits": edits}]


def _action(title: str, kind: str, edit: Json, mended: list[Json] | None = None) -> Json:
    return {"title": title, "kind": kind, "edit": edit, **({"diagnostics": mended} if mended else {})}


def _is_wanted(kind: str, only: object) -> bool:
    """Whether a client asked for actions of a kind: it names kinds, or what they begin with."""
    if not isinstance(only, list):
        return True
    return any(isinstance(each, str) and f"{kind}.".startswith(f"{each}.") for each in only)
