"""Findings as the diagnostics of documents."""

from __future__ import annotations

import hashlib
import json
import re
from collections.abc import Callable, Iterable
from dataclasses import dataclass, replace
from functools import cached_property
from pathlib import Path
from typing import NamedTuple

from .._fixes import extent
from .._linting import Finding, lint
from .._scan import Entry
from .._stopping import go_on
from ._codes import link_of
from ._documents import Document, Loaded
from ._session import Params
from ._wire import Json
from ._workspace import Workspace

_ERROR, _WARNING, _HINT = 1, 2, 4
_SEVERITIES = {"error": _ERROR, "warning": _WARNING, "note": 3}
_UNNECESSARY = 1

# What a finding of these codes says may be untrue if a file of the catalog can't be read, or one of the reference.
_OF_CATALOG = {
    "unknown-message",
    "unknown-term",
    "unused-term",
    "missing-variable",
    "unused-variable",
    "missing-message",
}
_OF_REFERENCE = {"unknown-variable", "unknown-function", "obsolete-message"}

# Findings of these codes come from a comparison with a message of the reference.
_COMPARED = {
    "missing-value",
    "missing-attribute",
    "obsolete-value",
    "obsolete-attribute",
    "unknown-variable",
    "missing-variable",
    "unused-variable",
    "untranslated",
    "variant-lacks-variable",
    "plural-dropped",
    "term-as-text",
    "broken-tag",
    "unbalanced-element",
    "unknown-element",
    "missing-element",
    "missing-l10n-name",
    "unknown-l10n-name",
    "broken-entity",
    "long-access-key",
    "long-key",
    "changed-style",
    "access-key-not-in-label",
}

# This note is reported without being asked for, as a hint: what is added from the reference is untranslated.
UNTRANSLATED = "untranslated"

# This many files that can't be read, or that are missing, are named.
_NAMED = 5

_DUPLICATE = re.compile(r"the entry at (.+):([0-9]+):[0-9]+ has the same id")


class MissingFile(NamedTuple):
    """A file of the reference that a language lacks: where it belongs, and the ids that have no translation."""

    path: Path
    original: Document
    ids: list[str]


@dataclass
class _Checked:
    """What was found in documents that are loaded together.

    The findings have the URIs of their documents, `unread` says in sentences which files can't be read, `names` has
    the documents by the names that they have in the texts of findings, `files` are those that the language lacks, and
    `reference` has the documents that they were compared with.
    """

    found: list[Finding]
    unread: list[str]
    names: dict[str, Document]
    files: list[MissingFile]
    reference: list[Document]

    @cached_property
    def originals(self) -> dict[str, tuple[Document, Entry]]:
        """The entries of the reference by their keys, with their documents."""
        found: dict[str, tuple[Document, Entry]] = {}
        for document in self.reference:
            for entry in document.places.entries:
                found.setdefault(entry.key, (document, entry))
        return found

    @cached_property
    def missing(self) -> dict[str, list[str]]:
        """The ids that the reference has, and the catalog lacks, by the URIs of the reference's files."""
        return _missing(self.found)


class _Kept(NamedTuple):
    """What was found in documents that are loaded together, and what it was found by."""

    key: object
    read: list[Document]
    told: list[Json]


class Checks:
    """What was found in each open document, by its URI."""

    def __init__(self, workspace: Workspace) -> None:
        self._workspace = workspace
        self.has_related = self.has_links = False
        # What couldn't be read at the last check, in sentences.
        self.unread: list[str] = []
        self._kept: dict[str, _Kept] = {}
        self._found: dict[str, list[Finding]] = {}
        self._missing: dict[str, list[str]] = {}
        self._files: dict[str, list[MissingFile]] = {}

    def found(self, uri: str) -> list[Finding]:
        """What was found in a document."""
        return self._found.get(uri, [])

    def lacks(self, uri: str) -> list[str]:
        """The ids of the messages that a document lacks."""
        return self._missing.get(uri, [])

    def files(self, uri: str) -> list[MissingFile]:
        """The files that the language of a document lacks."""
        return self._files.get(uri, [])

    def check(self, document: Document) -> list[Json]:
        """Looks for mistakes in a document and those that are loaded with it: what is to be published, a list each.

        Nothing is said of another version of a file: what belongs to it isn't known.
        """
        if document.is_other_version:
            self.forget(document.uri)
            return [self._published(document, [])]
        catalog, reference = self._workspace.catalog(document), self._workspace.reference(document)
        return self._check(document, catalog, reference, lambda each: each.uri in self._workspace.open)

    def _check(
        self, document: Document, catalog: Loaded, reference: Loaded, is_wanted: Callable[[Document], bool]
    ) -> list[Json]:
        opened = [each for each in catalog.documents if is_wanted(each) and self._is_told_with(each, document)]
        try:
            checked = self._checked(document, catalog, reference)
        except MemoryError:
            catalog, reference = catalog.without_deep(), reference.without_deep()
            try:
                checked = self._checked(document, catalog, reference)
            except MemoryError:
                return [self._refused(document)]
        read = {each.uri for each in catalog.documents}
        return [self._told(each, checked) if each.uri in read else self._refused(each) for each in opened]

    def _is_told_with(self, each: Document, document: Document) -> bool:
        """Whether a document of a catalog belongs there by its path, not only by a symbolic link."""
        return each is document or self._workspace.group(each) == self._workspace.group(document)

    def _checked(self, document: Document, catalog: Loaded, reference: Loaded) -> _Checked:
        settings = self._workspace.settings
        documents = [*catalog.documents, *reference.documents]
        names = self._names(documents)
        shown = {each.uri: name for name, each in names.items()}
        marks = {each.uri: self._workspace.mark(each) for each in documents}
        report = lint(
            [(shown[each.uri], marks[each.uri] + each.text) for each in catalog.documents],
            reference=[(shown[each.uri], marks[each.uri] + each.text) for each in reference.documents],
            locale=self._workspace.locale(document),
            functions=self._workspace.functions(document),
            notes=settings.notes or bool(reference.documents),
        )
        unsure = (_OF_CATALOG if catalog.unread else set()) | (_OF_REFERENCE if reference.unread else set())
        found = [
            _placed(each, names[each.file], marks)
            for each in report.findings
            if each.code not in unsure
            and (settings.notes or each.severity != "note" or each.code == UNTRANSLATED)
            and not self._is_left_out(document, each, names[each.file])
        ]
        absent = self._absent(document, found, reference)
        return _Checked(found, self._unread(catalog, reference), names, absent, reference.documents)

    def _is_left_out(self, document: Document, finding: Finding, named: Document) -> bool:
        """Whether the project's file asks for what a finding says to be left out. A missing message is named in the file
        of the reference."""
        if finding.code == "missing-message" and finding.entry:
            return self._workspace.is_left_out(document, finding.entry, named)
        if finding.code == "obsolete-message" and finding.entry:
            return self._workspace.is_left_out(named, finding.entry, None)
        return False

    def _absent(self, document: Document, found: list[Finding], reference: Loaded) -> list[MissingFile]:
        """The files of the reference with messages that the catalog lacks, and that its language hasn't."""
        missing = _missing(found)
        lacking = [each for each in reference.documents if each.uri in missing]
        placed = [(each, self._workspace.translation_path(document, each)) for each in lacking]
        return [
            MissingFile(path, each, missing[each.uri])
            for each, path in placed
            if path and not self._workspace.is_there(path)
        ]

    def _names(self, documents: Iterable[Document]) -> dict[str, Document]:
        """The documents by their paths from the top of the workspace. If two have the same, one has its URI."""
        names: dict[str, Document] = {}
        for document in documents:
            name = self._workspace.shown(document.path) if document.path else document.uri
            if names.setdefault(name, document).uri != document.uri:
                names[document.uri] = document
        return names

    def _unread(self, catalog: Loaded, reference: Loaded) -> list[str]:
        """What can't be read, in sentences."""
        unread = [*catalog.unread, *reference.unread]
        self.unread = told = [f"{self._workspace.shown(path)} {why}, so its entries are unknown" for path, why in unread[:_NAMED]]
        if len(unread) > _NAMED:
            told.append(f"{len(unread) - _NAMED} more files can't be read, so their entries are unknown")
        return told

    def forget(self, uri: str) -> Json:
        """Drops what was found in a document that is closed."""
        self._found.pop(uri, None)
        self._missing.pop(uri, None)
        self._files.pop(uri, None)
        return {"uri": uri, "diagnostics": []}

    def pulled(self, params: Params) -> Json:
        """What is found in a document, as its client asks for it."""
        document = self._workspace.document(params["textDocument"]["uri"].text)
        told = self._all(document) if document else []
        found = [each["diagnostics"] for each in told if document and each["uri"] == document.uri]
        return {"kind": "full", "items": found[0] if found else []}

    def pulled_of_workspace(self, params: Params) -> Json:
        """What is found in each file of the workspace. A list that is as the client has it isn't sent again."""
        before = {each["uri"].text: each["value"].value for each in params["previousResultIds"].items}
        documents = self._workspace.all().documents
        told: dict[str, Json] = {}
        for document in documents:
            go_on()
            for each in self._all(document) if document.uri not in told else ():
                told.setdefault(each["uri"], each)
        self._kept = {uri: kept for uri, kept in self._kept.items() if uri in told}
        return {"items": [_reported(each, before.get(uri)) for uri, each in told.items()]}

    def _all(self, document: Document) -> list[Json]:
        """What is found in the documents that are loaded with one, whether they are open or not. It is kept as long as
        none of them changes."""
        if document.is_other_version:
            return [self._published(document, [])]
        catalog, reference = self._workspace.catalog(document), self._workspace.reference(document)
        read = [*catalog.documents, *reference.documents]
        key = (self._workspace.settings, catalog.unread, reference.unread)
        kept = self._kept.get(document.uri)
        if kept is None or kept.key != key or list(map(id, kept.read)) != list(map(id, read)):
            told = self._check(document, catalog, reference, lambda _: True)
            kept = _Kept(key, read, told)
            for each in told:
                self._kept[each["uri"]] = kept
            self._kept[document.uri] = kept
            self._drop_closed()
        return kept.told

    def _drop_closed(self) -> None:
        """Forgets what fixes were made of in documents that aren't open."""
        for uri in [uri for uri in self._found if uri not in self._workspace.open]:
            self.forget(uri)

    def _told(self, document: Document, checked: _Checked) -> Json:
        self._found[document.uri] = own = [each for each in checked.found if each.file == document.uri]
        told = [_at_first_line(document, _WARNING, "unread-file", words) for words in checked.unread]
        wrong = self._workspace.wrong_project(document)
        if wrong:
            told.append(_at_first_line(document, _WARNING, "project-file", f"the project's file isn't used: {wrong}"))
        absent = self._workspace.missing_reference(document)
        if absent:
            told.append(_at_first_line(document, _WARNING, "missing-reference", f"{absent}: nothing is compared"))
        self._files[document.uri] = checked.files
        if checked.files:
            told.append(self.missing_files(document))
        told += [{**diagnostic(document, each), **self._related(each, checked)} for each in own]
        counterpart = self._workspace.counterpart(document)
        self._missing[document.uri] = lacks = checked.missing.get(counterpart.uri, []) if counterpart else []
        if lacks:
            told.append(missing_messages(document, lacks))
        return self._published(document, told)

    def missing_files(self, document: Document) -> Json:
        """Says at the first line which files the language of a document lacks."""
        files = self.files(document.uri)
        some = ", ".join(self._workspace.shown(each.path) for each in files[:_NAMED])
        names = f"{some}, .." if len(files) > _NAMED else some
        count = sum(len(each.ids) for each in files)
        have = "1 message of the reference has" if count == 1 else f"{count} messages of the reference have"
        there = "is no" if len(files) == 1 else "are no"
        words = f"there {there} {names}: {have} no translation"
        return _at_first_line(document, _WARNING, "missing-file", words)

    def _related(self, finding: Finding, checked: _Checked) -> Json:
        """The place of the other entry, or that of the reference, for clients that show it."""
        if not self.has_related:
            return {}
        if finding.code in _COMPARED:
            original = checked.originals.get((finding.entry or "").partition(".")[0])
            return _related_to(*original, "the message of the reference") if original else {}
        named = _DUPLICATE.match(finding.text) if finding.code == "duplicate-id" else None
        document = checked.names.get(named[1]) if named else None
        if named is None or document is None:
            return {}
        id = (finding.entry or "").removeprefix("-")
        for entry in document.places.entries:
            if entry.id == id and document.lines.position(entry.name_start)[0] + 1 == int(named[2]):
                return _related_to(document, entry, "the other entry")
        return {}

    def _refused(self, document: Document) -> Json:
        self._found[document.uri], self._missing[document.uri], self._files[document.uri] = [], [], []
        words = "the source nests too deep, or memory ran out"
        return self._published(document, [_at_first_line(document, _ERROR, "memory", words)])

    def _published(self, document: Document, told: list[Json]) -> Json:
        if self.has_links:
            told = [{**each, **link_of(each["code"])} for each in told]
        version = {} if document.version is None else {"version": document.version}
        return {"uri": document.uri, "diagnostics": told, **version}

def _related_to(document: Document, entry: Entry, words: str) -> Json:
    """The place of an entry, as what a finding is related to."""
    place = document.range(entry.name_start, entry.name_start + len(entry.id))
    return {"relatedInformation": [{"location": {"uri": document.uri, "range": place}, "message": words}]}


def _missing(found: Iterable[Finding]) -> dict[str, list[str]]:
    """The ids of messages that are missing, by the URIs of the reference's files that have them."""
    missing: dict[str, list[str]] = {}
    for each in found:
        if each.code == "missing-message" and each.entry:
            missing.setdefault(each.file, []).append(each.entry)
    return missing


def diagnostic(document: Document, finding: Finding) -> Json:
    """A finding as the protocol has it."""
    text = f"{finding.text} ({finding.hint})" if finding.hint else finding.text
    told: Json = {
        "range": document.range(*extent(document.source, finding.offset)),
        "severity": _HINT if finding.code == UNTRANSLATED else _SEVERITIES.get(finding.severity, _ERROR),
        "code": finding.code,
        "source": "kozhvadi",
        "message": f"{finding.entry}: {text}" if finding.entry else text,
    }
    if finding.code.startswith("obsolete-"):
        told["tags"] = [_UNNECESSARY]
    return told


def last_line(document: Document) -> int:
    """Where the last line with text begins: what is missing is reported there."""
    text = document.source.rstrip()
    return max(text.rfind(b"\n"), text.rfind(b"\r")) + 1


def missing_messages(document: Document, lacks: list[str]) -> Json:
    """Says at the last line which messages a document lacks."""
    some = ", ".join(f"`{id}`" for id in lacks[:5]) + (", .." if len(lacks) > 5 else "")
    count = "1 message of the reference has" if len(lacks) == 1 else f"{len(lacks)} messages of the reference have"
    return {
        "range": document.range(last_line(document), len(document.source.rstrip())),
        "severity": _WARNING,
        "code": "missing-message",
        "source": "kozhvadi",
        "message": f"{count} no translation: {some}",
    }


def _at_first_line(document: Document, severity: int, code: str, message: str) -> Json:
    return {
        "range": document.range(0, len(document.lines.line(0))),
        "severity": severity,
        "code": code,
        "source": "kozhvadi",
        "message": message,
    }


def _reported(told: Json, before: object) -> Json:
    """What was found in a document, as a report on the workspace has it."""
    text = json.dumps(told["diagnostics"], sort_keys=True)
    result = hashlib.sha256(text.encode()).hexdigest()[:16]
    report = {"uri": told["uri"], "version": told.get("version"), "resultId": result}
    if result == before:
        return {**report, "kind": "unchanged"}
    return {**report, "kind": "full", "items": told["diagnostics"]}


def _placed(finding: Finding, document: Document, marks: dict[str, str]) -> Finding:
    """A finding with the URI of its document, and the offset in its text: the library has read the mark, too."""
    return replace(finding, file=document.uri, offset=max(0, finding.offset - len(marks[document.uri].encode())))


def position_of(params: Params) -> tuple[int, int]:
    """A position that a client sent."""
    return params["line"].count, params["character"].count
