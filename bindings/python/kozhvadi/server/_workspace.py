"""The documents that are open, the files of the workspace, and which of them belong together."""

from __future__ import annotations

import os
import re
from collections.abc import Iterable
from pathlib import Path
from typing import NamedTuple

from .._project_file import ProjectFile
from .._samples import Catalog, has_rules, is_tag
from ._documents import MARK, Document, Loaded, Unread, path_of, real_path, shown_path
from ._files import Files, Listed, Listing, inode_of, mark_of
from ._projects import Member, Projects, Side
from ._settings import Settings

# A tag as names of files and folders have it. `in-app` and `to-do` begin with languages, too.
_TAG = re.compile(
    r"[a-z]{2,3}(?:[-_](?:[A-Z][a-z]{3}|latn|cyrl|hans|hant))?(?:[-_](?:[A-Z]{2}|[0-9]{3}))?(?:[-_](?:valencia|mac))?"
)
_IN_SMALL_LETTERS = re.compile(r"[a-z]{2,3}[-_][a-z]{2}")


class Root(NamedTuple):
    """A folder of the workspace as the client names it, and its path without symbolic links."""

    path: Path
    real: Path


class Group(NamedTuple):
    """The folder whose files are loaded together, or the file of their project, and the language of those that are."""

    folder: Path
    locale: str | None
    project: Path | None = None


class Workspace:
    """The documents and files, each file once, whatever paths and symbolic links lead to it."""

    def __init__(self) -> None:
        self.settings = Settings()
        self.open: dict[str, Document] = {}
        self._roots: list[Root] = []
        self._open_at: dict[Path, Document] = {}
        self._files = Files()
        self._projects = Projects()

    @property
    def counts_bytes(self) -> bool:
        """Whether positions count bytes, and not code units of UTF-16."""
        return self._files.counts_bytes

    @counts_bytes.setter
    def counts_bytes(self, counts: bool) -> None:
        self._files.counts_bytes = counts

    @property
    def roots(self) -> list[Path]:
        """The folders of the workspace, the innermost first."""
        return [root.path for root in self._roots]

    def set_roots(self, uris: Iterable[str]) -> None:
        """Takes the folders of the workspace."""
        self._set_roots(path for path in map(path_of, uris) if path)

    def change_roots(self, added: Iterable[str], removed: Iterable[str]) -> None:
        """Takes folders that the workspace has in addition, and leaves out others."""
        gone = [path_of(uri) for uri in removed]
        self._set_roots([*(path for path in self.roots if path not in gone), *filter(None, map(path_of, added))])

    def _set_roots(self, paths: Iterable[Path]) -> None:
        inner_first = sorted(dict.fromkeys(paths), key=lambda path: -len(path.parts))
        self._roots = [Root(path, real_path(path)) for path in inner_first]
        self._files.clear()
        for document in list(self.open.values()):
            self.take(document.uri, document.text, document.version)

    def root_of(self, path: Path) -> Path | None:
        """The innermost folder of the workspace that a path is in."""
        return next((root for root in self.roots if root in path.parents), None)

    def _in_workspace(self, path: Path) -> Path:
        """A path by which the workspace has a file: another one, as through a symbolic link, may lead to it, too."""
        if self.root_of(path) is None:
            folder = real_path(path.parent)
            for root in self._roots:
                if folder.is_relative_to(root.real):
                    return root.path / folder.relative_to(root.real) / path.name
        return path

    def take(self, uri: str, text: str, version: int | None = None) -> Document:
        """Takes a document that is opened, or its new text. Returns the document."""
        path = path_of(uri)
        placed = self._in_workspace(path) if path else None
        document = Document(uri, text, version, path=placed, counts_bytes=self.counts_bytes)
        self.open.pop(uri, None)
        self.open[uri] = document
        self._index()
        return document

    def drop(self, uri: str) -> bool:
        """Forgets a document that is closed. Returns whether it was open."""
        document = self.open.pop(uri, None)
        self._index()
        return document is not None

    def _index(self) -> None:
        """If two open documents are one file, the one that changed last counts."""
        self._open_at = {document.real: document for document in self.open.values() if document.real}

    def document(self, uri: str) -> Document | None:
        """The open document of a URI, or its file."""
        if uri in self.open:
            return self.open[uri]
        path = path_of(uri)
        found = self._at(Listed(path, real_path(path))) if path else None
        return found if isinstance(found, Document) else None

    def _at(self, file: Listed) -> Document | Unread | None:
        """What is at a path: the document that is open in the editor, or else the file."""
        return self._open_at.get(file.real) or self._files.read(file.real, lambda: self._shown_path(file))

    def _shown_path(self, file: Listed) -> Path:
        """The path by which a file is named: that of the file itself if it is in the workspace, and not of a link."""
        path = self._in_workspace(file.real)
        return path if self.root_of(path) else self._in_workspace(file.path)

    def _loaded(self, files: Iterable[Listed], first: Iterable[Document] = (), unread: Iterable[Unread] = ()) -> Loaded:
        """Documents, and what is at paths: each file once."""
        found: dict[Path | str, Document | Unread | None] = {}
        for document in first:
            found.setdefault(document.identity, document)
        for file in files:
            if file.real not in found:
                found[file.real] = self._at(file)
        return Loaded(
            [each for each in found.values() if isinstance(each, Document)],
            [*(each for each in found.values() if isinstance(each, Unread)), *unread],
        )

    def all(self, asked: Document | None = None) -> Loaded:
        """Each open document, and each file of the workspace that isn't open. One file is there once: as the document
        that is asked about, or as the one that is open and changed last. Folders that can't be listed are passed over.
        """
        first = [*([asked] if asked else []), *(each for each in self.current() if each is not asked)]
        files = {file.real: file for root in self.roots for file in Listing(root, below=True).files}
        self._files.keep(files)
        loaded = self._loaded(files.values(), first)
        # Editors take the names of one file for that file, also if they aren't symbolic links.
        named: dict[object, Document] = {}
        for document in loaded.documents:
            inode = inode_of(document.real) if document.real else None
            named.setdefault(inode or document.identity, document)
        return Loaded(list(named.values()), loaded.unread)

    def current(self) -> list[Document]:
        """The open documents that aren't other versions of a file, the one that changed last first."""
        return [each for each in reversed(self.open.values()) if not each.is_other_version]

    def mark(self, document: Document) -> str:
        """The byte order mark that the file of a document has before the text, if the text hasn't one."""
        if document.uri in self.open and document.real and not document.text.startswith(MARK):
            return mark_of(document.real)
        return document.mark

    def shown(self, path: Path) -> str:
        """A path as messages name it: from the top of the workspace."""
        root = self.root_of(path)
        return shown_path(path.relative_to(root) if root else path)

    def _member(self, document: Document) -> Member | None:
        """The project of a document, and what it says of it."""
        return self._projects.member(document.path) if document.path else None

    def project(self, path: Path) -> ProjectFile | None:
        """The nearest project's file above a path, if it can be read."""
        return self._projects.above(path).project

    def wrong_project(self, document: Document) -> str | None:
        """What is wrong with the project's file above a document."""
        return self._projects.above(document.path).wrong if document.path else None

    def functions(self, document: Document) -> list[str]:
        """The functions of the program: those of the project's file, and those of the settings."""
        project = self.project(document.path) if document.path else None
        return list(dict.fromkeys([*(project.functions if project else []), *self.settings.functions]))

    def _catalog_kind(self, member: Member | None) -> str:
        """Which files are loaded together: by the settings, or else by the project's file."""
        return self.settings.catalog or (member.project.catalog if member else None) or "language"

    def locale(self, document: Document) -> str | None:
        """The language of a document: by the project's file, or that of the settings, or else that of its path."""
        member = self._member(document)
        if member and member.placed.locale and is_tag(member.placed.locale):
            return member.placed.locale
        return self.settings.locale or (self._locale_of(document.path) if document.path else None)

    def _locale_of(self, path: Path) -> str | None:
        """The language of a path: that of the folder beside the reference, or else what its name, or a folder's, is a
        tag of."""
        beside = self._beside_reference(path)
        return beside.name if beside else guessed_locale(path, self.roots)

    def _folder_of(self, path: Path) -> Path | None:
        """The folder of a path's language."""
        return self._beside_reference(path) or language_folder(path, self.roots)

    def _beside_reference(self, path: Path) -> Path | None:
        """The folder of a language beside that of the reference, or the reference, if a path is in one of them."""
        reference = self._reference_for(path)
        if reference is None:
            return None
        beside = next((above for above in path.parents if above.parent == reference.parent), None)
        return beside if beside and is_language(beside.name) else None

    def catalog(self, document: Document) -> Loaded:
        """The documents that are loaded with one: those of its language, or of its folder and language."""
        group = self.group(document)
        if document.path is None or group is None:
            return Loaded([document])
        member = self._member(document)
        if member:
            side = Side(member.project, member.placed.locale)
            files, unread = side.files, side.unread
            if group.folder != member.project.path:
                files = [file for file in files if file.path.parent == group.folder]
        else:
            listing = self._listing(group.folder)
            files = [file for file in listing.files if self._locale_of(file.path) == group.locale]
            unread = listing.unread
        # Those that were opened, and never saved, aren't among the files.
        files += [
            Listed(each.path, each.real)
            for each in self._open_at.values()
            if each.path and each.real and self.group(each) == group
        ]
        loaded = self._loaded(files, [document], unread)
        loaded.documents.sort(key=lambda each: each.uri)
        return loaded

    def group(self, document: Document) -> Group | None:
        """What the documents of one catalog have in common by their paths. Nothing if a document is loaded alone."""
        member = self._member(document)
        kind = self._catalog_kind(member)
        if document.path is None or kind == "file":
            return None
        if member:
            project = member.project.path
            return Group(project if kind == "language" else document.path.parent, member.placed.locale, project)
        language = self._folder_of(document.path) if kind == "language" else None
        return Group(language or document.path.parent, self._locale_of(document.path))

    def _listing(self, folder: Path) -> Listing:
        """The files of a folder that are loaded together: also those in its folders, if it is that of a language."""
        is_language_folder = self._folder_of(folder / "any") == folder
        return Listing(folder, below=self._catalog_kind(None) == "language" and is_language_folder)

    def _reference_for(self, path: Path) -> Path | None:
        """Where the reference of a file is: that of the innermost folder of the workspace that the file is in.

        A file that is in none, but in a workspace, has one only if the setting is a complete path.
        """
        if not self.settings.reference:
            return None
        root = self.root_of(path)
        if self._roots and root is None and not Path(self.settings.reference).is_absolute():
            return None
        return Path(os.path.normpath((root or path.parent) / self.settings.reference))

    def reference_folder(self, path: Path) -> Path | None:
        """The folder of the reference of a file, if that is one."""
        reference = self._reference_for(path)
        return reference if reference and reference.suffix != ".ftl" else None

    def missing_reference(self, document: Document) -> str | None:
        """Says that the reference of a document isn't there."""
        member = self._member(document)
        if member:
            return Side(member.project, member.placed.locale).without_reference
        reference = self._reference_for(document.path) if document.path else None
        if reference is None or document.path is None or os.path.exists(reference):
            return None
        folder = self.root_of(document.path) or document.path.parent
        return f"the reference {self.settings.reference} isn't in {shown_path(folder)}"

    def is_of_reference(self, document: Document) -> bool:
        """Whether a document is one of those that others are compared with."""
        member = self._member(document)
        if member:
            return member.placed.locale is None
        reference = self._reference_for(document.path) if document.path else None
        if reference is None or document.path is None or document.real is None:
            return False
        return document.path.is_relative_to(reference) or document.real.is_relative_to(real_path(reference))

    def _compared_with(self, document: Document) -> tuple[Path, Path] | None:
        """The reference of a document, and the path that its file has there."""
        reference = self._reference_for(document.path) if document.path else None
        if reference is None or document.path is None or self.is_of_reference(document):
            return None
        folder = self._translation_folder(document.path, reference)
        return reference, reference if reference.suffix == ".ftl" else reference / document.path.relative_to(folder)

    def _translation_folder(self, path: Path, reference: Path) -> Path:
        """The folder of a translation whose files have the paths that those of the reference have there."""
        beside = next((above for above in path.parents if above.parent == reference.parent), path.parent)
        return self._folder_of(path) or beside

    def translation_path(self, document: Document, original: Document) -> Path | None:
        """Where the translation of a file of the reference belongs, in the language of a document."""
        member = self._member(document)
        if member and original.path:
            return _translation(member, original.path)
        compared = self._compared_with(document)
        if compared is None or document.path is None or original.path is None:
            return None
        reference, _ = compared
        if reference.suffix == ".ftl" or not original.path.is_relative_to(reference):
            return None
        return self._translation_folder(document.path, reference) / original.path.relative_to(reference)

    def is_there(self, path: Path) -> bool:
        """Whether there is a file at a path, or a document that is open in the editor and not saved yet."""
        return path.exists() or real_path(path) in self._open_at

    def reference(self, document: Document) -> Loaded:
        """The documents of the source language that a document is compared with."""
        member = self._member(document)
        if member:
            return self._reference_of(member)
        compared = self._compared_with(document)
        if compared is None:
            return Loaded()
        reference, file = compared
        kind = self._catalog_kind(None)
        if reference == file or kind == "file":
            return self._loaded([Listed(file, real_path(file))])
        is_below = kind == "language"
        listing = Listing(reference if is_below else file.parent, below=is_below)
        return self._loaded(listing.files, unread=listing.unread)

    def _reference_of(self, member: Member) -> Loaded:
        """The documents that those of a project's language are compared with."""
        kind, original = self._catalog_kind(member), member.placed.reference
        if member.placed.locale is None or (kind != "language" and original is None):
            return Loaded()
        if kind == "file" and original:
            return self._loaded([Listed(Path(original), real_path(Path(original)))])
        side = Side(member.project, member.placed.locale)
        files = side.references
        if kind == "folder" and original:
            files = [file for file in files if file.path.parent == Path(original).parent]
        return self._loaded(files, unread=side.unread)

    def counterpart(self, document: Document) -> Document | None:
        """The document of the reference that this one translates."""
        member = self._member(document)
        if member:
            path = Path(member.placed.reference) if member.placed.reference else None
        else:
            compared = self._compared_with(document)
            path = compared[1] if compared else None
        found = self._at(Listed(path, real_path(path))) if path else None
        return found if isinstance(found, Document) else None

    def is_left_out(self, document: Document, id: str, original: Document | None) -> bool:
        """Whether the project's file leaves out that a message is missing, of which an original is given, or that it is
        obsolete in a document."""
        member = self._member(document)
        if member is None or member.placed.locale is None:
            return False
        path = _translation(member, original.path) if original and original.path else document.path
        left_out = member.project.is_left_out
        if path is None or left_out(os.fspath(path), member.placed.locale, id):
            return path is not None
        return not path.exists() and left_out(os.fspath(path), member.placed.locale)

    def samples(self, documents: list[Document]) -> Catalog:
        """The entries of documents that are loaded together."""
        return Catalog(document.places for document in documents)


def _translation(member: Member, original: Path) -> Path | None:
    """Where the translation of a file of the reference belongs, in the language of a file of a project."""
    found = member.project.translation(os.fspath(original), member.placed.locale) if member.placed.locale else None
    return Path(found) if found else None


def language_folder(path: Path, roots: list[Path]) -> Path | None:
    """The nearest folder above a file, in the workspace, whose name is the tag of a language."""
    root = next((root for root in reversed(roots) if root in path.parents), path.parent)
    for folder in path.parents:
        if is_language(folder.name):
            return folder
        if folder == root:
            break
    return None


def guessed_locale(path: Path, roots: list[Path]) -> str | None:
    """The language that the name of a file is a tag of, as `de.ftl` or `main.de.ftl`, or else that of a folder."""
    stem = path.name.removesuffix(".ftl")
    for name in (stem, stem.rpartition(".")[2]):
        if _is_tag(name, _TAG):
            return name
    folder = language_folder(path, roots)
    return folder.name if folder else None


def is_language(name: str) -> bool:
    """Whether the name of a folder is the tag of a language."""
    return _is_tag(name, _TAG) or _is_tag(name, _IN_SMALL_LETTERS)


def _is_tag(name: str, pattern: re.Pattern[str]) -> bool:
    return bool(pattern.fullmatch(name)) and has_rules(name)
