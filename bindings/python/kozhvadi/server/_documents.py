"""A source: what is open in the editor, or a file."""

from __future__ import annotations

import os
from dataclasses import dataclass, field
from functools import cached_property
from pathlib import Path
from typing import NamedTuple
from urllib.parse import unquote_to_bytes, urlsplit

from .._linting import lint
from .._places import Places
from .._positions import Lines
from .._stopping import go_on
from .._tokens import Token, Tokens

MARK = "\ufeff"

# Documents of these schemes are what a file was, or what it will be, as a comparison shows them.
_OTHER_VERSIONS = {"git", "gitlens", "gitlens-git", "hg", "svn", "pr", "review", "fugitive", "diffview"}


class Document:
    """A source: a document that is open in the editor, or a file.

    `path` is where it belongs in the workspace, and `real` is that path without symbolic links. `mark` is the byte
    order mark of a file: editors don't show it, so it isn't in the text, and positions don't count it. A position
    counts bytes if `counts_bytes`, and otherwise code units of UTF-16.
    """

    def __init__(
        self,
        uri: str,
        text: str,
        version: int | None = None,
        *,
        path: Path | None = None,
        mark: str = "",
        counts_bytes: bool = False,
    ) -> None:
        self.uri, self.text, self.version, self.path, self.mark = uri, text, version, path, mark
        self._counts_bytes = counts_bytes
        self.real = real_path(path) if path else None
        self.source = text.encode()

    @property
    def is_other_version(self) -> bool:
        """Whether it is a file as it was at another time, or by another branch."""
        return self.uri.partition(":")[0] in _OTHER_VERSIONS

    @property
    def identity(self) -> Path | str:
        """What two documents of one file have in common."""
        return self.real or self.uri

    @cached_property
    def lines(self) -> Lines:
        return Lines(self.source, self._counts_bytes)

    @cached_property
    def places(self) -> Places:
        return Places(self.source)

    @cached_property
    def tokens(self) -> list[Token]:
        return Tokens(self.source).tokens

    @cached_property
    def is_too_deep(self) -> bool:
        """Whether the source nests too deep for the library."""
        try:
            lint({"": self.text})
        except MemoryError:
            return True
        return False

    def as_too_deep(self) -> Unread:
        """The document as one that can't be read."""
        return Unread(self.path or Path(self.uri), "nests too deep")

    @property
    def name(self) -> str:
        return shown_path(Path(self.path.name)) if self.path else self.uri

    def offset(self, position: tuple[int, int]) -> int:
        """The offset of a position."""
        return self.lines.offset(*position)

    def range(self, start: int, end: int) -> dict[str, dict[str, int]]:
        """The range between two offsets."""
        go_on()
        (line, character), (last, after) = self.lines.position(start), self.lines.position(end)
        return {"start": {"line": line, "character": character}, "end": {"line": last, "character": after}}


class Unread(NamedTuple):
    """A file or folder that can't be read. `why` follows its name in a sentence."""

    path: Path
    why: str


@dataclass
class Loaded:
    """Documents that are loaded together, and the files among them that can't be read."""

    documents: list[Document] = field(default_factory=list)
    unread: list[Unread] = field(default_factory=list)

    def without_deep(self) -> Loaded:
        """The same without the documents that nest too deep, which count as unread."""
        deep = [each.as_too_deep() for each in self.documents if each.is_too_deep]
        return Loaded([each for each in self.documents if not each.is_too_deep], [*self.unread, *deep])


def path_of(uri: str) -> Path | None:
    """The path of a URI of a file."""
    try:
        parts = urlsplit(uri)
    except ValueError:
        return None
    path = os.fsdecode(unquote_to_bytes(parts.path))
    return None if parts.scheme != "file" or "\0" in path else Path(os.path.normpath(path or "/"))


def shown_path(path: Path) -> str:
    """A path as a text: bytes that aren't UTF-8 are U+FFFD."""
    return os.fsencode(path).decode(errors="replace")


def real_path(path: Path) -> Path:
    """A path without symbolic links. A loop of them stays in it."""
    return Path(os.path.realpath(path))
