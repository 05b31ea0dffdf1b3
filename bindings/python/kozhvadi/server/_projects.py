"""The projects that files belong to, by the project's files above them."""

from __future__ import annotations

import os
from pathlib import Path
from typing import NamedTuple

from .._project_file import Placed, ProjectFile, Wrong, file_above
from ._documents import Unread
from ._files import Listed, Listing, real_path

_Stamp = tuple[int, int, int]


class Found(NamedTuple):
    """The project's file above a path: what it says, or what is wrong with it."""

    project: ProjectFile | None
    wrong: str | None


class Member(NamedTuple):
    """A file of a project, and what the project says of it."""

    project: ProjectFile
    placed: Placed


class Side:
    """The files of one language of a project, those of the reference for it, and the folders that can't be listed."""

    def __init__(self, project: ProjectFile, locale: str | None) -> None:
        self._project, self._locale = project, locale
        self._listed: dict[str, list[str]] = {}
        self._files: dict[str, Listed] = {}
        self.unread: list[Unread] = []
        self._pairs = project.pairs(locale, self._list) if locale else {}

    def _list(self, start: str) -> list[str]:
        if start not in self._listed:
            path = Path(start)
            listing = None if path.is_file() else Listing(path, below=True)
            files = listing.files if listing else [Listed(path, real_path(path))]
            self.unread += listing.unread if listing else []
            self._files.update((os.fspath(each.path), each) for each in files)
            self._listed[start] = [os.fspath(each.path) for each in files]
        return self._listed[start]

    @property
    def files(self) -> list[Listed]:
        """The files that there are in the language, or of the reference."""
        names = self._pairs if self._locale else self._project.references(self._list)
        return [self._files[name] for name in names if name in self._files]

    @property
    def references(self) -> list[Listed]:
        """The files that the language translates, or is to translate."""
        names = dict.fromkeys(original for original in self._pairs.values() if original)
        return [self._files[name] for name in names if name in self._files]

    @property
    def without_reference(self) -> str | None:
        return self._project.without_reference(self._list)


class Projects:
    """The project's files that were read, as long as they don't change."""

    def __init__(self) -> None:
        self._read: dict[Path, tuple[list[_Stamp], ProjectFile]] = {}

    def above(self, path: Path) -> Found:
        """What the nearest project's file at or above the folder of a path says."""
        file = file_above(path)
        if file is None:
            return Found(None, None)
        kept = self._read.get(file)
        if kept and kept[0] == _stamps(kept[1]):
            return Found(kept[1], None)
        try:
            project = ProjectFile.read(file)
        except Wrong as error:
            self._read.pop(file, None)
            return Found(None, str(error))
        self._read[file] = _stamps(project), project
        return Found(project, None)

    def member(self, path: Path) -> Member | None:
        """The project of a file, if it is one of the project's files."""
        project = self.above(path).project
        placed = project.placed(os.fspath(path), os.path.isfile) if project else None
        return Member(project, placed) if project and placed else None


def _stamps(project: ProjectFile) -> list[_Stamp]:
    """What changes if one of the files that were read changes."""
    stamps = []
    for path in project.paths:
        try:
            status = path.stat()
        except OSError:
            stamps.append((0, 0, 0))
        else:
            stamps.append((status.st_mtime_ns, status.st_size, status.st_ino))
    return stamps
