"""The files that the page shows, and those that they are translated from."""

from __future__ import annotations

import os
import tempfile
from collections.abc import Iterable
from dataclasses import dataclass, field
from functools import lru_cache
from pathlib import Path

from .._project_file import Placed, ProjectFile, Wrong, file_above

# More files of a folder, or more bytes of all files, aren't shown.
_MOST = 2_000
_LARGEST = 16 * 2**20


@dataclass
class Project:
    """The files by their names, with their paths and texts; and those of the reference."""

    paths: dict[str, Path] = field(default_factory=dict)
    files: dict[str, str] = field(default_factory=dict)
    references: dict[str, str] = field(default_factory=dict)

    @staticmethod
    def read(paths: Iterable[Path], references: Iterable[Path]) -> Project:
        """Reads files, and those below folders. Without references the project's file above a file says which file it
        translates. Raises `OSError` if a file can't be read, and `ValueError` if one isn't UTF-8, if two have one name,
        if there are none or too many, or if the project's file is wrong."""
        named, compared = _named(paths), _named(references)
        if not compared:
            found = {name: placed(path) for name, path in named.items()}
            translated = {name: Path(each.reference) for name, each in found.items() if each and each.reference}
            return Project(named, _texts(named), _texts(translated))
        project = Project(named, _texts(named), _texts(compared))
        if len(project.files) == 1 == len(project.references):
            # One file is the translation of the other, whatever their names are.
            project.references = dict(zip(project.files, project.references.values()))
        return project

    def save(self, name: str, text: str) -> None:
        """Replaces a file by a text. Raises `KeyError` if there is no such file, and `ValueError` if it has changed
        since it was read."""
        path = self.paths[name]
        if _text(path) != self.files[name]:
            raise ValueError(f"{name} has changed since the page was loaded: it isn't saved")
        path = Path(os.path.realpath(path))
        handle, made = tempfile.mkstemp(dir=path.parent, prefix=f".{path.name}.")
        try:
            with os.fdopen(handle, "wb") as file:
                file.write(text.encode())
            os.chmod(made, path.stat().st_mode & 0o777)
            os.replace(made, path)
        except BaseException:
            os.unlink(made)
            raise
        self.files[name] = text


def placed(path: Path) -> Placed | None:
    """What the project's file above a file says of it. Raises `ValueError` if it is wrong."""
    complete = Path(os.path.abspath(path))
    file = file_above(complete)
    try:
        return _read(file, file.stat().st_mtime_ns).placed(os.fspath(complete), os.path.isfile) if file else None
    except Wrong as error:
        raise ValueError(f"the project's file is wrong: {error}") from error


@lru_cache(maxsize=1)
def _read(file: Path, _modified: int) -> ProjectFile:
    return ProjectFile.read(file)


def _named(paths: Iterable[Path]) -> dict[str, Path]:
    """Files by their names: those of a folder are named from there."""
    found: dict[str, Path] = {}
    for path in paths:
        if not path.is_dir():
            found.setdefault(str(path), path)
            continue
        listed = (each for each in path.rglob("*.ftl") if each.is_file() and not _is_hidden(each.relative_to(path)))
        below = sorted(listed)
        if not below:
            raise ValueError(f"there is no .ftl file in {path}")
        if len(below) > _MOST:
            raise ValueError(f"{path} has more than {_MOST} files")
        for each in below:
            name = str(each.relative_to(path))
            if name in found:
                raise ValueError(f"{found[name]} and {each} have the same name here: show one folder at a time")
            found[name] = each
    return found


def _is_hidden(path: Path) -> bool:
    return any(part.startswith(".") for part in path.parts)


def _texts(named: dict[str, Path]) -> dict[str, str]:
    texts, size = {}, 0
    for name, path in named.items():
        texts[name] = _text(path)
        size += len(texts[name])
        if size > _LARGEST:
            raise ValueError(f"the files have more than {_LARGEST // 2**20} MiB")
    return texts


def _text(path: Path) -> str:
    """The text of a file. Raises `OSError` if it can't be read, and `ValueError` if it isn't UTF-8."""
    try:
        return path.read_bytes().decode()
    except UnicodeDecodeError as error:
        raise ValueError(f"{path} isn't UTF-8: {error}") from error
