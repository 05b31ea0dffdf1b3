"""The files of a folder, and what is in them."""

from __future__ import annotations

import errno
import os
import stat
from collections.abc import Callable, Container
from pathlib import Path
from typing import NamedTuple

from ._documents import MARK, Document, Unread, real_path

# More files or folders of a workspace aren't looked into, and neither is a file with more bytes, nor a folder of one of
# these names, or whose name begins with a dot.
_MOST = 20_000
_LARGEST = 64 * 2**20
_PASSED_OVER = {"node_modules", "__pycache__", "target", "dist"}

# Errors of a path that leads nowhere, as a link to a file that was removed, or a loop of links.
_NOTHING = {errno.ENOENT, errno.ENOTDIR, errno.ELOOP}


class Listed(NamedTuple):
    """A file in a folder, and its path without symbolic links."""

    path: Path
    real: Path


class Listing:
    """The sources in a folder, by their names, and the folders that can't be listed.

    With `below` those in its folders follow, but not those in a folder that is a symbolic link.
    """

    def __init__(self, folder: Path, *, below: bool) -> None:
        self.files: list[Listed] = []
        self.unread: list[Unread] = []
        left, count = [Listed(folder, real_path(folder))], 0
        while left and max(count, len(self.files)) < _MOST:
            folders = self._list(left.pop())
            count += 1
            if below:
                left += reversed(folders)
        del self.files[_MOST:]

    def _list(self, folder: Listed) -> list[Listed]:
        """Takes the files of a folder, and returns its folders."""
        try:
            with os.scandir(folder.path) as entries:
                found = sorted(entries, key=lambda entry: entry.name)
        except OSError as error:
            if error.errno in _NOTHING:
                return []
            self.unread.append(Unread(folder.path, f"can't be listed: {_reason(error)}"))
            return []
        folders = []
        for entry in found:
            path, real = Path(entry.path), folder.real / entry.name
            if not _is_folder(entry):
                if entry.name.endswith(".ftl"):
                    self.files.append(Listed(path, real_path(path) if entry.is_symlink() else real))
            elif not (entry.is_symlink() or entry.name.startswith(".") or entry.name in _PASSED_OVER):
                folders.append(Listed(path, real))
        return folders


def _is_folder(entry: os.DirEntry[str]) -> bool:
    try:
        return entry.is_dir()
    except OSError:
        return False


class Files:
    """What was read of files, by their paths without symbolic links, as long as they don't change."""

    def __init__(self) -> None:
        self._read: dict[Path, tuple[tuple[int, ...], Document | Unread]] = {}
        self.counts_bytes = False

    def read(self, path: Path, shown: Callable[[], Path]) -> Document | Unread | None:
        """The file at a path without symbolic links, and the path by which it is named. Nothing if there is no file."""
        try:
            status = path.stat()
        except OSError as error:
            if error.errno in _NOTHING:
                return None
            return Unread(shown(), f"can't be read: {_reason(error)}")
        if not stat.S_ISREG(status.st_mode):
            return None
        stamp = (status.st_mtime_ns, status.st_size, status.st_ino)
        kept = self._read.get(path)
        if kept is None or kept[0] != stamp:
            kept = self._read[path] = stamp, _read(path, shown(), status.st_size, self.counts_bytes)
        return kept[1]

    def keep(self, paths: Container[Path]) -> None:
        """Forgets the other files."""
        self._read = {path: kept for path, kept in self._read.items() if path in paths}

    def clear(self) -> None:
        """Forgets all files."""
        self._read.clear()


def _read(path: Path, shown: Path, size: int, counts_bytes: bool) -> Document | Unread:
    if size > _LARGEST:
        return Unread(shown, f"is larger than {_LARGEST // 2**20} MiB")
    try:
        text = path.read_bytes().decode()
    except UnicodeDecodeError:
        return Unread(shown, "isn't UTF-8")
    except OSError as error:
        return Unread(shown, f"can't be read: {_reason(error)}")
    mark = MARK if text.startswith(MARK) else ""
    return Document(shown.as_uri(), text.removeprefix(mark), path=shown, mark=mark, counts_bytes=counts_bytes)


def mark_of(path: Path) -> str:
    """The byte order mark with which a file begins, if it does."""
    try:
        if path.is_file():
            with path.open("rb") as file:
                return MARK if file.read(len(MARK.encode())) == MARK.encode() else ""
    except OSError:
        pass
    return ""


def inode_of(path: Path) -> tuple[int, int] | None:
    """What the names of one file have in common, if there is a file."""
    try:
        status = path.stat()
    except OSError:
        return None
    return status.st_dev, status.st_ino


def _reason(error: OSError) -> str:
    return (error.strerror or str(error)).lower()
