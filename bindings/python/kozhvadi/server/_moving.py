"""Files that are renamed: those of the reference take their translations with them."""

from __future__ import annotations

import os
from pathlib import Path

from .._project_file import ProjectFile
from ._documents import path_of
from ._files import Listing
from ._session import Params
from ._wire import Json
from ._workspace import Workspace, is_language

# What a client reports before it renames: sources, and folders.
FILTERS = [
    {"pattern": {"glob": "**/*.ftl", "matches": "file"}},
    {"pattern": {"glob": "**/*", "matches": "folder"}},
]


class Moving:
    """Answers what else is renamed."""

    def __init__(self, workspace: Workspace) -> None:
        self._workspace = workspace
        self.can_rename = False

    def moves(self, params: Params) -> Json | None:
        """The edit that renames the translations of a file or folder of the reference, as it is renamed."""
        if not self.can_rename:
            return None
        moved: dict[Path, Path] = {}
        for each in params["files"].items:
            old, new = path_of(each["oldUri"].text), path_of(each["newUri"].text)
            if old and new:
                moved.update(self._translations(old, new))
        changes = [
            {"kind": "rename", "oldUri": old.as_uri(), "newUri": new.as_uri(), "options": {"ignoreIfExists": True}}
            for old, new in moved.items()
        ]
        return {"documentChanges": changes} if changes else None

    def _translations(self, old: Path, new: Path) -> dict[Path, Path]:
        """Where the translations of a file of the reference are, and where they will be."""
        project = self._workspace.project(old)
        if project:
            return _in_project(project, old, new)
        reference = self._workspace.reference_folder(old)
        if reference is None or not (old.is_relative_to(reference) and new.is_relative_to(reference)):
            return {}
        if old == reference:
            return {}
        languages = [folder for folder in _folders(reference.parent) if folder != reference]
        pairs = {each / old.relative_to(reference): each / new.relative_to(reference) for each in languages}
        return {there: then for there, then in pairs.items() if there.exists() and not then.exists()}


def _in_project(project: ProjectFile, old: Path, new: Path) -> dict[Path, Path]:
    """The same in a project, also for each file below a folder."""
    below = Listing(old, below=True).files if old.is_dir() else []
    moved = {file.path: new / file.path.relative_to(old) for file in below} or {old: new}
    pairs: dict[Path, Path] = {}
    for original, renamed in moved.items():
        for locale in project.locales:
            there = project.translation(os.fspath(original), locale)
            then = project.translation(os.fspath(renamed), locale)
            if there and then and os.path.exists(there) and not os.path.exists(then):
                pairs[Path(there)] = Path(then)
    return pairs


def _folders(parent: Path) -> list[Path]:
    """The folders of languages in a folder."""
    try:
        return sorted(each for each in parent.iterdir() if is_language(each.name) and each.is_dir())
    except OSError:
        return []
