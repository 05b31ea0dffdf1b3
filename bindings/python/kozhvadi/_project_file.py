"""A project: which files are in which language, and which file of the reference each translates."""

from __future__ import annotations

import os
from collections.abc import Callable, Iterable, Iterator
from pathlib import Path
from typing import NamedTuple

from ._project_reading import ProjectSource, Rule, Wrong, read

NAME = "l10n.toml"

# The files at or below a path, as texts.
Lists = Callable[[str], Iterable[str]]


def file_above(path: Path) -> Path | None:
    """The nearest project's file in the folder of a path, or above it."""
    return next(filter(Path.is_file, (folder / NAME for folder in path.parents)), None)


class Placed(NamedTuple):
    """What a project says of a file: its language, and the file that it translates. A file of the reference has none."""

    locale: str | None
    reference: str | None


class ProjectFile:
    """A project's file with all that it includes. Paths are complete, and texts."""

    def __init__(self, source: ProjectSource) -> None:
        self.path, self.paths = source.path, source.paths
        self.functions: list[str] = source.own.get("functions") or []
        self.catalog: str | None = source.own.get("catalog")
        self._line_of_reference = source.line_of_reference
        self._sources = source.all
        declared = [each.locales or [] for each in self._sources]
        declared += [rule.locales or [] for each in self._sources for rule in each.rules]
        self.locales = sorted({locale for locales in declared for locale in locales})
        if not self.locales:
            raise Wrong(f"{self.path.name}:1: there is no language: `locales` is missing")

    @staticmethod
    def read(path: Path) -> ProjectFile:
        """Reads a project's file. Raises `Wrong`."""
        try:
            return ProjectFile(read(path))
        except RecursionError as error:
            raise Wrong(f"{path.name}:1: it nests too deep") from error

    def rules(self, locale: str) -> list[Rule]:
        """The rules for a language, the one that counts first first."""
        return list(_rules(self._sources, locale))[::-1]

    def is_reference(self, path: str) -> bool:
        """Whether a file is one of those that others translate."""
        rules = (rule for each in self._sources for rule in each.rules)
        return any(rule.reference and rule.reference.texts(path) is not None for rule in rules)

    def placed(self, path: str, exists: Callable[[str], bool]) -> Placed | None:
        """What the project says of a file. Nothing if it isn't one of its files."""
        if self.is_reference(path):
            return Placed(None, None)
        for locale in self.locales:
            matches = [(rule, rule.l10n.texts(path, locale)) for rule in self.rules(locale)]
            found = [(rule, texts) for rule, texts in matches if texts is not None]
            if found and not self._is_excluded(path, locale):
                originals = (rule.reference.filled(texts, "") for rule, texts in found if rule.reference)
                return Placed(locale, next(filter(exists, originals), None))
        return None

    def translation(self, original: str, locale: str) -> str | None:
        """Where the translation of a file of the reference belongs."""
        for rule in self.rules(locale):
            texts = rule.reference.texts(original) if rule.reference else None
            if texts is not None:
                return rule.l10n.filled(texts, locale)
        return None

    def pairs(self, locale: str, lists: Lists) -> dict[str, str | None]:
        """The files of a language, whether they exist or not, with the file of the reference that each translates."""
        found: dict[str, str | None] = {}
        rules = self.rules(locale)
        for rule in rules:
            for original, texts in _matching(rule, lists):
                found.setdefault(rule.l10n.filled(texts, locale), original)
        for rule in rules:
            for path in lists(rule.l10n.start(locale)):
                if path not in found and rule.l10n.texts(path, locale) is not None:
                    found[path] = None
        return {
            path: original
            for path, original in sorted(found.items(), key=lambda each: os.fsencode(each[0]))
            if not self.is_reference(path) and not self._is_excluded(path, locale)
        }

    def references(self, lists: Lists) -> list[str]:
        """All files of the reference."""
        rules = (rule for each in self._sources for rule in each.rules)
        found = {original for rule in rules for original, _ in _matching(rule, lists)}
        return sorted(found, key=os.fsencode)

    def without_reference(self, lists: Lists) -> str | None:
        """Says that no file matches any `reference`, if there is one."""
        if self._line_of_reference is None or self.references(lists):
            return None
        return f"{self.path.name}:{self._line_of_reference}: no file matches `reference`"

    def is_left_out(self, path: str, locale: str, key: str | None = None) -> bool:
        """Whether the project's filters leave out a file, or with a key a message of it."""
        actions = set()
        for source in self._sources:
            if any(rule.l10n.texts(path, locale) is not None for rule in _rules([source], locale)):
                actions.add(_action(source, path, locale, key))
        return actions == {"ignore"}

    def _is_excluded(self, path: str, locale: str) -> bool:
        excluded = (other.all for each in self._sources for other in each.excludes)
        return any(rule.l10n.texts(path, locale) is not None for each in excluded for rule in _rules(each, locale))


def _rules(sources: Iterable[ProjectSource], locale: str) -> Iterator[Rule]:
    """The rules for a language, in their order."""
    for source in sources:
        if source.locales is None or locale in source.locales:
            yield from (rule for rule in source.rules if rule.locales is None or locale in rule.locales)


def _matching(rule: Rule, lists: Lists) -> Iterator[tuple[str, tuple[str, ...]]]:
    """The files of the reference of a rule, with what the wildcards stand for."""
    if rule.reference:
        for path in lists(rule.reference.start()):
            texts = rule.reference.texts(path)
            if texts is not None:
                yield path, texts


def _action(source: ProjectSource, path: str, locale: str, key: str | None) -> str:
    """What the last filter of a source says that is about a file, or a message of it."""
    for each in reversed(source.filters):
        if (each.key is None) == (key is None) and each.path.texts(path, locale) is not None:
            if each.key is None or key is None or each.key.match(key):
                return each.action
    return "error"
