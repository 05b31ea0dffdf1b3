"""Reads a project's file, `l10n.toml`, and the files that it includes."""

from __future__ import annotations

import os
import posixpath
import re
import sys
from collections.abc import Callable, Iterator, Mapping, Sequence
from dataclasses import dataclass, field
from pathlib import Path
from typing import Any, NamedTuple

from ._patterns import LOCALE, WILDCARD, Part, Pattern, below, parts_of

if sys.version_info >= (3, 11):
    import tomllib

_TAG = re.compile(r"[A-Za-z0-9]+(?:[-_@.][A-Za-z0-9]+)*")
_HEAD = re.compile(r"\s*\[\[?\s*([\w.]+)\s*\]")
_KEYS_OF_PATHS = ("reference", "l10n", "locales", "test", "module")
_CATALOGS = ("language", "folder", "file")
_ACTIONS = ("ignore", "warning", "error")
# Files that are larger aren't read, and variables that are deeper in each other, or stand for more, are refused.
_LARGEST = 1 << 20
_DEEPEST, _MOST_PARTS = 50, 1_000


class Wrong(Exception):
    """A project's file is wrong: the text has the file, the line and the reason."""


class Rule(NamedTuple):
    """Which files are translations, and of which files; without a reference they aren't compared."""

    reference: Pattern | None
    l10n: Pattern
    locales: list[str] | None


class Filter(NamedTuple):
    """What is said of files, or with a key of messages in them: to leave them out, or not."""

    path: Pattern
    key: re.Pattern[str] | None
    action: str


@dataclass
class ProjectSource:
    """What one file says, with the files that it includes and excludes."""

    path: Path
    locales: list[str] | None
    rules: list[Rule] = field(default_factory=list)
    filters: list[Filter] = field(default_factory=list)
    includes: list[ProjectSource] = field(default_factory=list)
    excludes: list[ProjectSource] = field(default_factory=list)
    own: Mapping[str, Any] = field(default_factory=dict)
    line_of_reference: int | None = None

    @property
    def all(self) -> list[ProjectSource]:
        """It and all that it includes, itself or by another one."""
        return [self, *(each for include in self.includes for each in include.all)]

    @property
    def paths(self) -> list[Path]:
        """All files that were read for it."""
        left = [*self.includes, *self.excludes]
        return [self.path, *(path for each in left for path in each.paths)]


def read(path: Path) -> ProjectSource:
    """Reads a project's file. Raises `Wrong`."""
    return _Reader(path, path.parent, ()).source()


class _Reader:
    """The tables of a file, and the lines of its keys."""

    def __init__(self, path: Path, top: Path, above: tuple[Path, ...]) -> None:
        self._path, self._top, self._above = path, top, above
        self._name = os.path.relpath(path, top)
        self._text = ""
        self._text = self._read_text()
        self._data = self._read_tables()
        base = self._value(None, 0, "basepath", _is_text, "a path", ".")
        self._root = posixpath.normpath(posixpath.join(os.fspath(path.parent), base))
        self._env = self._value("env", 0, "env", _is_table, "a table", {}, self._data)
        for name in self._env:
            self._value("env", 0, name, _is_text, "a text", "", self._env)

    def source(self) -> ProjectSource:
        """What the file says."""
        locales = self._value(None, 0, "locales", _is_locales, "a list of different languages", None)
        made = ProjectSource(self._path, locales)
        made.rules = [self._rule(number, each) for number, each in enumerate(self._tables("paths"))]
        for number, each in enumerate(self._tables("filters")):
            made.filters += self._filters(number, each)
        made.includes = [self._other("includes", *each) for each in enumerate(self._tables("includes"))]
        made.excludes = [self._other("excludes", *each) for each in enumerate(self._tables("excludes"))]
        made.own = self._own()
        first = next((number for number, each in enumerate(made.rules) if each.reference), None)
        made.line_of_reference = None if first is None else self._line("paths", first, "reference")
        return made

    def _read_text(self) -> str:
        try:
            if self._path.stat().st_size > _LARGEST:
                raise self._wrong(None, 0, "", f"the file is larger than {_LARGEST >> 20} MiB")
            return self._path.read_bytes().decode()
        except OSError as error:
            raise self._wrong(None, 0, "", f"it can't be read: {(error.strerror or str(error)).lower()}") from error
        except UnicodeDecodeError as error:
            raise self._wrong(None, 0, "", "it isn't UTF-8") from error

    def _read_tables(self) -> dict[str, Any]:
        if sys.version_info < (3, 11):
            raise self._wrong(None, 0, "", "Python 3.11 is needed to read it")
        try:
            return tomllib.loads(self._text)
        except tomllib.TOMLDecodeError as error:
            found = re.search(r" \(at (?:line ([0-9]+), column [0-9]+|end of document)\)", str(error))
            line = found[1] if found and found[1] else self._text.count("\n") + 1
            raise Wrong(f"{self._name}:{line}: {str(error).partition(' (at ')[0]}") from error
        except RecursionError as error:
            raise self._wrong(None, 0, "", "it nests too deep") from error

    def _wrong(self, table: str | None, number: int, key: str, words: str) -> Wrong:
        return Wrong(f"{self._name}:{self._line(table, number, key)}: {words}")

    def _line(self, table: str | None, number: int, key: str) -> int:
        """The line of a key in one of the tables of a name, or at the top; without it that of the table's head, or 1."""
        assigned = re.compile(rf"""\s*["']?{re.escape(key)}["']?\s*=""")
        head, current, seen = 1, None, -1
        for line, text in enumerate(self._text.split("\n"), 1):
            found = _HEAD.match(text)
            if found:
                current = found[1]
                seen += current == table
                if current == table and seen == number:
                    head = line
            elif current == table and (table is None or seen == number) and assigned.match(text):
                return line
        return head

    def _value(
        self,
        table: str | None,
        number: int,
        key: str,
        is_fit: Callable[[object], bool],
        words: str,
        otherwise: Any,
        holder: Mapping[str, Any] | None = None,
    ) -> Any:
        """The value of a key, or another one if it isn't there."""
        value = (self._data if holder is None else holder).get(key, otherwise)
        if value is not otherwise and not is_fit(value):
            raise self._wrong(table, number, key, f"`{key}` isn't {words}")
        return value

    def _tables(self, name: str) -> list[dict[str, Any]]:
        found: list[dict[str, Any]] = self._value(name, 0, name, _is_tables, f"written as [[{name}]]", [])
        return found

    def _rule(self, number: int, given: dict[str, Any]) -> Rule:
        for key in given:
            if key not in _KEYS_OF_PATHS:
                raise self._wrong("paths", number, key, f"[[paths]] has no key `{key}`")
        if "l10n" not in given:
            raise self._wrong("paths", number, "l10n", "[[paths]] has no `l10n`")
        locales = self._value("paths", number, "locales", _is_locales, "a list of different languages", None, given)
        l10n = self._pattern("paths", number, "l10n", given["l10n"])
        reference = self._pattern("paths", number, "reference", given["reference"]) if "reference" in given else None
        if reference and reference.has_locale:
            raise self._wrong("paths", number, "reference", "`reference` has {locale} in it")
        if reference and reference.wildcards != l10n.wildcards:
            raise self._wrong("paths", number, "l10n", "the wildcards of `reference` and `l10n` differ")
        if not l10n.has_locale and len(locales or []) != 1:
            raise self._wrong("paths", number, "l10n", "`l10n` has no {locale}, and `locales` isn't one language")
        return Rule(reference, l10n, locales)

    def _filters(self, number: int, given: dict[str, Any]) -> Iterator[Filter]:
        for key in ("path", "action"):
            if key not in given:
                raise self._wrong("filters", number, key, f"[[filters]] has no `{key}`")
        if given["action"] not in _ACTIONS:
            raise self._wrong("filters", number, "action", f"`action` is none of {', '.join(_ACTIONS)}")
        paths = self._value("filters", number, "path", _is_texts, "a pattern or a list of them", "", given)
        keys = self._value("filters", number, "key", _is_texts, "a text or a list of them", None, given)
        for path in _listed(paths):
            pattern = self._pattern("filters", number, "path", path)
            for key in [None] if keys is None else _listed(keys):
                yield Filter(pattern, self._key(number, key), given["action"])

    def _key(self, number: int, key: str | None) -> re.Pattern[str] | None:
        if key is None:
            return None
        try:
            return re.compile(key[3:] if key.startswith("re:") else rf"{re.escape(key)}\Z")
        except (re.error, OverflowError, RecursionError) as error:
            raise self._wrong("filters", number, "key", "`key` isn't a regular expression") from error

    def _other(self, table: str, number: int, given: dict[str, Any]) -> ProjectSource:
        """A file that is included or excluded."""
        if not _is_text(given.get("path")):
            raise self._wrong(table, number, "path", f"[[{table}]] has no `path`")
        path = Path(self._pattern(table, number, "path", given["path"]).filled((), "{locale}"))
        if not path.is_file():
            raise self._wrong(table, number, "path", f"there is no file {given['path']}")
        if path in (*self._above, self._path):
            raise self._wrong(table, number, "path", "the file includes itself")
        return _Reader(path, self._top, (*self._above, self._path)).source()

    def _own(self) -> Mapping[str, Any]:
        """The table of this program."""
        own: dict[str, Any] = self._value("kozhvadi", 0, "kozhvadi", _is_table, "a table", {}, self._data)
        for key in own:
            if key not in ("functions", "ignore", "catalog"):
                raise self._wrong("kozhvadi", 0, key, f"[kozhvadi] has no key `{key}`")
        self._value("kozhvadi", 0, "functions", _is_names, "a list of names", None, own)
        self._value("kozhvadi", 0, "ignore", _is_names, "a list of names", None, own)
        self._value("kozhvadi", 0, "catalog", _CATALOGS.__contains__, f"one of {', '.join(_CATALOGS)}", None, own)
        return own

    def _pattern(self, table: str, number: int, key: str, written: object) -> Pattern:
        if not isinstance(written, str) or not _is_text(written):
            raise self._wrong(table, number, key, f"`{key}` isn't a pattern")
        if table in ("includes", "excludes") and "*" in written:
            raise self._wrong(table, number, key, f"`{key}` isn't the path of one file")
        return below(self._root, self._parts(table, number, key, written, ()))

    def _parts(self, table: str, number: int, key: str, written: str, within: tuple[str, ...]) -> Sequence[Part]:
        def named(name: str) -> Sequence[Part]:
            if name == LOCALE:
                return [Part(LOCALE, LOCALE)]
            if name == "android_locale":
                raise self._wrong(table, number, key, "{android_locale} isn't supported")
            if name not in self._env:
                raise self._wrong(table, number, key, f"there is no variable {{{name}}} in [env]")
            if name in within:
                raise self._wrong("env", 0, name, f"the variable {{{name}}} has itself in it")
            if len(within) == _DEEPEST:
                raise self._wrong("env", 0, name, "variables are too deep in each other")
            parts = self._parts("env", 0, name, self._env[name], (*within, name))
            if any(each.kind == WILDCARD for each in parts):
                raise self._wrong("env", 0, name, "a variable has a wildcard in it")
            return parts

        parts = []
        for part in parts_of(written, named):
            parts.append(part)
            if len(parts) > _MOST_PARTS:
                raise self._wrong(table, number, key, f"`{key}` is too long")
        return parts


def _is_text(value: object) -> bool:
    return isinstance(value, str) and value != "" and "\0" not in value


def _is_texts(value: object) -> bool:
    return _is_text(value) or (isinstance(value, list) and bool(value) and all(map(_is_text, value)))


def _is_names(value: object) -> bool:
    return isinstance(value, list) and all(map(_is_text, value))


def _is_table(value: object) -> bool:
    return isinstance(value, dict)


def _is_tables(value: object) -> bool:
    return isinstance(value, list) and all(map(_is_table, value))


def _is_locales(value: object) -> bool:
    if not isinstance(value, list) or not all(isinstance(each, str) and _TAG.fullmatch(each) for each in value):
        return False
    return len(set(value)) == len(value)


def _listed(value: str | list[str]) -> list[str]:
    return value if isinstance(value, list) else [value]
