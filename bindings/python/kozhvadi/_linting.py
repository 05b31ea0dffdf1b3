"""What is wrong with the files of a catalog, and their tidy text."""

from __future__ import annotations

import ctypes
import json
from collections.abc import Iterable, Mapping
from dataclasses import dataclass
from typing import NoReturn, Union

from . import _library as c
from ._errors import FluentError, UnknownLocaleError
from ._values import encoded

Files = Union[Mapping[str, str], Iterable[tuple[str, str]]]

# Files for the library, and how many.
_Array = tuple["ctypes.Array[c.FluentFile]", int]

# The codes of findings of what can't be read.
UNREAD = frozenset({"syntax", "byte-order-mark"})

_CARRIAGE_RETURN = "a carriage return ends no line"
_NOT_TIDY = "what would be written isn't read as the same messages"


@dataclass(frozen=True)
class Finding:
    """Something that is wrong at a place of a file.

    `line` and `column` count from 1, and a column counts characters; `offset` counts the bytes before the place in the
    UTF-8 of the text. `severity` is "error", "warning" or "note", and `code` the name of the kind, as "unknown-term".
    `entry` is the id of the message or term, with a dot and the name of the attribute if it is in one.
    """

    file: str
    line: int
    column: int
    offset: int
    severity: str
    code: str
    entry: str | None
    text: str
    hint: str | None

    def __str__(self) -> str:
        of = f"{self.entry}: " if self.entry else ""
        return f"{self.file}:{self.line}:{self.column}: {self.severity}: {of}{self.text} [{self.code}]"


@dataclass(frozen=True)
class FileCounts:
    """How many messages a file has, and how many of them are missing, obsolete and untranslated: `None` if that isn't
    counted for the file."""

    file: str
    messages: int
    missing: int | None
    obsolete: int | None
    untranslated: int | None


@dataclass(frozen=True)
class Report:
    """What is found in a catalog. `status` is 1 if there is an error, or with `strict` a warning, and else 0. `counts`
    has each file, if there is a reference."""

    findings: list[Finding]
    counts: list[FileCounts]
    status: int


class TidyError(FluentError, ValueError):
    """A source has no tidy text. `reason` says why.

    `line` and `column` count from 1 and say where the source can't be read. They are `None` if it is read, but has a
    carriage return that ends no line, or would be read as other messages once it is written.
    """

    def __init__(self, reason: str, line: int | None = None, column: int | None = None) -> None:
        super().__init__(reason if line is None else f"line {line}, column {column}: {reason}")
        self.reason, self.line, self.column = reason, line, column


def lint(
    files: Files,
    *,
    reference: Files = (),
    locale: str | None = None,
    functions: Iterable[str] = (),
    notes: bool = False,
    strict: bool = False,
) -> Report:
    """What is wrong with the files of a catalog, as `ftl lint` reports it. `files` has their names and texts.

    >>> report = lint({"de.ftl": "hi = Hallo, { -brand }!\\n"})
    >>> for finding in report.findings:
    ...     print(finding)
    de.ftl:1:15: error: hi: there is no term `-brand` [unknown-term]
    >>> report.status
    1

    `reference` has the files that the catalog is translated from: the two are compared. `locale` names the language whose
    plural categories are looked for, and `functions` are those of the program but `NUMBER` and `DATETIME`. With `notes` notes are reported, too, but
    for those of the group `texts`, and with `strict` warnings count for the status.

    Raises `UnknownLocaleError` if the locale is no tag of a language, `ValueError` if a name or a text can't be written in
    UTF-8, and `MemoryError` if a text nests too deep for 1.5 MB of the machine's stack.
    """
    if isinstance(functions, (str, bytes)):
        raise TypeError(f"functions is a list of names, and not one: {functions!r}")
    names, name_count = c.sources([b"DATETIME", *(encoded(name, "the function", name) for name in functions)])
    tag = b"" if locale is None else encoded(locale, "the locale")
    options = c.FluentLintOptions(names, name_count, tag, len(tag), bool(notes), bool(strict))
    lines, has_errors = _lines(_files(files, "files"), _files(reference, "reference"), options)
    return _report(lines, int(has_errors))


def findings_of(sources: list[tuple[str, bytes]]) -> list[Finding]:
    """What `lint` finds in texts in UTF-8, which aren't copied. Raises `MemoryError` if one nests too deep."""
    names, name_count = c.sources([b"DATETIME"])
    options = c.FluentLintOptions(names, name_count, b"", 0, False, False)
    given = _array([(name.encode(), text) for name, text in sources])
    return _report(_lines(given, _array([]), options)[0], 0).findings


def _lines(given: _Array, compared: _Array, options: c.FluentLintOptions) -> tuple[list[str], bool]:
    """The lines of the library's report, and whether there is an error."""
    text = c.FluentText()
    try:
        status = c.library.fluent_lint(*given, *compared, options, text)
        if status == c.UNKNOWN_LOCALE:
            tag = options.locale.decode()
            raise UnknownLocaleError(f"the locale {tag!r} is no tag of a language")
        if status not in (c.READ, c.HAS_ERRORS):
            refuse(status, "the report")
        return c.lines_of(text), status == c.HAS_ERRORS
    finally:
        c.library.fluent_free_text(text)


def tidy(source: str) -> str:
    """The tidy text of a source, as a formatter writes it: it has the same messages, terms and comments.

    >>> tidy("hi   =Hallo, {$name}!\\n\\n\\n\\nbye= Bis bald.")
    'hi = Hallo, { $name }!\\n\\nbye = Bis bald.\\n'

    A byte order mark is left out, and lines end in LF. Raises `TidyError` if there is no such text, with the line if the
    source can't be read there, `ValueError` if it can't be written in UTF-8, and `MemoryError` if it nests too deep for
    1.5 MB of the machine's stack.
    """
    data = encoded(source, "the source")
    text, place = c.FluentText(), c.FluentPlace()
    try:
        status = c.library.fluent_tidy(data, len(data), text, place)
        if status == c.READ:
            return c.string_of(text)
    finally:
        c.library.fluent_free_text(text)
    if status == c.DAMAGED:
        raise TidyError(_damage(source), place.line, place.column)
    if status in (c.CARRIAGE_RETURN, c.NOT_TIDY):
        raise TidyError(_CARRIAGE_RETURN if status == c.CARRIAGE_RETURN else _NOT_TIDY)
    refuse(status, "the source")


def _damage(source: str) -> str:
    """Why a source can't be read where it first can't."""
    plain = source.removeprefix("\ufeff").replace("\r\n", "\n")
    return next(finding.text for finding in lint({"": plain}).findings if finding.code in UNREAD)


def _files(files: Files, what: str) -> _Array:
    if isinstance(files, (str, bytes)):
        raise TypeError(f"{what} has names and texts, and isn't one: {type(files).__name__}")
    pairs = files.items() if isinstance(files, Mapping) else files
    return _array(
        [(encoded(name, "the name of a file"), encoded(text, "the text of the file", name)) for name, text in pairs]
    )


def _array(pairs: list[tuple[bytes, bytes]]) -> _Array:
    """Files in an array, which has a place even if there are none."""
    given = [c.FluentFile(name, len(name), text, len(text)) for name, text in pairs]
    return (c.FluentFile * max(len(given), 1))(*given), len(given)


def _report(lines: list[str], status: int) -> Report:
    findings, counts = [], []
    for line in lines:
        found = json.loads(line)
        if "code" in found:
            findings.append(Finding(*(found[key] for key in Finding.__dataclass_fields__)))
        else:
            counts.append(FileCounts(*(found[key] for key in FileCounts.__dataclass_fields__)))
    return Report(findings, counts, status)


def refuse(status: int, what: str) -> NoReturn:
    """Raises why the library returns this status."""
    if status == c.NO_MEMORY:
        raise MemoryError(f"{what} nests too deep for {c.THREAD_STACK} bytes of the stack, or memory ran out")
    raise FluentError(f"the library refuses {what}: status {status}")
