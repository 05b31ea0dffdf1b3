"""What is wrong with the sources of a bundle, in the words of `lint`."""

from __future__ import annotations

from collections.abc import Collection

from ._errors import SourceError
from ._linting import UNREAD, Finding, findings_of

# The names of sources, and their texts in UTF-8.
Sources = list[tuple[str, bytes]]


def source_errors(report: list[str], sources: Sources, overriding: bool) -> list[SourceError]:
    """The errors that the lines of a report are, such as `source 1: bytes 7..8: ExpectedToken`.

    First come those of the sources, in turn, and then the entries whose id was there before.
    """
    broken = [line for line in report if line.startswith("source ")]
    taken = report[len(broken) :]
    found = _findings(sources) if report else []
    syntax, doubles = _of_codes(found, UNREAD, len(broken)), _of_codes(found, {"duplicate-id"}, len(taken))
    errors = [_error(line, sources, finding) for line, finding in zip(broken, syntax)]
    return errors + [_double(line, finding, overriding) for line, finding in zip(taken, doubles)]


def too_deep(name: str, line: int | None, stack: int) -> SourceError:
    """The error of a source that nests too deep, and the line on which the message or term begins, if that is known."""
    place = name if line is None else f"{name}:{line}:1"
    column = None if line is None else 1
    return SourceError(f"{place}: nests too deep for {stack} bytes of the stack", "TooDeep", name, line, column)


def _findings(sources: Sources) -> list[Finding]:
    """What `lint` finds. It is nothing if a source nests too deep for that: a bundle may have more stack."""
    try:
        return findings_of(sources)
    except MemoryError:
        return []


def _of_codes(found: list[Finding], codes: Collection[str], count: int) -> list[Finding | None]:
    """The findings of some codes, or nothing this many times if there are others than the report has lines."""
    of_codes: list[Finding | None] = [finding for finding in found if finding.code in codes]
    return of_codes if len(of_codes) == count else [None] * count


def _error(line: str, sources: Sources, finding: Finding | None) -> SourceError:
    number, _, told = line.removeprefix("source ").partition(": bytes ")
    place, _, kind = told.partition(": ")
    name, text = sources[int(number) - 1]
    before = text[: int(place.partition("..")[0])]
    row = before.count(b"\n") + 1
    column = len(before[before.rfind(b"\n") + 1 :].decode(errors="replace")) + 1
    words = finding.text if finding else kind
    return SourceError(f"{name}:{row}:{column}: {words}", kind, name, row, column)


def _double(line: str, finding: Finding | None, overriding: bool) -> SourceError:
    if finding is None:
        return SourceError(line, "Overriding")
    words = line if overriding else finding.text
    shown = f"{finding.file}:{finding.line}:{finding.column}: {words}"
    return SourceError(shown, "Overriding", finding.file, finding.line, finding.column)
