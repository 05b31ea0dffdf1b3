"""What the page shows of a source: findings, messages, and their texts."""

from __future__ import annotations

import datetime
import re
from collections import Counter
from collections.abc import Iterable
from dataclasses import dataclass, field
from functools import lru_cache
from typing import Any

from .._bundle import Bundle
from .._errors import FluentError, MissingMessageError
from .._fixes import extent, fixes
from .._linting import Finding, TidyError, lint, tidy
from .._places import Places
from .._samples import Case, Catalog, Sample, Variable, categories, has_rules, known
from .._scan import Entry
from .._values import Number

Json = dict[str, Any]

# More messages and findings aren't shown: of messages those near the caret are.
_MOST = 200

# To look for near names takes longest, so only this many findings have fixes.
_MENDED = 20

_NUMBER = re.compile(r"-?[0-9]{1,19}(?:\.[0-9]{1,18})?")

# The languages that the page offers, of which those without plural rules are left out.
_LANGUAGES = """
    af am ar as az be bg bn br bs ca cs cy da de el en en-GB eo es es-MX et eu fa fi fil fr fr-CA fy ga gd gl gu gv ha he
    hi hr hsb hu hy ia id ig is it ja ka kk km kn ko kw ky lb lo lt lv mk ml mn mr ms mt my nb ne nl nn or pa pl ps pt
    pt-PT rm ro ru sc sd si sk sl so sq sr sr-Latn sv sw ta te tg th tk tr tt ug uk ur uz vi wo xh yi yo zh zh-Hant zu
""".split()


def languages() -> list[str]:
    """The tags of the languages that the page offers."""
    return [tag for tag in _LANGUAGES if has_rules(tag)]


@dataclass
class Asked:
    """What a page asks about: the file that it shows, in a language, with arguments by the names of their variables.

    `others` has the texts of the files that are loaded with it, and `references` those of the reference: the one of the
    same name is that of the page. `at` is the place of the caret, in code units of UTF-16.
    """

    source: str
    reference: str = ""
    locale: str = "en"
    arguments: dict[str, str] = field(default_factory=dict)
    name: str = "source.ftl"
    others: dict[str, str] = field(default_factory=dict)
    references: dict[str, str] = field(default_factory=dict)
    at: int = 0


def looked_at(asked: Asked) -> Json:
    """What the page shows of a file."""
    files = dict(sorted({**asked.others, asked.name: asked.source}.items()))
    references = {f"reference/{name}": text for name, text in asked.references.items()}
    compared_name = f"reference/{asked.name}"
    if asked.reference.strip() or compared_name in references:
        references[compared_name] = asked.reference
    places, compared = _places(asked.source.encode()), _places(asked.reference.encode())
    locale = asked.locale
    found: Json = {"locale": known(locale), "rules": has_rules(locale), "problem": None, "counts": {}}
    found["categories"] = _shown(categories(locale))
    report: list[Finding] = []
    found["messages"], found["more"] = [], 0
    try:
        report = lint(files, reference=references, locale=known(locale), notes=bool(references)).findings
        with Bundle([f"{text}\n" for text in files.values()], locale=known(locale)) as bundle:
            catalog = Catalog(_places(text.encode()) for text in files.values())
            found["messages"], found["more"] = _messages(bundle, catalog, places, asked)
    except MemoryError:
        found["problem"] = "A source nests too deep, so that nothing of it can be read."
    else:
        found["counts"] = _counts(report, files)
        of_reference = Catalog(_places(text.encode()) for text in references.values())
        named = {"source": (asked.name, places), "reference": (compared_name, compared)}
        found["findings"] = _findings(report, named, catalog, of_reference)
    found.setdefault("findings", [])
    return found


@lru_cache(maxsize=2_000)
def _places(source: bytes) -> Places:
    """The places of a source. Those of files that stay as they are are kept."""
    return Places(source)


def _counts(report: list[Finding], files: dict[str, str]) -> dict[str, dict[str, int]]:
    """How many findings of each severity each file has that has any."""
    counts: dict[str, Counter[str]] = {}
    for finding in report:
        if finding.file in files:
            counts.setdefault(finding.file, Counter())[finding.severity] += 1
    return {name: dict(each) for name, each in counts.items()}


def tidied(source: str) -> Json:
    """The tidy text of a source, or why it has none."""
    try:
        return {"text": tidy(source)}
    except (TidyError, MemoryError) as error:
        return {"problem": f"This can't be tidied: {error}."}


def _shown(samples: Any) -> dict[str, str]:
    return {name: str(sample) for name, sample in samples.items()}


def _findings(
    report: list[Finding], named: dict[str, tuple[str, Places]], entries: Catalog, of_reference: Catalog
) -> list[Json]:
    """The findings of the texts of the page, with the code units of UTF-16 that they underline."""
    told_of = []
    for file, (name, each) in named.items():
        own = sorted((found for found in report if found.file == name), key=lambda found: found.offset)[:_MOST]
        extents = [extent(each.source, finding.offset) for finding in own]
        mended = [fixes(finding, each, entries, of_reference) if file == "source" else [] for finding in own[:_MENDED]]
        mended += [[] for _ in own[_MENDED:]]
        wanted = [offset for span in extents for offset in span]
        wanted += [offset for listed in mended for fix in listed for offset in (fix.start, fix.end)]
        units = _units(each.source, wanted)
        for finding, (start, end), listed in zip(own, extents, mended):
            told = {
                name: getattr(finding, name) for name in ("line", "column", "severity", "code", "entry", "text", "hint")
            }
            told |= {"file": file, "start": units[start], "end": units[end]}
            told["fixes"] = [
                {"title": fix.title, "start": units[fix.start], "end": units[fix.end], "text": fix.text}
                for fix in listed
            ]
            told_of.append(told)
    return told_of


def _units(source: bytes, offsets: Iterable[int]) -> dict[int, int]:
    """How many code units of UTF-16 are before each of these offsets."""
    units, at, count = {}, 0, 0
    for offset in sorted(set(offsets)):
        count += len(source[at:offset].decode(errors="replace").encode("utf-16-le")) // 2
        units[offset], at = count, offset
    return units


def _messages(bundle: Bundle, entries: Catalog, places: Places, asked: Asked) -> tuple[list[Json], int]:
    """The messages of a file that are near the caret, the first of each id, and how many others there are."""
    # What is wrong with the source is among the findings.
    bundle._hush()
    first: dict[str, Entry] = {}
    for entry in places.entries:
        if not entry.is_term:
            first.setdefault(entry.id, entry)
    listed = list(first.values())
    units = _units(places.source, [entry.start for entry in listed] + [entry.end for entry in listed])
    index = sum(units[entry.end] < asked.at for entry in listed)
    start = max(0, min(index - _MOST // 2, len(listed) - _MOST))
    shown = listed[start : start + _MOST]
    found = []
    line, at = 1, 0
    for entry in shown:
        line += places.source.count(b"\n", at, entry.start)
        at = entry.start
        told = _message(bundle, entries, entry, asked.locale, asked.arguments)
        found.append({**told, "start": units[entry.start], "end": units[entry.end], "line": line})
    return found, len(listed) - len(shown)


def _message(bundle: Bundle, entries: Catalog, entry: Entry, locale: str, arguments: dict[str, str]) -> Json:
    parts: list[Json] = []
    is_read = bundle.has_message(entry.id)
    for part in entry.parts if is_read else ():
        is_there = (entry.id, part.attribute or "") in bundle
        if is_there and not any(part.attribute == each["attribute"] for each in parts):
            parts.append(_part(bundle, entries, entry, part.attribute, locale, arguments))
    return {"id": entry.id, "comment": entry.comment, "read": is_read, "parts": parts}


def _part(
    bundle: Bundle, entries: Catalog, entry: Entry, attribute: str | None, locale: str, arguments: dict[str, str]
) -> Json:
    variables = entries.variables(entry.id, attribute)
    usual = {each.name: each.sample(locale) for each in variables}
    given = {
        each.name: _value(arguments[each.name], each) if each.name in arguments else usual[each.name]
        for each in variables
    }
    text, errors = _answer(bundle, entry.id, attribute, given)
    cases = entries.cases(entry.id, attribute, locale)
    return {
        "attribute": attribute,
        "text": text,
        "errors": errors,
        "variables": [
            {"name": each.name, "kind": _kind(each), "value": _field(given[each.name]), "keys": each.keys}
            for each in variables
        ],
        "cases": [_case(bundle, entry.id, attribute, case, given) for case in cases if case.label],
    }


def _kind(variable: Variable) -> str:
    if variable.is_numeric:
        return "number"
    return "date" if variable.is_date else "choice" if variable.keys else "text"


def _field(sample: Sample) -> str:
    """What a field shows of a value: a date as a field for dates has it."""
    return sample.strftime("%Y-%m-%dT%H:%M") if isinstance(sample, datetime.datetime) else str(sample)


def _value(text: str, variable: Variable) -> Sample:
    """The number that a field has, if it is one and a number is wanted, a date likewise, and else its text."""
    if variable.is_date and not variable.is_numeric:
        try:
            return datetime.datetime.fromisoformat(text).astimezone()
        except (ValueError, OverflowError):
            return text
    is_number = variable.is_numeric and _NUMBER.fullmatch(text) and abs(float(text)) < 2**63
    return Number(text) if is_number else text


def _case(bundle: Bundle, id: str, attribute: str | None, case: Case, given: dict[str, Sample]) -> Json:
    value = case.arguments[case.variable]
    text, errors = _answer(bundle, id, attribute, {**given, case.variable: value})
    return {"variable": case.variable, "label": case.label, "value": str(value), "text": text, "errors": errors}


def _answer(bundle: Bundle, id: str, attribute: str | None, arguments: dict[str, Sample]) -> tuple[str, list[str]]:
    """The text of a message and its errors. There is always something to show."""
    try:
        answer = bundle.format(id, attribute, **arguments)
    except MissingMessageError:
        return "", ["This message has no such text."]
    except MemoryError:
        return "", ["The text nests too deep."]
    except (FluentError, ValueError, TypeError) as error:
        return "", [str(error)]
    return answer.text, [str(error) for error in answer.errors]
