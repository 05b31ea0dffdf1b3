"""What a finding underlines, and how to mend it."""

from __future__ import annotations

import re
from collections.abc import Iterable
from difflib import get_close_matches

from ._builtins import BUILTINS
from ._change import Fix
from ._linting import Finding
from ._places import Places
from ._samples import Catalog
from ._scan import Select
from ._word_fixes import argument_fixes, character_fixes, key_fixes, quote_fixes

_TOKEN = re.compile(rb"[$.-]?[A-Za-z][A-Za-z0-9_-]*(?:\.[A-Za-z][A-Za-z0-9_-]*)?|-?[0-9]+(?:\.[0-9]+)?")
_CHARACTER = re.compile(rb"[^\r\n][\x80-\xbf]*")
_NAMED = re.compile(r"`([$-]?[A-Za-z][A-Za-z0-9_.-]*)(?:\(\))?`")
_CATEGORY = re.compile(r"`(zero|one|two|few|many)`")

_MISSING = ("unknown-message", "unknown-term", "unknown-attribute", "unknown-variable", "unknown-function")

# How much of a name a near one has.
_NEAR = 0.7


def extent(source: bytes, offset: int) -> tuple[int, int]:
    """What a finding underlines: the name or number at its offset, or a character; the one before a line end.

    At the end of a source that is the last character that isn't blank.
    """
    if not source[offset:].strip():
        offset = len(source[:offset].rstrip())
    token = _TOKEN.match(source, offset)
    if token:
        return token.span()
    character = _CHARACTER.match(source, offset)
    if character:
        return character.span()
    before = max(source.rfind(b"\n", 0, offset), source.rfind(b"\r", 0, offset)) + 1
    start = offset
    while start > before:
        start -= 1
        if source[start] & 0xC0 != 0x80:
            break
    return start, offset


def fixes(
    finding: Finding, places: Places, catalog: Catalog, reference: Catalog, functions: Iterable[str] = ()
) -> list[Fix]:
    """How a finding can be mended, the best first.

    A variable of a message that is referred to is found at the id of the other message: there is nothing to change there.
    """
    if finding.code not in _MISSING:
        return _of_words(finding, places)
    start, end = extent(places.source, finding.offset)
    written = places.source[start:end].decode()
    if finding.code == "unknown-variable" and not written.startswith("$"):
        return []
    known = _known(finding, written, catalog, reference, functions)
    named = [name for name in _NAMED.findall(finding.hint or "") if name != written]
    sure = [name for name in named if name in known]
    names = dict.fromkeys([*sure, *get_close_matches(written, known, 3, _NEAR), *named])
    return [Fix(f"Change to `{name}`", start, end, name) for name in names if name != written]


def _of_words(finding: Finding, places: Places) -> list[Fix]:
    """How what readers see is mended."""
    source, offset = places.source, finding.offset
    match finding.code:
        case "missing-category":
            return _with_variant(finding, places)
        case "unknown-category":
            return key_fixes(finding, _select_at(places, offset), source)
        case "unknown-term-variant":
            return key_fixes(finding, _select_at(places, offset), source) or argument_fixes(finding, source, "string")
        case "unknown-term-argument":
            return argument_fixes(finding, source, "name")
        case "placeable-in-literal":
            return quote_fixes(finding, source)
        case "zero-width" | "control-character":
            return character_fixes(finding, source)
        case "unbalanced-direction" if finding.text.endswith("ends nothing"):
            return character_fixes(finding, source)
    return []


def _known(finding: Finding, written: str, catalog: Catalog, reference: Catalog, functions: Iterable[str]) -> list[str]:
    """The names that may have been meant."""
    if finding.code == "unknown-function":
        return [*BUILTINS, *functions]
    if finding.code == "unknown-variable":
        return [f"${name}" for name in reference_variables(finding.entry or "", reference)]
    keys = [key for key in catalog.entries if key.startswith("-") == written.startswith("-")]
    if finding.code != "unknown-attribute":
        return keys
    id = written.partition(".")[0]
    entry = catalog.entries.get(id)
    return [f"{id}.{part.attribute}" for part in entry.parts if part.attribute] if entry else []


def reference_variables(entry: str, reference: Catalog) -> list[str]:
    """The variables that a message of the reference is shown with, or an attribute that is named as `id.attribute`."""
    id, _, attribute = entry.partition(".")
    found = reference.entries.get(id)
    parts = found.parts if found else []
    wanted = [part.attribute for part in parts if not attribute or part.attribute == attribute]
    names = [each.name for name in wanted for each in reference.variables(id, name)]
    return list(dict.fromkeys(names))


def _with_variant(finding: Finding, places: Places) -> list[Fix]:
    """A variant for the category that is missing, with the text of the default variant."""
    category = _CATEGORY.search(finding.text)
    select = _select_at(places, finding.offset)
    default = next((variant for variant in select.variants if variant.is_default), None) if select else None
    if not category or not select or not default or not select.end:
        return []
    ends = [variant.start for variant in select.variants if variant.start > default.start] or [select.end]
    pattern = places.source[default.pattern : ends[0]].decode().rstrip()
    line = places.source.rfind(b"\n", 0, default.start) + 1
    indent = places.source[line : default.start].decode()
    if indent.strip(" "):
        return []
    text = f"{indent} [{category[1]}]{pattern}\n"
    return [Fix(f"Add the variant `[{category[1]}]`", line, line, text)]


def _select_at(places: Places, offset: int) -> Select | None:
    """The select whose selector is at an offset."""
    for entry in places.entries:
        for part in entry.parts:
            for select in part.selects:
                if select.start < offset and not places.source[select.start + 1 : offset].strip():
                    return select
    return None
