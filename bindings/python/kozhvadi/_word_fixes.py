"""How findings of what readers see are mended: keys, arguments of terms, placeables in quotes, and characters."""

from __future__ import annotations

import re
from collections.abc import Iterator

from ._change import Fix
from ._linting import Finding
from ._scan import VARIANT, Select

_MEANT = re.compile(r"did you mean `([^`]+)`\?")
_QUOTED = re.compile(r"`([^`]*)`$")
_KEY = re.compile(r"^`(?P<category>[^`]*)` is no plural category$|` is never `(?P<text>[^`]*)`$")
# What stands in the arguments of a call, as far as it matters here: strings, names of arguments, and the end.
_ARGUMENT = re.compile(rb'"(?P<string>(?:[^"\\\n]|\\[^\n])*)"|(?P<name>[A-Za-z][A-Za-z0-9_-]*)[ \r\n]*:|\)')
_LITERAL = re.compile(rb'\{[ \r\n]*"(?P<text>[^"\\\n]*)"[ \r\n]*\}')
_PLACEABLE = re.compile(rb"\{ *[$-][A-Za-z][A-Za-z0-9_-]* *\}")
# A text that begins so might be no text at the start of a line, and blank at its ends might be lost.
_UNSURE = (b"[", b"*", b".", b" ")


def key_fixes(finding: Finding, select: Select | None, source: bytes) -> list[Fix]:
    """A key of a select becomes the one that is nearly it."""
    meant, word = _MEANT.search(finding.hint or ""), _KEY.search(finding.text)
    if not meant or not word or not select:
        return []
    key = word["category"] or word["text"]
    found = [VARIANT.match(source, variant.start) for variant in select.variants if variant.key == key]
    return [_changed(*each.span(2), meant[1]) for each in found[:1] if each]


def argument_fixes(finding: Finding, source: bytes, group: str) -> list[Fix]:
    """An argument of a term, or its value, becomes the one that is nearly it."""
    meant, word = _MEANT.search(finding.hint or ""), _QUOTED.search(finding.text)
    if not meant or not word:
        return []
    spans = [found.span(group) for found in _arguments(source, finding.offset) if found[group] == word[1].encode()]
    return [_changed(*spans[0], meant[1])] if spans else []


def _arguments(source: bytes, offset: int) -> Iterator[re.Match[bytes]]:
    """The strings and the names of arguments in the call at an offset."""
    for found in _ARGUMENT.finditer(source, offset):
        if found[0] == b")":
            return
        yield found


def quote_fixes(finding: Finding, source: bytes) -> list[Fix]:
    """A literal with a placeable becomes text, if the literal is all that its own placeable has."""
    quote = source.rfind(b'"', 0, finding.offset)
    literal = _LITERAL.match(source, source.rfind(b"{", 0, quote)) if quote > 0 else None
    if not literal or not literal.start() < quote < literal.end():
        return []
    text = literal["text"]
    rest = _PLACEABLE.sub(b"", text)
    if b"{" in rest or b"}" in rest or text.startswith(_UNSURE) or text.endswith(b" "):
        return []
    return [Fix("Take it out of the quotes", *literal.span(), text.decode())]


def character_fixes(finding: Finding, source: bytes) -> list[Fix]:
    """A character that shouldn't be there is removed. A carriage return might be meant as the end of a line."""
    if finding.text.startswith("U+000D"):
        return []
    end = finding.offset + 1
    while end < len(source) and source[end] & 0xC0 == 0x80:
        end += 1
    return [Fix("Remove this character", finding.offset, end, "")]


def _changed(start: int, end: int, text: str) -> Fix:
    return Fix(f"Change to `{text}`", start, end, text)
