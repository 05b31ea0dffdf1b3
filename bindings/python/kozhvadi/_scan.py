"""What an editor needs of an entry that is being typed: its names, its selects, and what is open at an offset.

A file that is being edited is mostly broken somewhere, and the library refuses a broken entry. This reads it as far as it
goes. It is tested, and not proved: the tests compare it with the library, in sources that both can read. Offsets are in
bytes of UTF-8.
"""

from __future__ import annotations

import re
from dataclasses import dataclass, field
from typing import NamedTuple

from ._builtins import BUILTINS, Builtin
from ._occurrences import Occurrence, Symbol
from ._stopping import go_on

_NAME = rb"[A-Za-z][A-Za-z0-9_-]*"
_HEADS = re.compile(rb"^-?" + _NAME + rb" *=", re.MULTILINE)
_HEAD = re.compile(rb"(-?)(" + _NAME + rb") *=")
_ATTRIBUTE = re.compile(rb"\.(" + _NAME + rb") *=")
VARIANT = re.compile(rb"(\*?)\[[ \r\n]*(" + _NAME + rb"|-?[0-9]+(?:\.[0-9]+)?)[ \r\n]*\]")
_TEXT = re.compile(rb"[^{}\n]+")
_LINE_START = re.compile(rb"\n(?: *\r?\n)*( *)")
BLANK = re.compile(rb"[ \r\n]+")
CALLED = re.compile(rb"[ \r\n]*\(")
_ACCESSOR = re.compile(rb"[ \r\n]*\.(" + _NAME + rb")")
NAMED = re.compile(rb"[ \r\n]*:")
_ORDINAL = re.compile(rb'type[ \r\n]*:[ \r\n]*"ordinal"')
_TOKEN = re.compile(
    rb'(?P<string>"(?:[^"\\\n]|\\[^\n])*"?)'
    rb"|\$(?P<variable>" + _NAME + rb")"
    rb"|-(?P<term>" + _NAME + rb")(?:\.(?P<attribute>" + _NAME + rb"))?"
    rb"|(?P<number>-?[0-9]+(?:\.[0-9]+)?)"
    rb"|(?P<name>" + _NAME + rb")"
    rb"|(?P<sign>->|[{}(),:])"
)
_END_OF_DAMAGE = re.compile(rb"[}\n]")
_AFTER_EXPRESSION = (b"->", b"}", b"(")
_MARK = b"\xef\xbb\xbf"


class Variant(NamedTuple):
    """A variant of a select: its key, and where it begins, with its `*` if it has one, and where its pattern does."""

    key: str
    is_default: bool
    start: int
    pattern: int


@dataclass
class Select:
    """A select: the variable that chooses its variant, if there is one, and its variants. `end` is before its brace."""

    start: int = 0
    end: int = 0
    variable: str | None = None
    is_number: bool = False
    is_ordinal: bool = False
    variants: list[Variant] = field(default_factory=list)

    @property
    def keys(self) -> list[str]:
        return [variant.key for variant in self.variants]


class Reference(NamedTuple):
    """A reference to a message or a term, or to an attribute of it; a variable; or the call of a function.

    `start` is the offset of its first byte, which is the `$` of a variable and the `-` of a term.
    """

    symbol: Symbol
    attribute: str | None
    start: int


@dataclass
class Part:
    """The value of an entry, or an attribute of it, whose name it then has."""

    attribute: str | None
    start: int
    name_end: int
    end: int = 0
    references: list[Reference] = field(default_factory=list)
    selects: list[Select] = field(default_factory=list)
    numbers: set[str] = field(default_factory=set)
    dates: set[str] = field(default_factory=set)

    def variables(self) -> list[str]:
        """The names of its variables, each once."""
        return list(dict.fromkeys(each.symbol.name for each in self.references if each.symbol.kind == "variable"))


@dataclass
class Entry:
    """A message or a term. `start` is its first byte, `name_start` that of its id, which is after the `-` of a term."""

    id: str
    is_term: bool
    start: int
    name_start: int
    comment: str
    end: int = 0
    parts: list[Part] = field(default_factory=list)

    @property
    def symbol(self) -> Symbol:
        return Symbol("term" if self.is_term else "message", self.id)

    @property
    def key(self) -> str:
        """The id, with the `-` of a term."""
        return f"-{self.id}" if self.is_term else self.id

    def part(self, attribute: str | None) -> Part | None:
        """Its value, or its first attribute of a name."""
        return next((part for part in self.parts if part.attribute == attribute), None)


@dataclass
class _Open:
    """What is open at a place: a "text", a "placeable", a "call", a "select" or a "variant".

    `callee` is what a call calls, and `named` the last name, which a parenthesis would call.
    """

    kind: str
    start: int = 0
    callee: Symbol | None = None
    named: Symbol | None = None
    select: Select = field(default_factory=Select)
    is_full: bool = False


class Inside(NamedTuple):
    """What is open at an offset: `kind` is "text", "variant", "select", "placeable", "call", or empty between entries.

    `entry` is the key of the entry, `callee` what is called, and `is_full` says that a placeable has its expression.
    `start` is the offset of the brace or parenthesis that opened a placeable or a call.
    """

    kind: str
    entry: str = ""
    callee: Symbol | None = None
    is_full: bool = False
    start: int = 0


def _called(callee: Symbol | None) -> Builtin | None:
    """What is known of the function that a call is of, if it comes with the library."""
    return BUILTINS.get(callee.name) if callee and callee.kind == "function" else None


def inside(source: bytes, offset: int) -> Inside:
    """What is open at an offset, whatever follows it."""
    head = None
    # What looks so at the front of a line is never inside an entry.
    for head in _HEADS.finditer(source, 0, offset):
        pass
    if head is None:
        return Inside("")
    scan = Scan(source[head.start() : offset])
    if not scan.open:
        return Inside("")
    top = scan.open[-1]
    return Inside(top.kind, scan.entry.key, top.callee, top.is_full, head.start() + top.start)


class Scan:
    """A walk over a source, entry by entry. What is open is on a list, so that nesting takes no stack."""

    def __init__(self, source: bytes) -> None:
        self.source = source
        self.open: list[_Open] = []
        self.entries: list[Entry] = []
        self.occurrences: list[Occurrence] = []
        self.at = len(_MARK) if source.startswith(_MARK) else 0
        comment: list[str] = []
        while self.at < len(source):
            go_on()
            head = _HEAD.match(source, self.at)
            if head:
                self._entry(head, "\n".join(comment))
                comment = []
            else:
                line = self._line()
                comment = [*comment, line[1:].strip()] if line.startswith("#") and line[1:2] != "#" else []

    def _line(self) -> str:
        """The rest of the line, which is passed over."""
        end = self.source.find(b"\n", self.at)
        end = len(self.source) if end < 0 else end
        line = self.source[self.at : end].decode(errors="replace")
        self.at = end + 1
        return line

    def _entry(self, head: re.Match[bytes], comment: str) -> None:
        id, is_term = head[2].decode(), bool(head[1])
        self.entry = Entry(id, is_term, head.start(), head.start(2), comment)
        self.entries.append(self.entry)
        self.occurrences.append(Occurrence(self.entry.symbol, head.start(2), head.end(2), True))
        self._part(None, head.start(), head.end(2), head.end())
        steps = {"text": self._text, "variant": self._text, "select": self._variants}
        while self.open and self.at < len(self.source):
            steps.get(self.open[-1].kind, self._expression)()
        self._end_part()
        self.entry.end = self.part.end

    def _part(self, attribute: str | None, start: int, name_end: int, at: int) -> None:
        self.part = Part(attribute, start, name_end)
        self.entry.parts.append(self.part)
        self.open = [_Open("text")]
        self.at = at

    def _end_part(self) -> None:
        end = min(self.at, len(self.source))
        while end > self.part.start and self.source[end - 1] in b" \r\n":
            end -= 1
        self.part.end = end

    def _text(self) -> None:
        """Text up to the next brace or line end, and what is there."""
        text = _TEXT.match(self.source, self.at)
        if text:
            self.at = text.end()
        sign = self.source[self.at : self.at + 1]
        if sign == b"{":
            self._enter(_Open("placeable", self.at))
        elif sign == b"}":
            self._leave_variant()
        elif sign == b"\n":
            self._line_start()

    def _enter(self, opened: _Open) -> None:
        self.open.append(opened)
        self.at += 1

    def _leave_variant(self) -> None:
        """A brace in a text ends the select that the text is in. It is passed over if there is none."""
        if self.open[-1].kind == "variant":
            del self.open[-2:]
        self.at += 1

    def _line_start(self) -> None:
        """What begins at a line start: the text goes on, or another part, variant or entry begins."""
        line = _LINE_START.match(self.source, self.at)
        assert line
        after, indent = line.end(), len(line[1])
        sign = self.source[after : after + 1]
        in_variant = self.open[-1].kind == "variant"
        attribute = _ATTRIBUTE.match(self.source, after)
        if attribute:
            self._attribute(attribute)
        elif in_variant and (sign == b"}" or VARIANT.match(self.source, after)):
            self.open.pop()
            self.at = after
        elif not indent and sign != b"{":
            self.open.clear()
            self.at = after
        else:
            self.at = after

    def _attribute(self, found: re.Match[bytes]) -> None:
        self._end_part()
        name = found[1].decode()
        symbol = Symbol("attribute", name, self.entry.key)
        self.occurrences.append(Occurrence(symbol, found.start(1), found.end(1), True))
        self._part(name, found.start(), found.end(1), found.end())

    def _variants(self) -> None:
        """The next variant of a select, or its end."""
        if self._blank() or self.at == len(self.source):
            return
        variant = VARIANT.match(self.source, self.at)
        if variant:
            found = Variant(variant[2].decode(), bool(variant[1]), variant.start(), variant.end())
            self.open[-1].select.variants.append(found)
            self.open.append(_Open("variant"))
            self.at = variant.end()
        elif self.source[self.at : self.at + 1] == b"}":
            self.open.pop().select.end = self.at
            self.at += 1
        else:
            self._broken()

    def _blank(self) -> bool:
        """Passes over a blank between braces. At an entry that begins there, what is open is broken off."""
        blank = BLANK.match(self.source, self.at)
        if not blank:
            return False
        self.at = blank.end()
        if blank[0].endswith(b"\n") and (
            _HEAD.match(self.source, self.at) or self.source[self.at : self.at + 1] == b"#"
        ):
            self.open.clear()
            return True
        attribute = _ATTRIBUTE.match(self.source, self.at) if b"\n" in blank[0] else None
        if attribute:
            self._attribute(attribute)
        return attribute is not None

    def _broken(self) -> None:
        """Nothing can be read here: the rest of the line, or up to a brace, is passed over, and a text goes on."""
        end = _END_OF_DAMAGE.search(self.source, self.at)
        self.at = end.start() if end else len(self.source)
        while self.open and self.open[-1].kind not in ("text", "variant"):
            self.open.pop()
        if end and end[0] == b"}":
            self.at += 1

    def _expression(self) -> None:
        """The next token of a placeable or a call."""
        if self._blank() or self.at == len(self.source):
            return
        token = _TOKEN.match(self.source, self.at)
        top = self.open[-1]
        if not token or (top.is_full and top.kind == "placeable" and token["sign"] not in _AFTER_EXPRESSION):
            self._broken()
            return
        self.at = token.end()
        self._take(token)

    def _take(self, token: re.Match[bytes]) -> None:
        """Takes a token of a placeable or a call."""
        top = self.open[-1]
        if token["sign"]:
            self._sign(token["sign"], token.start())
            return
        top.is_full = True
        if token["variable"]:
            self._variable(token)
        elif token["term"]:
            self._term(token)
        elif token["name"]:
            self._name(token)

    def _sign(self, sign: bytes, start: int) -> None:
        top = self.open[-1]
        if sign == b"{":
            top.is_full = True
            self.open.append(_Open("placeable", start))
        elif sign == b"}":
            while self.open[-1].kind == "call":
                self.open.pop()
            self.open.pop()
        elif sign == b"(" and top.named:
            self.open.append(_Open("call", start, top.named))
        elif sign == b")" and top.kind == "call":
            self._end_call()
        elif sign == b"->" and top.kind == "placeable":
            top.kind = "select"
            top.select.start = top.start
            self.part.selects.append(top.select)

    def _end_call(self) -> None:
        """The number that a call makes of a variable chooses variants, too."""
        call = self.open.pop()
        top = self.open[-1]
        known = _called(call.callee)
        if known and known.is_of_date and call.select.variable:
            self.part.dates.add(call.select.variable)
        if known and known.is_of_number and call.select.variable:
            self.part.numbers.add(call.select.variable)
            is_ordinal = bool(_ORDINAL.search(self.source, call.start, self.at))
            top.select.variable, top.select.is_number = call.select.variable, True
            top.select.is_ordinal = is_ordinal
        top.named = None

    def _refer(self, symbol: Symbol, start: int, attribute: str | None, name: tuple[int, int]) -> None:
        self.part.references.append(Reference(symbol, attribute, start))
        self.occurrences.append(Occurrence(symbol, *name, False))

    def _accessed(self, name: str, of: str, place: tuple[int, int]) -> None:
        self.occurrences.append(Occurrence(Symbol("attribute", name, of), *place, False))

    def _variable(self, token: re.Match[bytes]) -> None:
        name, top = token["variable"].decode(), self.open[-1]
        self._refer(Symbol("variable", name, self.entry.key), token.start(), None, token.span("variable"))
        top.select.variable = top.select.variable or name

    def _term(self, token: re.Match[bytes]) -> None:
        symbol = Symbol("term", token["term"].decode())
        attribute = token["attribute"].decode() if token["attribute"] else None
        self._refer(symbol, token.start(), attribute, token.span("term"))
        if attribute:
            self._accessed(attribute, str(symbol), token.span("attribute"))
        self.open[-1].named = symbol

    def _name(self, token: re.Match[bytes]) -> None:
        """A message, a function, or the name of an argument."""
        name, top = token["name"].decode(), self.open[-1]
        if CALLED.match(self.source, self.at):
            top.named = Symbol("function", name)
            self._refer(top.named, token.start(), None, token.span("name"))
            return
        if top.kind == "call" and NAMED.match(self.source, self.at):
            if top.callee and top.callee.kind == "term":
                symbol = Symbol("variable", name, str(top.callee))
                self.occurrences.append(Occurrence(symbol, *token.span("name"), False))
            return
        symbol, accessor = Symbol("message", name), _ACCESSOR.match(self.source, self.at)
        self._refer(symbol, token.start(), accessor[1].decode() if accessor else None, token.span("name"))
        if accessor:
            self._accessed(accessor[1].decode(), name, accessor.span(1))
            self.at = accessor.end()
