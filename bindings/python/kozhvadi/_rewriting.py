"""Sources whose calls the program answers where the library would.

A call that is all of a placeable gets another name than one that chooses a variant: then the answer is only shown.
"""

from __future__ import annotations

import re
from collections.abc import Container
from typing import NamedTuple

# What follows the name of a function whose value is shown, and that of the program's own `NUMBER`.
IS_SHOWN, IS_OWN = "-SHOWN", "-OWN"

# The function that shows a value, and the name of the variable that it is of.
SHOWN = "VALUE-SHOWN"

# Where a text may change to something else: a brace, or the start of a line that begins an entry or a comment.
_IN_TEXT = re.compile(r"[{}]|^(?:#[^\n]*|[A-Za-z-])", re.M)

# The same in an expression, in which there are literals, names, and the arrow before variants.
_IN_EXPRESSION = re.compile(r"[{}]|^[A-Za-z-](?=[^\n]*=)|\"(?:\\.|[^\"\\\n])*\"?|->|[$.-]?[A-Za-z][A-Za-z0-9_-]*", re.M)

# What is all of a placeable: a variable or a number.
_VALUE = re.compile(r"([ \r\n]*)(\$([A-Za-z][A-Za-z0-9_-]*)|-?[0-9]+(?:\.[0-9]+)?)(?=[ \r\n]*\})")

_CALL = re.compile(r"[ \r\n]*([A-Z][A-Z0-9_-]*)(?=[ \r\n]*\()")

# What opens or closes something in the arguments of a call.
_IN_ARGUMENTS = re.compile(r"\"(?:\\.|[^\"\\\n])*\"?|[(){}]")

_ENDS = re.compile(r"[ \r\n]*\}")


class Rewriting(NamedTuple):
    """How sources are rewritten: the names of the program's functions, and whether each value that is shown is a call."""

    own: frozenset[str]
    shows: bool

    def of(self, text: bytes) -> bytes:
        """A source, rewritten. One without the name of a function stays as it is, unless values are shown by calls."""
        if not self.shows and not any(name.encode() in text for name in self.own):
            return text
        return rewritten(text.decode(), self.own, self.shows).encode()


def rewritten(source: str, own: Container[str], shows: bool) -> str:
    """A source in which the functions of a program are called by other names. It has the same errors, at other places.

    `own` are the names of the functions. With `shows` each value that is shown is asked for by a call of `SHOWN`, and
    `NUMBER` by a call where it is shown.
    """
    parts: list[str] = []
    # For each open brace, whether it holds an expression, and not variants.
    opened: list[bool] = []
    copied = at = 0

    def put(text: str, start: int, end: int) -> None:
        nonlocal copied
        parts.extend((source[copied:start], text))
        copied = end

    while True:
        in_expression = bool(opened) and opened[-1]
        found = (_IN_EXPRESSION if in_expression else _IN_TEXT).search(source, at)
        if found is None:
            break
        at, token = found.end(), found[0]
        is_first = found.start() == 0 or source[found.start() - 1] == "\n"
        if token == "{":
            opened.append(True)
            if call := _CALL.match(source, at):
                is_own = call[1] in own or (shows and call[1] == "NUMBER")
                if is_own and _ends_after_call(source, source.index("(", call.end())):
                    put(IS_SHOWN, call.end(), call.end())
                    at = call.end()
            elif shows and (value := _VALUE.match(source, at)):
                named = f', "{value[3]}"' if value[3] else ""
                put(f"{SHOWN}({value[2]}{named})", value.start(2), value.end())
                at = value.end()
        elif token == "}":
            if opened:
                opened.pop()
        elif token == "->":
            opened[-1] = False
        elif is_first and token[0] not in '"#':
            # An entry begins, even if junk before it left a brace open.
            opened.clear()
        elif token == "NUMBER" and "NUMBER" in own and _CALL.match(source, found.start()):
            put(IS_OWN, at, at)
    return "".join(parts) + source[copied:]


def _ends_after_call(source: str, at: int) -> bool:
    """Whether a placeable ends after the arguments that begin at a place."""
    depth = 0
    for found in _IN_ARGUMENTS.finditer(source, at):
        if found[0] in "({":
            depth += 1
        elif found[0] in ")}":
            depth -= 1
            if depth == 0:
                return bool(_ENDS.match(source, found.end()))
    return False
