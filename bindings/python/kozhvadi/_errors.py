"""What goes wrong."""

from __future__ import annotations

import re
from typing import Any


# How the line of an error begins for what a function raised.
_RAISED = re.compile(r"([A-Z][A-Z0-9_-]*)\(\) raised ")


class FluentError(Exception):
    """What a bundle can't do, and what is wrong with a message or a source."""


class UnknownLocaleError(FluentError, ValueError):
    """The locale is no tag of a language."""


class MissingMessageError(FluentError, KeyError):
    """There is no such message, or it has no value, or no such attribute."""

    def __str__(self) -> str:
        return str(self.args[0])


class FluentWarning(UserWarning):
    """Sources have errors that the program hasn't looked at."""


class _Told(FluentError):
    """An error of which the library tells by a line. Two are equal if their lines are."""

    def __eq__(self, other: object) -> bool:
        return type(self) is type(other) and str(self) == str(other)

    def __hash__(self) -> int:
        return hash(str(self))


class ResolverError(_Told):
    """An error that came up while a message was formatted, as in `Unknown variable: $name`. You get the text too.

    `kind` is "variable", "message", "term" or "function" if what is referred to isn't there, "value" if a message has
    none, "default" if no variant of a select was chosen, "cycle" if a message refers to itself, "placeables" if there
    are too many, and "raised" if a function raised an exception, which is the `__cause__` of the error. `id` is the
    name, without `$` or `-`, and `attribute` that of an attribute.

    >>> error = ResolverError("Unknown attribute: -brand.gender")
    >>> error.kind, error.id, error.attribute
    ('term', 'brand', 'gender')
    """

    kind: str
    id: str | None
    attribute: str | None

    def __init__(self, line: str) -> None:
        super().__init__(line)
        head, _, name = line.partition(": ")
        self.id, self.attribute = None, None
        # Mostly it is a variable.
        if head == "Unknown variable" and "." not in name:
            self.kind, self.id = "variable", name.lstrip("$-")
            return
        if raised := _RAISED.match(line):
            self.kind, self.id = "raised", raised[1]
        elif head == "No value":
            self.kind, self.id = "value", name
        elif name:
            id, _, attribute = name.partition(".")
            self.kind = head.removeprefix("Unknown ")
            if self.kind == "attribute":
                self.kind = "term" if id.startswith("-") else "message"
            self.id, self.attribute = id.lstrip("$-").removesuffix("()"), attribute or None
        else:
            self.kind = {"No default": "default", "Too many placeables": "placeables"}.get(line, "cycle")


def raised_by(function: str, error: Exception) -> ResolverError:
    """The error of an answer whose function of this name raised an exception."""
    told = ResolverError(f"{function}() raised {_shown(error)}")
    told.__cause__ = error
    return told


def _shown(error: Exception) -> str:
    """The kind of an exception, and its text if it has one."""
    kind = type(error).__name__
    try:
        text = str(error)
    except Exception:
        return kind
    return f"{kind}: {text}" if text else kind


class SourceError(_Told):
    """An error of a source, or an entry whose id was there before it.

    It is shown as "en.ftl:2:4: expected `=` after `bye`, found the end of the line". `file` is the name of the source,
    which is "source 1" for the first if it has no file. `line` and `column` count from 1, and are `None` if they aren't
    known. `kind` is the name of the error, such as "ExpectedToken": it is "Overriding" for an entry whose id was there,
    and "TooDeep" for a source that nests too deep, of which nothing is read.
    """

    def __init__(
        self, text: str, kind: str, file: str | None = None, line: int | None = None, column: int | None = None
    ) -> None:
        super().__init__(text)
        self.kind, self.file, self.line, self.column = kind, file, line, column

    def __reduce__(self) -> tuple[Any, ...]:
        # The attributes have the place.
        return type(self), (str(self), self.kind), self.__dict__
