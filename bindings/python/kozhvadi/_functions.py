"""Functions of a program, which messages call."""

from __future__ import annotations

import json
import re
import secrets
import threading
from collections.abc import Callable, Iterable, Mapping
from decimal import Decimal
from typing import Any

from . import _dates
from . import _library as c
from ._errors import ResolverError, raised_by
from ._numbers import FluentNumber, NumberFormatOptions, fluent_number
from ._rewriting import IS_OWN, IS_SHOWN, SHOWN, Rewriting
from ._values import NO_ARGUMENTS, Formatter, NeedsShowing, encoded, kind_and_text

Functions = Mapping[str, Callable[..., Any]]

# An answer: the text of its call in UTF-8, its kind, and its own text in UTF-8.
Made = tuple[bytes, int, bytes]

# A name that a message can call.
_NAME = re.compile(r"[A-Z][A-Z0-9_-]*")


class _Nesting(threading.local):
    """How many functions of a thread are being called, each by a message that the one before it asked for."""

    depth = 0


_nesting = _Nesting()


def functions_of(given: Functions | None) -> dict[str, Callable[..., Any]]:
    """Functions by their names.

    Raises `TypeError` if a name isn't a text or a function can't be called, and `ValueError` if no message would call it.
    """
    functions = dict(given or {})
    for name, function in functions.items():
        encoded(name, "the name of a function")
        if not callable(function):
            raise TypeError(f"the function {name!r} can't be called: {type(function).__name__}")
        reason = never_called(name)
        if reason:
            raise ValueError(reason)
    return functions


def never_called(name: str) -> str | None:
    """Why no message calls a function of this name, or `None` if messages can."""
    if not _NAME.fullmatch(name):
        return f"no message can call the function {name!r}: a name has capital letters, and then digits, `_` and `-` too"
    return None


def with_dates(functions: dict[str, Callable[..., Any]], texts: Iterable[bytes]) -> dict[str, Callable[..., Any]]:
    """The functions of a program, and `DATETIME` if the sources may call it and it isn't among them."""
    if "DATETIME" in functions or not any(b"DATETIME" in text for text in texts):
        return functions
    return {**functions, "DATETIME": _dates.called}


def rewriting_of(functions: Functions, shows: bool) -> Rewriting | None:
    """How sources are rewritten, if they are: then a call that is shown has another name than one that is an argument."""
    if shows or "NUMBER" in functions or functions.get("DATETIME") is _dates.called:
        return Rewriting(frozenset(functions), shows)
    return None


class Called(dict[str, Callable[..., Any]]):
    """The functions of a bundle by the names that its sources call. `shows` shows a number by all its options."""

    shows: Callable[[FluentNumber], str] | None = None


def called_of(functions: Functions, shows: Callable[[FluentNumber], str] | None = None) -> Called:
    """Functions by the names that rewritten sources call. With `shows` values are shown by calls."""
    own = {f"NUMBER{IS_OWN}" if name == "NUMBER" else name: function for name, function in functions.items()}
    called = Called(own)
    if rewriting_of(functions, shows is not None):
        called.update({f"{name}{IS_SHOWN}": function for name, function in functions.items()})
    if shows:
        called.shows = shows
        called[SHOWN] = repr
        called.setdefault(f"NUMBER{IS_SHOWN}", _number)
    return called


def _number(value: Any = None, *_others: Any, **options: Any) -> Any:
    """The library's `NUMBER`: it refuses no option, and has no value for what is no number."""
    if not isinstance(value, (int, float, Decimal)):
        return None
    made = fluent_number(value)
    for name, option in options.items():
        try:
            made = fluent_number(made, **{name: option})
        except (TypeError, ValueError):
            continue
    return made


def each_call(first: str, lines: str) -> list[str]:
    """The first call, and those that the library lists in lines, each once. JSON has other ends of lines, too."""
    return list(dict.fromkeys([first, *lines.split("\n")[:-1]]))


class Answers:
    """The answers to the calls that a message met, and the errors of those whose function raised something."""

    def __init__(
        self,
        functions: Called,
        formatter: Formatter,
        arguments: Mapping[str, object],
        dates: Mapping[str, object] | None = None,
    ) -> None:
        """`dates` are those in whose place the arguments have texts, by these texts."""
        self._functions, self._formatter, self._arguments = functions, formatter, arguments
        self._made: list[Made] = []
        self._dates = dates or {}
        # The objects that texts and digits stand for, once a function is called.
        self._objects: dict[tuple[int, str], object] | None = None
        self.errors: list[ResolverError] = []

    @property
    def are_any(self) -> bool:
        """Whether there is an answer."""
        return bool(self._made)

    def given(self) -> c.Arguments:
        """The answers, as the library takes them."""
        if not self._made:
            return NO_ARGUMENTS
        return c.arguments([c.FluentArgument(key, len(key), data, len(data), 0, 0, kind) for key, kind, data in self._made])

    def add(self, call: str) -> Made:
        """Calls the function of a call, by its text, and keeps the answer.

        A call has no value if there is no answer that can be shown.
        """
        key, (name, positional, named) = call.encode(), json.loads(call)
        function = name.removesuffix(IS_SHOWN).removesuffix(IS_OWN)
        _nesting.depth += 1
        try:
            kind, data = self._answer(name, function, positional, named)
        except NeedsShowing:
            raise
        except Exception as error:
            # Functions that ask for each other's messages without end: the first of them has the error.
            if isinstance(error, RecursionError) and _nesting.depth > 1:
                raise
            self.errors.append(raised_by(function, error))
            failed = f"{{{function}()}}"
            self._known()[c.TEXT, failed] = None
            kind, data = c.TEXT, failed.encode()
        finally:
            _nesting.depth -= 1
        made = (key, kind, data)
        self._made.append(made)
        return made

    def _answer(self, name: str, function: str, positional: list[Any], named: dict[str, Any]) -> tuple[int, bytes]:
        """The kind of an answer and its text in UTF-8."""
        values = [self._argument(value) for value in positional]
        if name == SHOWN:
            return self._shown_argument(*values)
        given = {key: self._argument(value) for key, value in named.items()}
        value = self._functions[name](*values, **given)
        is_shown = name.endswith(IS_SHOWN)
        if value is None:
            return (c.TEXT, f"{function}()".encode()) if is_shown else (c.NO_VALUE, b"")
        return self._made_of(f"{function}()", value, is_shown)

    def _shown_argument(self, value: object, name: str | None = None) -> tuple[int, bytes]:
        """An argument of the message as it is shown, or a number that is written in it."""
        if value is not None or name is None:
            return self._made_of("a value", value, True)
        return c.TEXT, b"" if name in self._arguments else f"{{${name}}}".encode()

    def _made_of(self, what: str, value: object, is_shown: bool) -> tuple[int, bytes]:
        """The kind of a value and its text in UTF-8."""
        if isinstance(value, FluentNumber) and value.options != NumberFormatOptions():
            if self._functions.shows is None:
                raise NeedsShowing
            if is_shown:
                return c.TEXT, self._functions.shows(value).encode()
        kind, text = kind_and_text(what, value, self._formatter, options_count=False)
        if _is_object(value) and not (is_shown and _dates.is_date(value)):
            self._known()[_key(kind, text)] = value
        return kind, encoded(text, "the answer of", what)

    def _known(self) -> dict[tuple[int, str], object]:
        """The objects that were passed, by the texts and digits that they have in the library."""
        if self._objects is None:
            self._objects = {(c.TEXT, text): date for text, date in self._dates.items()}
            for name, value in self._arguments.items():
                if _is_object(value):
                    key = _key(*kind_and_text(name, value, self._formatter, options_count=False))
                    if self._is_unclear(key, value):
                        raise NeedsShowing
                    self._objects[key] = value
        return self._objects

    def _is_unclear(self, key: tuple[int, str], value: object) -> bool:
        """Whether a date has the text of another argument, in a bundle that doesn't tell them apart."""
        if self._functions.shows is not None or not _dates.is_date(value):
            return False
        others = (other for other in self._arguments.values() if other is not value)
        return any(_text_of(other, self._formatter) == key[1] for other in others)

    def _argument(self, value: Any) -> Any:
        """An argument of a function: what was passed, or a text, or a number, which is an `int` if it has no point."""
        if value is None:
            return None
        if isinstance(value, dict):
            digits: str = value["number"]
            plain = Decimal(digits) if "." in digits else int(digits)
            return self._known().get(_key(c.DECIMAL, digits), plain)
        return self._known().get((c.TEXT, value), value)


def _is_object(value: object) -> bool:
    """Whether a function gets the object that was passed, and not a text or a number."""
    return not isinstance(value, (str, int, float, Decimal)) or isinstance(value, FluentNumber)


def _text_of(value: object, formatter: Formatter) -> object:
    """The text of a text or a date."""
    return formatter(value) if _dates.is_date(value) else value


def told_apart(arguments: Mapping[str, object], formatter: Formatter) -> tuple[dict[str, object], dict[str, object]]:
    """Arguments in which each date that has the text of another argument has one of its own, and the dates by these."""
    texts = {
        name: _text_of(value, formatter)
        for name, value in arguments.items()
        if isinstance(value, str) or _dates.is_date(value)
    }
    shown, given = list(texts.values()), dict(arguments)
    dates: dict[str, object] = {}
    for name, value in arguments.items():
        if _dates.is_date(value) and shown.count(texts[name]) > 1:
            # No text has this character by the rules of Unicode.
            mark = f"\ufdd0{secrets.token_hex(8)}\ufdd0"
            given[name], dates[mark] = mark, value
    return given, dates


def _key(kind: int, text: str) -> tuple[int, str]:
    """A text, or the digits of a number of whichever kind."""
    return (c.TEXT, text) if kind == c.TEXT else (c.DECIMAL, text)
