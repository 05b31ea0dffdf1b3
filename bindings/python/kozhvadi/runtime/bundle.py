"""Bundles, under the names of `fluent.runtime.bundle`."""

from __future__ import annotations

import warnings
from collections.abc import Callable, Iterable, Iterator, Mapping
from typing import Any

from .._bundle import Bundle
from .._errors import FluentWarning, ResolverError, UnknownLocaleError
from .._functions import never_called
from .._locks import new_lock
from .builtins import BUILTINS
from .errors import FluentCyclicReferenceError, FluentFormatError, FluentReferenceError
from .resource import FluentResource

__all__ = ["FluentBundle", "Message", "Pattern"]


class Pattern:
    """The value of a message, or an attribute. It asks its bundle as that is when it is formatted."""

    def __init__(self, bundle: FluentBundle, id: str, attribute: str | None) -> None:
        self._owner, self._id, self._attribute = bundle, id, attribute


class _Attributes(Mapping[str, Pattern]):
    """The attributes of a message by their names. The first of a name counts."""

    def __init__(self, bundle: FluentBundle, id: str) -> None:
        self._owner, self._id = bundle, id

    def __getitem__(self, name: str) -> Pattern:
        if (self._id, name) not in self._owner._bundle():
            raise KeyError(name)
        return Pattern(self._owner, self._id, name)

    def __iter__(self) -> Iterator[str]:
        return iter(dict.fromkeys(self._owner._bundle().attributes(self._id)))

    def __len__(self) -> int:
        return len(set(self._owner._bundle().attributes(self._id)))


class Message:
    """A message of a bundle. `value` is `None` if it has attributes alone."""

    def __init__(self, value: Pattern | None, attributes: Mapping[str, Pattern]) -> None:
        self.value, self.attributes = value, attributes


class FluentBundle:
    """Messages and terms of resources, for the first of these locales that is a language tag.

    The resources are read at the first question after one was added. What a function raises is among the errors of the
    answer, and the text has the call, such as `{NAME()}`. A function whose name isn't in capital letters is left out with a
    `FluentWarning`: no message calls it.
    """

    def __init__(
        self,
        locales: str | Iterable[str],
        functions: Mapping[str, Callable[..., Any]] | None = None,
        use_isolating: bool = True,
    ) -> None:
        self.locales = [locales] if isinstance(locales, str) else list(locales)
        self.use_isolating = use_isolating
        self._functions = _called(functions or {})
        self._lock = new_lock()
        self._resources: list[tuple[str, bool]] = []
        self._made: Bundle | None = None

    def add_resource(self, resource: FluentResource, allow_overrides: bool = False) -> None:
        """Adds a resource. Of an id that is there the old entry stays, unless overrides are allowed.

        Of an id that one resource has twice the first entry counts.
        """
        with self._lock:
            self._resources.append((resource.source, allow_overrides))
            self._made = None

    def has_message(self, message_id: str) -> bool:
        """Whether there is a message of this id."""
        return self._bundle().has_message(message_id)

    def get_message(self, message_id: str) -> Message:
        """The message of this id. Raises `LookupError` if there is none."""
        bundle = self._bundle()
        if not bundle.has_message(message_id):
            raise LookupError(message_id)
        value = Pattern(self, message_id, None) if message_id in bundle else None
        return Message(value, _Attributes(self, message_id))

    def format_pattern(
        self, pattern: Pattern, args: Mapping[str, Any] | None = None
    ) -> tuple[str, list[Exception]]:
        """The text of a pattern, and its errors: first those that functions raised."""
        text, errors = pattern._owner._bundle().format(pattern._id, pattern._attribute, **dict(args or {}))
        return text, [_error_of(error) for error in errors]

    def _sources(self) -> list[str]:
        """The sources in the order in which the first entry of an id counts."""
        over = [source for source, overrides in reversed(self._resources) if overrides]
        return over + [source for source, overrides in self._resources if not overrides]

    def _bundle(self) -> Bundle:
        with self._lock:
            if self._made is None:
                self._made = self._read()
            return self._made

    def _read(self) -> Bundle:
        for locale in self.locales:
            try:
                bundle = Bundle(self._sources(), locale=locale, isolating=self.use_isolating, functions=self._functions)
                break
            except UnknownLocaleError:
                continue
        else:
            bundle = Bundle(self._sources(), isolating=self.use_isolating, functions=self._functions)
        bundle._hush()
        return bundle


def _called(functions: Mapping[str, Callable[..., Any]]) -> dict[str, Callable[..., Any]]:
    """The functions that messages may call. It warns of the others. `NUMBER` and `DATETIME` are those that each bundle has
    if they are those of this package.
    """
    reasons = {name: never_called(name) for name in functions}
    for reason in filter(None, reasons.values()):
        warnings.warn(reason, FluentWarning, stacklevel=3)
    is_called = {name: not reason and BUILTINS.get(name) is not functions[name] for name, reason in reasons.items()}
    return {name: function for name, function in functions.items() if is_called[name]}


def _error_of(error: ResolverError) -> Exception:
    """What a function raised, or the error of `fluent.runtime` that one of the library stands for."""
    if isinstance(error.__cause__, Exception):
        return error.__cause__
    if error.kind == "variable":
        return FluentReferenceError(f"Unknown external: {error.id}")
    if error.kind in ("message", "term", "function"):
        return FluentReferenceError(str(error).removesuffix("()"))
    if error.kind == "cycle":
        return FluentCyclicReferenceError("Cyclic reference")
    return FluentFormatError(str(error))
