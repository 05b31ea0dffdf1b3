"""What messages look like: their texts for sample arguments, in each plural category of a language."""

from __future__ import annotations

import datetime
from collections.abc import Iterable, Mapping
from dataclasses import dataclass, field
from decimal import Decimal
from functools import lru_cache
from typing import NamedTuple, Union

from ._bundle import Bundle
from ._languages import has_plural_rules
from ._places import Places
from ._scan import Entry, Part

Sample = Union[str, int, Decimal, datetime.datetime]

# A pattern: the id of its message, or of its term with a `-`, and the name of its attribute.
Named = tuple[str, Union[str, None]]

CATEGORIES = ("zero", "one", "two", "few", "many", "other")

# Whole numbers that are easy to read come first, and fractions last.
_CANDIDATES: list[Sample] = [*range(1, 200), 0, 1_000_000, Decimal("1.5"), Decimal("0.1"), Decimal("0.5")]

# What variables of these names mostly hold.
_TEXTS = {
    "name": "Jane",
    "user": "Jane",
    "username": "Jane",
    "file": "notes.txt",
    "filename": "notes.txt",
    "date": "2024-05-17",
    "url": "example.org",
    "domain": "example.org",
    "host": "example.org",
    "email": "jane@example.org",
    "version": "2.0",
}

# More cases of a message aren't shown.
_MOST = 24


@lru_cache(maxsize=64)
def categories(locale: str, is_ordinal: bool = False) -> Mapping[str, Sample]:
    """The plural categories of a language, each with a number of it. Without plural rules all numbers are `other`.

    >>> categories("pl")
    {'one': 1, 'few': 2, 'many': 5, 'other': Decimal('1.5')}
    """
    kind = "ordinal" if is_ordinal else "cardinal"
    keys = "".join(f"    [{name}] {name}\n" for name in CATEGORIES[:-1])
    source = f'c = {{ NUMBER($n, type: "{kind}") ->\n{keys}   *[other] other\n}}\n'
    found: dict[str, Sample] = {}
    with Bundle(source, locale=known(locale), isolating=False) as bundle:
        for number in _CANDIDATES:
            found.setdefault(bundle.format("c", n=number).text, number)
    return {name: found[name] for name in CATEGORIES if name in found}


@lru_cache(maxsize=256)
def known(locale: str) -> str:
    """The locale, if it is a language tag, and else the one whose numbers are all `other`."""
    return locale if is_tag(locale) else "und"


@lru_cache(maxsize=1024)
def is_tag(locale: str) -> bool:
    """Whether a locale is a language tag, by which a bundle can be made."""
    try:
        Bundle((), locale=locale).close()
    except ValueError:
        return False
    return True


@lru_cache(maxsize=1024)
def has_rules(locale: str) -> bool:
    """Whether a locale has plural rules of its own."""
    return has_plural_rules(locale)


@dataclass
class Variable:
    """A variable that a message is shown with, and what it chooses variants by."""

    name: str
    is_number: bool = False
    is_ordinal: bool = False
    keys: list[str] = field(default_factory=list)
    is_date: bool = False

    @property
    def is_plural(self) -> bool:
        """Whether it chooses variants by plural categories."""
        return any(key in CATEGORIES[:-1] for key in self.keys) or (self.is_number and "other" in self.keys)

    @property
    def is_numeric(self) -> bool:
        return self.is_number or self.is_plural or any(_is_digits(key) for key in self.keys)

    def merged(self, other: Variable | None) -> Variable:
        """A variable that chooses what both do."""
        if other is None:
            return self
        keys = [*other.keys, *(each for each in self.keys if each not in other.keys)]
        is_date = self.is_date or other.is_date
        return Variable(self.name, self.is_number or other.is_number, self.is_ordinal or other.is_ordinal, keys, is_date)

    def cases(self, locale: str) -> list[tuple[str, Sample]]:
        """A sample for each variant that it may choose, and what chooses it: a category or a key."""
        exact = [(key, key) for key in self.keys if key not in CATEGORIES]
        if not self.is_plural:
            return [(key, _value(key)) for key in dict.fromkeys(self.keys)]
        by_category = list(categories(locale, self.is_ordinal).items())
        return [*[(key, _value(sample)) for key, sample in exact], *by_category]

    def sample(self, locale: str) -> Sample:
        """A value that it may have."""
        if self.is_numeric:
            number = categories(locale, self.is_ordinal)["other"]
            return number if isinstance(number, int) else categories(locale, self.is_ordinal).get("many", 5)
        if self.is_date:
            return today()
        if self.keys:
            return self.keys[0]
        plain = self.name.replace("-", "").replace("_", "").lower()
        return _TEXTS.get(plain, self.name)


def today() -> datetime.datetime:
    """The date and time that the clock shows, to the minute."""
    return datetime.datetime.now().astimezone().replace(second=0, microsecond=0)


def _is_digits(key: str) -> bool:
    return key.lstrip("-").replace(".", "", 1).isdecimal()


def _value(key: str) -> Sample:
    """The number that a key is, or its text."""
    return Decimal(key) if _is_digits(key) else key


class Case(NamedTuple):
    """Arguments of a message, of which `variable` is chosen so that it is in a category, or has a key: `label`."""

    variable: str
    label: str
    arguments: dict[str, Sample]


def _add(found: dict[str, Variable], part: Part) -> None:
    """Adds the variables of a part, and what it chooses by them."""
    for name in part.variables():
        variable = found.setdefault(name, Variable(name))
        variable.is_number = variable.is_number or name in part.numbers
        variable.is_date = variable.is_date or name in part.dates
    for select in part.selects:
        if select.variable in found:
            variable = found[select.variable]
            variable.keys += [each for each in select.keys if each not in variable.keys]
            variable.is_number = variable.is_number or select.is_number
            variable.is_ordinal = variable.is_ordinal or select.is_ordinal


class Catalog:
    """The entries of sources that are loaded together. The first of an id counts."""

    def __init__(self, sources: Iterable[Places]) -> None:
        self.entries: dict[str, Entry] = {}
        self._variables: dict[Named, dict[str, Variable]] = {}
        for places in sources:
            for entry in places.entries:
                self.entries.setdefault(entry.key, entry)

    def variables(self, key: str, attribute: str | None) -> list[Variable]:
        """The variables that a message is shown with, directly or by a message that it refers to."""
        named = key, attribute
        if named not in self._variables:
            self._walk(named)
        return list(self._variables[named].values())

    def _walk(self, first: Named) -> None:
        """Collects the variables of a pattern and of those that it refers to, each once. Patterns that refer to each
        other in a circle have the same variables. (This is Tarjan's algorithm, without recursion.)"""
        numbers: dict[Named, int] = {}
        lowest: dict[Named, int] = {}
        waiting: list[Named] = []
        path = [(first, iter(self._references(first)))]
        numbers[first] = lowest[first] = 0
        waiting.append(first)
        while path:
            named, left = path[-1]
            follows = next(left, None)
            if follows is None:
                path.pop()
                if path:
                    above = path[-1][0]
                    lowest[above] = min(lowest[above], lowest[named])
                if lowest[named] == numbers[named]:
                    self._collect(waiting, named)
            elif follows not in self._variables and follows not in numbers:
                numbers[follows] = lowest[follows] = len(numbers)
                waiting.append(follows)
                path.append((follows, iter(self._references(follows))))
            elif follows not in self._variables:
                lowest[named] = min(lowest[named], numbers[follows])

    def _collect(self, waiting: list[Named], first: Named) -> None:
        """Merges the variables of a circle of patterns, which are the last that wait, with those that it refers to."""
        circle = [waiting.pop()]
        while circle[-1] != first:
            circle.append(waiting.pop())
        circle.reverse()
        found: dict[str, Variable] = {}
        for named in circle:
            part = self._part(named)
            if part:
                _add(found, part)
        for named in circle:
            for follows in self._references(named):
                for variable in self._variables.get(follows, {}).values():
                    found[variable.name] = variable.merged(found.get(variable.name))
        for named in circle:
            self._variables[named] = found

    def _part(self, named: Named) -> Part | None:
        entry = self.entries.get(named[0])
        return entry.part(named[1]) if entry else None

    def _references(self, named: Named) -> list[Named]:
        """The patterns of messages that a pattern refers to."""
        part = self._part(named)
        return [
            (each.symbol.name, each.attribute)
            for each in (part.references if part else ())
            if each.symbol.kind == "message"
        ]

    def cases(self, key: str, attribute: str | None, locale: str) -> list[Case]:
        """Arguments for each variant that a message has; one case without a label if it chooses none."""
        variables = self.variables(key, attribute)
        usual = {each.name: each.sample(locale) for each in variables}
        found = [
            Case(each.name, label, {**usual, each.name: value})
            for each in variables
            for label, value in each.cases(locale)
        ]
        return found[:_MOST] or [Case("", "", usual)]
