"""Dates and times with the options of the function `DATETIME`."""

from __future__ import annotations

import dataclasses
import datetime
import functools
import threading
import zoneinfo
from collections.abc import Callable
from dataclasses import dataclass
from decimal import Decimal
from typing import Any, Union

from . import _library as c
from ._builtins import DATETIME

Moment = Union[datetime.date, datetime.time]

# The fields of a date, as the library has them.
Numbers = tuple[int, ...]

_OPTIONS = DATETIME.options

# What counts of a time without a date.
_OF_TIME = {
    "timeStyle", "hourCycle", "hour12", "dayPeriod", "hour", "minute", "second", "fractionalSecondDigits", "timeZoneName",
}


@dataclass(frozen=True)
class DateFormatOptions:
    """How a date is shown, by the names that the function `DATETIME` has for it.

    `timeZone` is the name of a zone, such as "Europe/Berlin", in which a date and time is shown. One without a zone of its
    own is in UTC then. A message doesn't set it.
    """

    timeZone: str | None = None
    dateStyle: str | None = None
    timeStyle: str | None = None
    hour12: bool | None = None
    hourCycle: str | None = None
    weekday: str | None = None
    era: str | None = None
    year: str | None = None
    month: str | None = None
    day: str | None = None
    dayPeriod: str | None = None
    hour: str | None = None
    minute: str | None = None
    second: str | None = None
    fractionalSecondDigits: int | None = None
    timeZoneName: str | None = None

    def __post_init__(self) -> None:
        for name, option in _OPTIONS.items():
            value = getattr(self, name)
            if value is None or name == "hour12":
                continue
            if name == "fractionalSecondDigits":
                if value not in (1, 2, 3):
                    raise ValueError(f"{name} is 1, 2 or 3: {value!r}")
            elif value not in option.takes:
                raise ValueError(f"{name} is one of {', '.join(option.takes)}: {value!r}")
        if self.timeZone is not None:
            _zone(self.timeZone)


@functools.lru_cache(maxsize=256)
def _zone(name: str) -> datetime.tzinfo:
    if name == "UTC":
        return datetime.timezone.utc
    try:
        return zoneinfo.ZoneInfo(name)
    except (zoneinfo.ZoneInfoNotFoundError, ValueError, OSError, TypeError) as error:
        raise ValueError(f"there is no time zone {name!r}") from error


class FluentDateType:
    """A date or a time with options."""

    options = DateFormatOptions()

    def plain(self) -> Any:
        """The value without options."""
        raise NotImplementedError

    def __reduce_ex__(self, protocol: Any) -> Any:
        return _again, (self.plain(), dataclasses.asdict(self.options))


def _again(value: Moment, options: dict[str, Any]) -> Any:
    return fluent_date(value, **options)


class FluentDate(FluentDateType, datetime.date):
    """A `date` with options."""

    @classmethod
    def from_date(cls, value: datetime.date, **options: Any) -> FluentDate:
        """A date with options."""
        made = cls(value.year, value.month, value.day)
        made.options = _changed(value, options)
        return made

    def plain(self) -> datetime.date:
        return datetime.date(self.year, self.month, self.day)


class FluentDateTime(FluentDateType, datetime.datetime):
    """A `datetime` with options."""

    @classmethod
    def from_date_time(cls, value: datetime.datetime, **options: Any) -> FluentDateTime:
        """A date and time with options."""
        made = cls.combine(value.date(), value.timetz())
        made.options = _changed(value, options)
        return made

    def plain(self) -> datetime.datetime:
        return datetime.datetime.combine(self.date(), self.timetz())


class FluentTime(FluentDateType, datetime.time):
    """A `time` with options."""

    @classmethod
    def from_time(cls, value: datetime.time, **options: Any) -> FluentTime:
        """A time with options."""
        made = cls(value.hour, value.minute, value.second, value.microsecond, value.tzinfo, fold=value.fold)
        made.options = _changed(value, options)
        return made

    def plain(self) -> datetime.time:
        return datetime.time(self.hour, self.minute, self.second, self.microsecond, self.tzinfo, fold=self.fold)


def _changed(value: object, options: dict[str, Any]) -> DateFormatOptions:
    """The options of a value with these changes."""
    base = value.options if isinstance(value, FluentDateType) else FluentDateType.options
    return _with(base, tuple(options.items())) if options else base


@functools.lru_cache(maxsize=1024, typed=True)
def _with(base: DateFormatOptions, options: tuple[tuple[str, Any], ...]) -> DateFormatOptions:
    return dataclasses.replace(base, **dict(options))


def fluent_date(date: Any, **options: Any) -> Any:
    """A date with the options of `DATETIME`, such as `fluent_date(date.today(), dateStyle="long")`.

    It is a `datetime`, a `date` or a `time` as well. Options that it has stay if they aren't given. `None`, which a function
    gets for what has no value, stays `None`. Raises `TypeError` for what is no date and for an option that isn't there, and
    `ValueError` for a value that an option doesn't have.
    """
    if date is None or (isinstance(date, FluentDateType) and not options):
        return date
    if isinstance(date, datetime.datetime):
        return FluentDateTime.from_date_time(date, **options)
    if isinstance(date, datetime.date):
        return FluentDate.from_date(date, **options)
    if isinstance(date, datetime.time):
        return FluentTime.from_time(date, **options)
    raise TypeError(f"fluent_date takes a date: {type(date).__name__}")


def called(value: Any = None, *_others: Any, **options: Any) -> Any:
    """The function `DATETIME` of a bundle: a date with the options that a message sets.

    An option that isn't there, and a value that it doesn't have, change nothing. Raises `TypeError` for what is no date.
    """
    if value is not None and not is_date(value):
        raise TypeError(f"DATETIME takes a date: {type(value).__name__}")
    for name, option in options.items():
        taken = _taken(name, option)
        if taken is not None:
            value = fluent_date(value, **{name: taken})
    return value


def _taken(name: str, value: object) -> object:
    """What an option makes of the value that a message has for it, or `None`."""
    option = _OPTIONS.get(name)
    if option is None:
        return None
    if name == "hour12":
        return {"true": True, "false": False}.get(value) if isinstance(value, str) else None
    if isinstance(option.takes, tuple):
        return value if isinstance(value, str) and value in option.takes else None
    # The whole part of a number counts.
    return int(value) if isinstance(value, (int, float, Decimal)) and 1 <= value < 4 else None


def is_date(value: object) -> bool:
    """Whether a value is a date, or a time."""
    return isinstance(value, (datetime.date, datetime.time))


def formatter_of(tag: bytes) -> Callable[[object], str]:
    """What shows dates as the locale of a tag writes them, and all else as `str` does."""
    return functools.partial(_shown, tag)


def _shown(tag: bytes, value: object) -> str:
    text = date_text(tag, value) if isinstance(value, (datetime.date, datetime.time)) else None
    # A locale that CLDR doesn't know writes no dates.
    return str(value) if text is None else text


class _Made(threading.local):
    """The text of a date, whose memory the next one uses."""

    def __init__(self) -> None:
        self.text = c.FluentText()

    def __del__(self, free: Callable[[c.FluentText], None] = c.library.fluent_free_text) -> None:
        free(self.text)


_made = _Made()


def date_text(tag: bytes, value: Moment) -> str | None:
    """A date as the locale of a tag writes it, or `None` if CLDR doesn't know its language."""
    options = value.options if isinstance(value, FluentDateType) else FluentDateType.options
    if isinstance(value, datetime.datetime) and options.timeZone is not None:
        value = _in_zone(value, options.timeZone)
    numbers = _numbers(value)
    return None if numbers is None else _written(tag, numbers, options, not isinstance(value, datetime.date))


def _in_zone(value: datetime.datetime, name: str) -> datetime.datetime:
    aware = value if value.utcoffset() is not None else value.replace(tzinfo=datetime.timezone.utc)
    return datetime.datetime.astimezone(aware, _zone(name))


def _numbers(value: Moment) -> Numbers | None:
    """The numbers of a date, in the order of their fields. A time as such is on some day."""
    day = (value.year, value.month, value.day) if isinstance(value, datetime.date) else (2000, 1, 1)
    if not isinstance(day[0], int):
        # What another package has in the place of a date that isn't there.
        return None
    if not isinstance(value, (datetime.datetime, datetime.time)):
        return (0, 0, *day, 0, 0, 0, False, False)
    offset = value.utcoffset()
    ahead = 0 if offset is None else offset.days * 86400 + offset.seconds
    clock = (value.hour, value.minute, value.second)
    return (ahead, value.microsecond * 1000, *day, *clock, True, offset is not None)


@functools.lru_cache(maxsize=1024)
def _written(tag: bytes, numbers: Numbers, options: DateFormatOptions, is_time: bool) -> str | None:
    given, count = _given(options, is_time)
    text = _made.text
    status = c.library.fluent_write_date(tag, len(tag), c.FluentDate(*numbers), given, count, text)
    if status == c.NO_MEMORY:
        raise MemoryError("memory ran out")
    return c.string_of(text) if status == c.READ else None


@functools.lru_cache(maxsize=1024)
def _given(options: DateFormatOptions, is_time: bool) -> c.Arguments:
    """Options as the library takes them."""
    named = {name: getattr(options, name) for name in _OPTIONS if not is_time or name in _OF_TIME}
    values = {name: value for name, value in named.items() if value is not None}
    if is_time and not (values.keys() - {"hourCycle", "hour12", "timeZoneName"}):
        values.update(hour="numeric", minute="numeric", second="numeric")
    return c.arguments([_option(name.encode(), value) for name, value in values.items()])


def _option(name: bytes, value: object) -> c.FluentArgument:
    if type(value) is int:
        return c.FluentArgument(name, len(name), b"", 0, value, 0, c.INTEGER)
    text = (str(value).lower() if isinstance(value, bool) else str(value)).encode()
    return c.FluentArgument(name, len(name), text, len(text), 0, 0, c.TEXT)
