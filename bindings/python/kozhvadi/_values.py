"""Values of arguments, as the library takes them."""

from __future__ import annotations

import decimal
import numbers
import re
from collections.abc import Callable, Mapping
from decimal import Decimal
from typing import Union

from . import _library as c
from ._numbers import FluentNumber, NumberFormatOptions

Value = Union[str, int, float, Decimal]
Formatter = Callable[[object], Value]

# The whole part of a number is below this.
_TOO_LARGE = 2**64

# The library's numbers have at most as many digits after the point.
_DIGITS = Decimal(1).scaleb(-18)

# It rounds a half away from zero, and is exact for what has at most 20 digits before the point and 18 after it.
_ROUNDING = decimal.Context(prec=60, rounding=decimal.ROUND_HALF_UP)

_NUMBER = re.compile(r"[-+]?(?:[0-9]+(?:\.[0-9]{0,18})?|\.[0-9]{1,18})")


class NeedsShowing(Exception):
    """A number has options that its digits don't say, so the bundle has to ask how it is shown."""


class Number(str):
    """A number as it is written, such as "1.50": it chooses variants as a number, and is shown as it is written."""

    __slots__ = ()


def encoded(text: object, what: str, name: object = None) -> bytes:
    """The bytes of a text, which is called `what`, and by its name if it has one, if it isn't a text."""
    if isinstance(text, str):
        try:
            # A subclass may have another `encode`.
            return str.encode(text)
        except UnicodeEncodeError as error:
            raise ValueError(f"{_called(what, name)} can't be written in UTF-8: {error}") from error
    raise TypeError(f"{_called(what, name)} isn't a text: {type(text).__name__}")


def _called(what: str, name: object) -> str:
    return what if name is None else f"{what} {name!r}"


def _is_number(text: str) -> bool:
    whole = text.partition(".")[0].lstrip("+-").lstrip("0")
    return bool(_NUMBER.fullmatch(text)) and len(whole) <= 20 and int(whole or "0") < _TOO_LARGE


def _rounded(value: Decimal) -> str | None:
    """A decimal with at most 18 digits after its point, or `None` if it is too large or isn't a number."""
    # Its digits aren't written out if there are too many.
    if not value.is_finite() or value.adjusted() > 20:
        return None
    exponent = value.as_tuple().exponent
    if isinstance(exponent, int) and exponent < -18:
        value = value.quantize(_DIGITS, context=_ROUNDING)
    return format(value, "f") if abs(value) < _TOO_LARGE else None


def _real(value: float | numbers.Real) -> str | None:
    """The digits of a float, as Python shows them: those of 1.0 are "1". `None` if it is too large or isn't a number."""
    try:
        shown = repr(float(value))
    except OverflowError:
        return None
    # Most floats are shown without an exponent, and so few characters have at most 18 digits after the point.
    if len(shown) <= 20 and "e" not in shown and shown[-1].isdigit():
        return shown.removesuffix(".0")
    text = _rounded(Decimal(shown))
    return text.rstrip("0").rstrip(".") if text and "." in text else text


def _number(name: str, value: object) -> tuple[int, str] | None:
    """The kind of a number and its text, or `None` for another object. One that is too large is a text."""
    if isinstance(value, Decimal):
        text = _rounded(value)
    elif isinstance(value, (int, numbers.Integral)):
        integer = int(value)
        text = str(integer) if abs(integer) < _TOO_LARGE else None
    elif isinstance(value, (float, numbers.Real)):
        text = _real(value)
        if text is not None:
            # A float has no written digits, so the locale says how many are shown.
            return c.FLOAT, text
    else:
        return None
    return (c.TEXT, _shown(name, value)) if text is None else (c.DECIMAL, text)


def _with_digits(name: str, value: FluentNumber) -> tuple[int, str]:
    """A number with the least number of digits after the point that its options say, which chooses variants too."""
    kind, text = _number(name, value) or (c.TEXT, str(value))
    least = min(value.options.minimumFractionDigits or 0, 18)
    digits = len(text.partition(".")[2])
    if kind == c.TEXT or digits >= least:
        return kind, text
    return c.DECIMAL, text + ("" if digits else ".") + "0" * (least - digits)


def _shown(name: str, value: object) -> str:
    """A number that is too large for the library, as `str` shows it."""
    try:
        return str(value)
    except ValueError as error:
        # Python has a bound on the digits of an integer that it writes.
        raise ValueError(f"the argument {name!r} has too many digits to be shown: {error}") from error


def _text(name: str, value: str) -> tuple[int, str]:
    """The kind of a text."""
    if not isinstance(value, Number):
        return c.TEXT, value
    if not _is_number(value):
        raise ValueError(f"the argument {name!r} isn't a number that can be shown: {str.__str__(value)!r}")
    return c.DECIMAL, value


def kind_and_text(name: str, value: object, formatter: Formatter, options_count: bool = True) -> tuple[int, str]:
    """The kind of a value and its text. The formatter makes a value of what is neither a text nor a number.

    Raises `NeedsShowing` for a number with options, if they count.
    """
    if isinstance(value, str):
        return _text(name, value)
    if isinstance(value, FluentNumber) and value.options != NumberFormatOptions():
        if options_count:
            raise NeedsShowing
        return _with_digits(name, value)
    found = _number(name, value)
    if found is not None:
        return found
    made = formatter(value)
    if isinstance(made, str):
        return _text(name, made)
    found = _number(name, made)
    if found is None:
        what = f"neither a text nor a number of the argument {name!r}"
        raise TypeError(f"the formatter made {what}: {type(made).__name__}")
    return found


def _argument(name: str, value: object, formatter: Formatter, options_count: bool) -> c.FluentArgument:
    key = encoded(name, "the name of an argument", name)
    if type(value) is int and -(2**63) <= value < 2**63:
        return c.FluentArgument(key, len(key), b"", 0, value, 0, c.INTEGER)
    kind, text = (c.TEXT, value) if type(value) is str else kind_and_text(name, value, formatter, options_count)
    data = encoded(text, "the argument", name)
    return c.FluentArgument(key, len(key), data, len(data), 0, 0, kind)


# No arguments, as the library takes them.
NO_ARGUMENTS = c.arguments([])


def arguments_of(arguments: Mapping[str, object], formatter: Formatter, options_count: bool = True) -> c.Arguments:
    """Arguments by their names, as the library takes them.

    Raises `NeedsShowing` for a number with options, if they count.
    """
    if not arguments:
        return NO_ARGUMENTS
    return c.arguments([_argument(name, value, formatter, options_count) for name, value in arguments.items()])
