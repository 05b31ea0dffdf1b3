"""Numbers with the options of the function `NUMBER`."""

from __future__ import annotations

import dataclasses
from dataclasses import dataclass
from decimal import Decimal
from typing import Any, Union

STYLES = ("decimal", "currency", "percent")
CURRENCY_DISPLAYS = ("symbol", "code", "name")


@dataclass(frozen=True)
class NumberFormatOptions:
    """How a number is shown, by the names that the function `NUMBER` has for it."""

    style: str = "decimal"
    currency: str | None = None
    currencyDisplay: str = "symbol"
    useGrouping: bool = True
    minimumIntegerDigits: int | None = None
    minimumFractionDigits: int | None = None
    maximumFractionDigits: int | None = None
    minimumSignificantDigits: int | None = None
    maximumSignificantDigits: int | None = None

    def __post_init__(self) -> None:
        if self.style not in STYLES:
            raise ValueError(f"the style of a number is one of {', '.join(STYLES)}: {self.style!r}")
        if self.currencyDisplay not in CURRENCY_DISPLAYS:
            raise ValueError(f"currencyDisplay is one of {', '.join(CURRENCY_DISPLAYS)}: {self.currencyDisplay!r}")
        if self.currency is not None and not (self.currency.isascii() and self.currency.isalpha()):
            raise ValueError(f"a currency is its code of letters, such as EUR: {self.currency!r}")

    def arguments(self) -> str:
        """The options that aren't the usual ones, as named arguments of a call of `NUMBER`, each after a comma."""
        parts = []
        for field in dataclasses.fields(self):
            value = getattr(self, field.name)
            if value != field.default:
                shown = f'"{str(value).lower() if isinstance(value, bool) else value}"'
                parts.append(f", {field.name}: {value if type(value) is int else shown}")
        return "".join(parts)


class FluentNumber:
    """A number with options. It is made of a number and options by their names, or of another one with changes."""

    options: NumberFormatOptions

    def __new__(cls, value: Any, **options: Any) -> FluentNumber:
        base = value.options if isinstance(value, FluentNumber) else NumberFormatOptions()
        made: FluentNumber = super().__new__(cls, value)  # type: ignore[call-arg]
        made.options = dataclasses.replace(base, **_plain(options))
        return made

    def plain(self) -> Any:
        """The number without options."""
        plain: Any = type(self).__mro__[2]
        return plain(self)

    def __reduce__(self) -> Any:
        return _again, (type(self), self.plain(), dataclasses.asdict(self.options))


def _again(cls: type[FluentNumber], value: Any, options: dict[str, Any]) -> FluentNumber:
    return cls(value, **options)


class FluentInt(FluentNumber, int):
    """An `int` with options."""


class FluentFloat(FluentNumber, float):
    """A `float` with options."""


class FluentDecimal(FluentNumber, Decimal):
    """A `Decimal` with options."""


def _plain(options: dict[str, Any]) -> dict[str, Any]:
    """Options as they are kept: those that messages give are texts and numbers of any kind."""
    plain = dict(options)
    for name, value in options.items():
        if name == "useGrouping":
            plain[name] = value not in (False, "false")
        elif name.endswith("Digits") and value is not None:
            plain[name] = int(value)
    return plain


Numeric = Union[int, float, Decimal]


def fluent_number(number: Any, **options: Any) -> Any:
    """A number with the options of `NUMBER`, such as `fluent_number(1234.5, style="currency", currency="EUR")`.

    It is a number as well: an `int`, a `float` or a `Decimal`. Options that it has stay if they aren't given. `None`, which
    a function gets for what has no value, stays `None`. Raises `TypeError` for what is no number and for an option that
    isn't there, and `ValueError` for a value that an option doesn't have.
    """
    if number is None:
        return None
    for plain, made in ((int, FluentInt), (float, FluentFloat), (Decimal, FluentDecimal)):
        if isinstance(number, plain) and not isinstance(number, bool):
            return made(number, **options)
    raise TypeError(f"fluent_number takes a number: {type(number).__name__}")
