"""The functions that a bundle has: one table of what is known of each without a call.

The library has the rows of `BUILTINS` in `crates/lint_flaws/src/builtins.rt`, too, and `tools/house/check.py` compares them.
"""

from __future__ import annotations

from typing import NamedTuple, Union

# What an option takes: a number, any text, or one of these texts.
A_NUMBER, ANY_TEXT = "a number", "any text"
# What a first argument has to be that isn't a number.
A_DATE = "a date"
Takes = Union[str, tuple[str, ...]]


class Option(NamedTuple):
    """A named argument that a function makes something of."""

    takes: Takes
    # A value as a message has it, if the option doesn't list its values.
    sample: str = ""

    @property
    def values(self) -> list[str]:
        """The values that an editor offers, as a message has them."""
        return [f'"{text}"' for text in self.takes] if isinstance(self.takes, tuple) else [self.sample]

    @property
    def described(self) -> str:
        """What the option takes, in words."""
        return " or ".join(self.values) if isinstance(self.takes, tuple) else self.takes


# How hours are counted, which counts next to a style, too.
_CLOCK = ("hour12", "hourCycle")


class Builtin(NamedTuple):
    """What is known of a function."""

    # What its first argument has to be.
    operand: str
    options: dict[str, Option]
    # The options that stand for several others.
    styles: tuple[str, ...] = ()

    @property
    def components(self) -> tuple[str, ...]:
        """The options that don't count next to one of its styles."""
        return tuple(name for name in self.options if self.styles and name not in (*self.styles, *_CLOCK))

    @property
    def is_of_number(self) -> bool:
        """Whether the function returns a number that it is given, so that a select on it chooses by plural categories."""
        return self.operand == A_NUMBER

    @property
    def is_of_date(self) -> bool:
        """Whether the function returns a date that it is given."""
        return self.operand == A_DATE


_STYLES = ("full", "long", "medium", "short")
_WIDTHS = ("narrow", "short", "long")
_DIGITS = ("numeric", "2-digit")

DATETIME = Builtin(
    A_DATE,
    {
        "dateStyle": Option(_STYLES),
        "timeStyle": Option(_STYLES),
        "hour12": Option(("true", "false")),
        "hourCycle": Option(("h11", "h12", "h23", "h24")),
        "weekday": Option(_WIDTHS),
        "era": Option(_WIDTHS),
        "year": Option(_DIGITS),
        "month": Option((*_DIGITS, *_WIDTHS)),
        "day": Option(_DIGITS),
        "dayPeriod": Option(_WIDTHS),
        "hour": Option(_DIGITS),
        "minute": Option(_DIGITS),
        "second": Option(_DIGITS),
        "fractionalSecondDigits": Option(A_NUMBER, "3"),
        "timeZoneName": Option(("short", "long", "shortOffset", "longOffset", "shortGeneric", "longGeneric")),
    },
    ("dateStyle", "timeStyle"),
)

BUILTINS = {
    "NUMBER": Builtin(
        A_NUMBER,
        {
            "type": Option(("ordinal", "cardinal")),
            "minimumFractionDigits": Option(A_NUMBER, "2"),
            "maximumFractionDigits": Option(A_NUMBER, "0"),
            "minimumIntegerDigits": Option(A_NUMBER, "2"),
            "minimumSignificantDigits": Option(A_NUMBER, "2"),
            "maximumSignificantDigits": Option(A_NUMBER, "3"),
            "useGrouping": Option(("true", "false")),
            "style": Option(("decimal", "percent", "currency")),
            "currency": Option(ANY_TEXT, '"EUR"'),
            "currencyDisplay": Option(("symbol", "code", "name")),
        },
    ),
    "DATETIME": DATETIME,
}
