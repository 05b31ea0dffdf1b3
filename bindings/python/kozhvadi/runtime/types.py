"""Values with options, under the names of `fluent.runtime.types`."""

from __future__ import annotations

from .._dates import DateFormatOptions, FluentDate, FluentDateTime, FluentDateType, FluentTime, fluent_date
from .._numbers import FluentDecimal, FluentFloat, FluentInt, FluentNumber, NumberFormatOptions, fluent_number

__all__ = [
    "DateFormatOptions",
    "FluentDate",
    "FluentDateTime",
    "FluentDateType",
    "FluentDecimal",
    "FluentFloat",
    "FluentInt",
    "FluentNumber",
    "FluentTime",
    "NumberFormatOptions",
    "fluent_date",
    "fluent_number",
]
