"""Fluent messages from a proved library.

>>> with Bundle(["welcome = Welcome, { $name }.\\n"], locale="en", isolating=False) as bundle:
...     bundle.format("welcome", name="Jane").text
'Welcome, Jane.'
"""

from ._answers import Answer
from ._bundle import Bundle
from ._errors import (
    FluentError,
    FluentWarning,
    MissingMessageError,
    ResolverError,
    SourceError,
    UnknownLocaleError,
)
from ._languages import accepted_languages, has_plural_rules, negotiate_languages, system_languages
from ._linting import FileCounts, Finding, Report, TidyError, lint, tidy
from ._localization import Localization, LocalizedAnswer
from ._numbers import NumberFormatOptions, fluent_number
from ._occurrences import Occurrence, Symbol, occurrences
from ._values import Formatter, Number, Value

__version__ = "0.1.0"

__all__ = [
    "Answer",
    "Bundle",
    "FileCounts",
    "Finding",
    "FluentError",
    "FluentWarning",
    "Formatter",
    "Localization",
    "LocalizedAnswer",
    "MissingMessageError",
    "Number",
    "NumberFormatOptions",
    "Occurrence",
    "Report",
    "ResolverError",
    "SourceError",
    "Symbol",
    "TidyError",
    "UnknownLocaleError",
    "Value",
    "accepted_languages",
    "fluent_number",
    "has_plural_rules",
    "lint",
    "negotiate_languages",
    "occurrences",
    "system_languages",
    "tidy",
]
