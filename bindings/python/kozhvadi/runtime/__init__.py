"""The names and the manners of the package `fluent.runtime`, so that a program which uses it changes its import.

>>> bundle = FluentBundle(["en-US"], use_isolating=False)
>>> bundle.add_resource(FluentResource("welcome = Welcome, { $name }!\\n"))
>>> bundle.format_pattern(bundle.get_message("welcome").value, {"name": "Jane"})
('Welcome, Jane!', [])

A number is written as the locale does, such as `1,234.5` in English, and a date too, such as `11/28/2026`. Functions of the
program's own get what was passed, such as a date, and `NUMBER` and `DATETIME` may be among them. Any thread may ask.
"""

from .bundle import FluentBundle, Message, Pattern
from .errors import FluentCyclicReferenceError, FluentFormatError, FluentReferenceError
from .fallback import AbstractResourceLoader, FluentLocalization, FluentResourceLoader
from .resource import FluentResource
from .types import fluent_date, fluent_number

__all__ = [
    "AbstractResourceLoader",
    "FluentBundle",
    "FluentCyclicReferenceError",
    "FluentFormatError",
    "FluentLocalization",
    "FluentReferenceError",
    "FluentResource",
    "FluentResourceLoader",
    "Message",
    "Pattern",
    "fluent_date",
    "fluent_number",
]
