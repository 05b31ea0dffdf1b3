"""What `fluent_c.h` declares, in the shared library next to this file."""

from __future__ import annotations

import ctypes
import os
from collections.abc import Sequence
from pathlib import Path

READ = 0
NOT_UTF8 = 1
NO_MEMORY = 2
UNKNOWN_LOCALE = 3
NO_MESSAGE = 4
NO_PATTERN = 5
BAD_ARGUMENT = 6
NO_BUNDLE = 7
HAS_ERRORS = 8
DAMAGED = 9
CARRIAGE_RETURN = 10
NOT_TIDY = 11
CALL = 12
NOT_JSON = 13
NOT_TREE = 14

TEXT = 0
DECIMAL = 1
INTEGER = 2
UNSIGNED = 3
NO_VALUE = 4
FLOAT = 5

FILTERING = 0
MATCHING = 1
LOOKUP = 2

# The budget of the stack that fluent_bundle_new has.
THREAD_STACK = 1_572_864


class FluentSource(ctypes.Structure):
    _fields_ = [("text", ctypes.c_char_p), ("len", ctypes.c_size_t)]


class FluentFile(ctypes.Structure):
    _fields_ = [
        ("name", ctypes.c_char_p),
        ("name_len", ctypes.c_size_t),
        ("text", ctypes.c_char_p),
        ("text_len", ctypes.c_size_t),
    ]


class FluentLintOptions(ctypes.Structure):
    _fields_ = [
        ("functions", ctypes.POINTER(FluentSource)),
        ("function_count", ctypes.c_size_t),
        ("locale", ctypes.c_char_p),
        ("locale_len", ctypes.c_size_t),
        ("notes", ctypes.c_bool),
        ("strict", ctypes.c_bool),
    ]


class FluentCounts(ctypes.Structure):
    _fields_ = [(name, ctypes.c_size_t) for name in ("messages", "terms", "comments", "junk", "errors")]


class FluentPlace(ctypes.Structure):
    _fields_ = [("line", ctypes.c_size_t), ("column", ctypes.c_size_t)]


class FluentText(ctypes.Structure):
    _fields_ = [
        ("held", ctypes.c_bool),
        ("bytes", ctypes.c_void_p),
        ("len", ctypes.c_size_t),
        ("owner", ctypes.c_void_p),
    ]


class FluentBundle(ctypes.Structure):
    _fields_ = [
        ("held", ctypes.c_bool),
        ("sources", ctypes.c_void_p),
        ("read", ctypes.c_void_p),
        ("desk", ctypes.c_void_p),
    ]


class FluentBundleOptions(ctypes.Structure):
    _fields_ = [
        ("size", ctypes.c_size_t),
        ("locale", ctypes.c_char_p),
        ("locale_len", ctypes.c_size_t),
        ("stack", ctypes.c_size_t),
        ("isolating", ctypes.c_bool),
        ("overriding", ctypes.c_bool),
        ("plain_numbers", ctypes.c_bool),
    ]


class FluentArgument(ctypes.Structure):
    _fields_ = [
        ("name", ctypes.c_char_p),
        ("name_len", ctypes.c_size_t),
        ("text", ctypes.c_char_p),
        ("text_len", ctypes.c_size_t),
        ("integer", ctypes.c_int64),
        ("unsigned_integer", ctypes.c_uint64),
        ("kind", ctypes.c_uint32),
    ]


class FluentPattern(ctypes.Structure):
    """What the extension passes to the library."""

    _fields_ = [
        ("id", ctypes.c_char_p),
        ("id_len", ctypes.c_size_t),
        ("attribute", ctypes.c_char_p),
        ("attribute_len", ctypes.c_size_t),
        ("number", ctypes.c_size_t),
    ]


class FluentDate(ctypes.Structure):
    _fields_ = [
        ("offset", ctypes.c_int32),
        ("nanosecond", ctypes.c_uint32),
        ("year", ctypes.c_int16),
        ("month", ctypes.c_uint8),
        ("day", ctypes.c_uint8),
        ("hour", ctypes.c_uint8),
        ("minute", ctypes.c_uint8),
        ("second", ctypes.c_uint8),
        ("has_time", ctypes.c_bool),
        ("has_offset", ctypes.c_bool),
    ]


# Values by their names, and how many there are.
Arguments = tuple["ctypes.Array[FluentArgument]", int]


def arguments(given: list[FluentArgument]) -> Arguments:
    """Arguments in an array, which has a place even if there are none."""
    return (FluentArgument * max(len(given), 1))(*given), len(given)


def sources(texts: Sequence[bytes]) -> tuple["ctypes.Array[FluentSource]", int]:
    """Sources in an array, which has a place even if there are none."""
    return (FluentSource * max(len(texts), 1))(*[FluentSource(text, len(text)) for text in texts]), len(texts)


def string_of(text: FluentText) -> str:
    """The text that the library returns, which is empty if there is none."""
    return ctypes.string_at(text.bytes, text.len).decode() if text.held and text.len else ""


def lines_of(text: FluentText) -> list[str]:
    """The lines of a text, each of which ends in a line feed."""
    return string_of(text).split("\n")[:-1]


def _opened() -> ctypes.CDLL:
    named = os.environ.get("KOZHVADI_LIBRARY")
    path = Path(named) if named else Path(__file__).with_name("libfluent_c.so")
    try:
        return ctypes.CDLL(str(path))
    except OSError as error:
        advice = (
            "the wheel of a release has it inside; in the repository bindings/build.sh and then bindings/python/run.sh "
            "make it; KOZHVADI_LIBRARY names another file"
        )
        raise ImportError(f"the library {path} can't be loaded ({error}): {advice}") from error


def _load() -> ctypes.CDLL:
    library = _opened()
    bundle = ctypes.POINTER(FluentBundle)
    text = ctypes.POINTER(FluentText)
    size = ctypes.c_size_t
    making: list[object] = [
        ctypes.POINTER(FluentSource), size, ctypes.c_char_p, size, ctypes.c_bool, ctypes.c_bool, size, bundle,
    ]
    calls: dict[str, list[object]] = {
        "fluent_bundle_new_within": making,
        "fluent_bundle_new_plain": making,
        "fluent_bundle_format": [
            bundle, ctypes.c_char_p, size, ctypes.c_char_p, size, ctypes.POINTER(FluentArgument), size, text, text,
        ],
        "fluent_bundle_new_calling": [
            ctypes.POINTER(FluentSource), size, ctypes.POINTER(FluentBundleOptions), ctypes.POINTER(FluentSource), size,
            bundle,
        ],
        "fluent_bundle_call": [
            bundle, ctypes.c_char_p, size, ctypes.c_char_p, size, ctypes.POINTER(FluentArgument), size,
            ctypes.POINTER(FluentArgument), size, text, text, text,
        ],
        "fluent_bundle_calls": [
            bundle, ctypes.c_char_p, size, ctypes.c_char_p, size, ctypes.POINTER(FluentArgument), size,
            ctypes.POINTER(FluentArgument), size, text,
        ],
        "fluent_bundle_has": [bundle, ctypes.c_char_p, size, ctypes.c_char_p, size],
        "fluent_bundle_messages": [bundle, text],
        "fluent_bundle_attributes": [bundle, ctypes.c_char_p, size, text],
        "fluent_bundle_variables": [bundle, ctypes.c_char_p, size, text],
        "fluent_bundle_errors": [bundle, text],
        "fluent_write_date": [
            ctypes.c_char_p, size, ctypes.POINTER(FluentDate), ctypes.POINTER(FluentArgument), size, text,
        ],
        "fluent_negotiate": [
            ctypes.POINTER(FluentSource), size, ctypes.POINTER(FluentSource), size, ctypes.c_uint32,
            ctypes.POINTER(size), size, ctypes.POINTER(size),
        ],
        "fluent_parse": [ctypes.c_char_p, size, ctypes.POINTER(FluentCounts)],
        "fluent_occurrences": [ctypes.c_char_p, size, text],
        "fluent_nodes": [ctypes.c_char_p, size, text],
        "fluent_write_tree": [ctypes.c_char_p, size, ctypes.c_bool, text],
        "fluent_lint": [
            ctypes.POINTER(FluentFile), size, ctypes.POINTER(FluentFile), size, ctypes.POINTER(FluentLintOptions), text,
        ],
        "fluent_tidy": [ctypes.c_char_p, size, text, ctypes.POINTER(FluentPlace)],
    }
    for name, parameters in calls.items():
        call = getattr(library, name)
        call.argtypes = parameters
        call.restype = ctypes.c_uint32
    library.fluent_has_plural_rules.argtypes = [ctypes.c_char_p, size]
    library.fluent_has_plural_rules.restype = ctypes.c_bool
    for name, parameter in {"fluent_bundle_free": bundle, "fluent_free_text": text}.items():
        call = getattr(library, name)
        call.argtypes = [parameter]
        call.restype = None
    return library


library = _load()


def has_junk(source: bytes) -> bool:
    """Whether a stretch of a source can't be read, or the source nests too deep to say."""
    counts = FluentCounts()
    return library.fluent_parse(source, len(source), counts) != READ or bool(counts.junk)


def address_of(call: str) -> int:
    """The address of a call of the library, for the extension."""
    return ctypes.cast(getattr(library, call), ctypes.c_void_p).value or 0
