"""Errors and answers are copied and pickled, as a pool of processes does with them."""

import copy
import pickle
import unittest

import kozhvadi
from kozhvadi import (
    Answer,
    Bundle,
    FileCounts,
    Finding,
    FluentError,
    FluentWarning,
    Localization,
    LocalizedAnswer,
    MissingMessageError,
    Number,
    NumberFormatOptions,
    Occurrence,
    Report,
    ResolverError,
    SourceError,
    Symbol,
    TidyError,
    UnknownLocaleError,
    fluent_number,
    runtime,
)

FINDING = Finding("de.ftl", 1, 15, 14, "error", "unknown-term", "hi", "there is no term `-brand`", None)
COUNTS = FileCounts("de.ftl", 3, 1, None, 0)
OBJECTS = [
    Answer("Hi", [ResolverError("Unknown variable: $name")]),
    COUNTS,
    FINDING,
    FluentError("the bundle is closed"),
    FluentWarning("source 1:1:1: Junk"),
    LocalizedAnswer("Hi", [ResolverError("Unknown attribute: -brand.gender")], "de"),
    MissingMessageError("there is no message 'a'"),
    Number("1.50"),
    NumberFormatOptions(style="percent"),
    fluent_number(1.5, currency="EUR"),
    Occurrence(Symbol("variable", "x", "a"), 3, 4, False),
    Report([FINDING], [COUNTS], 1),
    ResolverError("F() raised TypeError: no"),
    SourceError("en.ftl:2:4: expected `=`", "ExpectedToken", "en.ftl", 2, 4),
    Symbol("message", "a"),
    TidyError("a carriage return ends no line", 3, 4),
    UnknownLocaleError("the locale 'x' is no tag of a language"),
    runtime.FluentFormatError("No default"),
    runtime.FluentReferenceError("Unknown external: name"),
    runtime.FluentCyclicReferenceError("Cyclic reference"),
]


class CopiesTest(unittest.TestCase):
    def test_each_class_is_here(self):
        classes = {each for each in map(kozhvadi.__dict__.get, kozhvadi.__all__) if isinstance(each, type)}
        # These two hold what the library keeps, and refuse it.
        self.assertEqual(classes - set(map(type, OBJECTS)), {Bundle, Localization})

    def test_objects(self):
        ways = [copy.copy, copy.deepcopy]
        ways += [lambda each, to=to: pickle.loads(pickle.dumps(each, to)) for to in range(pickle.HIGHEST_PROTOCOL + 1)]
        for each in OBJECTS:
            for way in ways:
                with self.subTest(each=each, way=way):
                    made = way(each)
                    self.assertIs(type(made), type(each))
                    self.assertEqual((str(made), repr(made)), (str(each), repr(each)))
                    self.assertEqual(getattr(made, "__dict__", None), getattr(each, "__dict__", None))
                    if isinstance(each, BaseException):
                        self.assertEqual(made.args, each.args)
                    else:
                        self.assertEqual(made, each)

    def test_errors_of_sources(self):
        with Bundle(["a = A\nb\n", "a = B\n", f"c = {'{' * 3000}x"]) as bundle:
            for error in bundle.errors:
                made = pickle.loads(pickle.dumps(error))
                self.assertEqual(made, error)
                self.assertEqual((made.kind, made.file, made.line, made.column), (error.kind, error.file, error.line, error.column))


if __name__ == "__main__":
    unittest.main()
