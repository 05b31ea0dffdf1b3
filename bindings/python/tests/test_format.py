"""`Bundle.format` is a method as any in Python, also where the extension answers: it can be looked at, replaced and overridden."""

import gc
import inspect
import sys
import typing
import unittest
import warnings
import weakref
from unittest import mock

from kozhvadi import Answer, Bundle, FluentError, FluentWarning, MissingMessageError, Number, ResolverError

SOURCE = "a = A { $x }\n    .t = T { $x }\nb = { $id } { $self } { $attribute } { $bundle }\nbare =\n    .t = Bare\n"


class Text(str):
    """A text of a class of its own."""


class FormatTest(unittest.TestCase):
    def setUp(self):
        self.bundle = Bundle(SOURCE, isolating=False)
        self.addCleanup(self.bundle.close)
        # The answers after the first are those of the extension.
        self.assertEqual(self.bundle.format("a", x=1), ("A 1", []))

    def test_its_signature(self):
        for format in (Bundle.format, self.bundle.format):
            signature = inspect.signature(format)
            self.assertEqual([*signature.parameters][-3:], ["id", "attribute", "arguments"])
            self.assertEqual(signature.parameters["attribute"].default, None)
            self.assertEqual(signature.parameters["arguments"].kind, inspect.Parameter.VAR_KEYWORD)
            self.assertEqual(signature.return_annotation, "Answer")
            self.assertEqual((format.__name__, format.__qualname__), ("format", "Bundle.format"))
            self.assertEqual(format.__module__, "kozhvadi._bundle")
            self.assertTrue(inspect.getdoc(format).startswith("The text of a message's value"))
            self.assertEqual(typing.get_type_hints(format)["id"], str)
            self.assertTrue(inspect.isroutine(format))
        self.assertEqual([*inspect.signature(self.bundle.format).parameters], ["id", "attribute", "arguments"])
        self.assertTrue(inspect.isfunction(Bundle.format) and inspect.ismethod(self.bundle.format))
        self.assertIn("format", dir(self.bundle))

    def test_it_is_called_in_each_way(self):
        format, given = self.bundle.format, {"x": "you"}
        for answer in [
            format("a", x="you"), format(*["a"], **given), Bundle.format(self.bundle, "a", x="you"),
            Bundle.format(self.bundle, "a", **given), self.bundle.format("a", None, x="you"), format(Text("a"), **given),
            self.bundle.format("a", **{Text("x"): Text("you")}), getattr(self.bundle, "format")("a", None, **given),
        ]:
            self.assertIs(type(answer), Answer)
            self.assertEqual((answer, answer.text, answer.errors), (("A you", []), "A you", []))
        self.assertEqual([*map(format, ["a", "a"], ["t", None])], [("T {$x}", [ResolverError("Unknown variable: $x")]),
                                                                   ("A {$x}", [ResolverError("Unknown variable: $x")])])
        self.assertEqual(format("a", "", x=2), format("a", x=2))
        self.assertEqual(self.bundle.format, self.bundle.format)

    def test_arguments_may_have_any_name(self):
        for _ in range(2):
            answer = self.bundle.format("b", id=1, self="s", attribute=Number("2.0"), bundle=-4)
            self.assertEqual(answer, ("1 s 2.0 -4", []))
            self.assertEqual(self.bundle.format("b", id=1, self="s", attribute="a", bundle=-4), ("1 s a -4", []))

    def test_what_is_refused(self):
        for _ in range(2):
            for given in [(), ("a", "t", "more"), (1,), (None,), (b"a",), ("a", 1)]:
                with self.assertRaises(TypeError):
                    self.bundle.format(*given)
            for given in [("none",), ("none", "t"), ("a", "none"), ("bare",)]:
                with self.assertRaises(MissingMessageError):
                    self.bundle.format(*given, x=1)
            for text in ["\ud800", Text("\ud800")]:
                with self.assertRaises(ValueError):
                    self.bundle.format(text)
                with self.assertRaises(ValueError):
                    self.bundle.format("a", text)
                with self.assertRaises(ValueError):
                    self.bundle.format("a", x=text)
                with self.assertRaises(ValueError):
                    self.bundle.format("a", **{text: 1})
            with self.assertRaises(TypeError):
                Bundle.format()
            with self.assertRaises((TypeError, AttributeError)):
                Bundle.format(3, "a")
        self.bundle.close()
        with self.assertRaisesRegex(FluentError, "closed"):
            self.bundle.format("a", x=1)

    def test_the_class_may_be_patched(self):
        original = Bundle.format
        with mock.patch.object(Bundle, "format", return_value="patched"):
            self.assertEqual(self.bundle.format("a", x=1), "patched")
        self.assertEqual(self.bundle.format("a", x=1).text, "A 1")
        with mock.patch.object(Bundle, "format", autospec=True) as patched:
            self.bundle.format("a", x=1)
        patched.assert_called_once_with(self.bundle, "a", x=1)
        seen = []

        def noted(bundle, *given, **arguments):
            seen.append(given)
            return original(bundle, *given, **arguments)

        with mock.patch.object(Bundle, "format", noted):
            self.assertEqual(self.bundle.format("a", "t", x=1).text, "T 1")
        self.assertEqual(seen, [("a", "t")])
        self.bundle.format = lambda id: id
        self.assertEqual(self.bundle.format("a"), "a")
        del self.bundle.format
        self.assertEqual(self.bundle.format("a", x=1).text, "A 1")

    def test_a_subclass_may_override_it(self):
        class Loud(Bundle):
            def format(self, id, attribute=None, /, **arguments):
                text, errors = super().format(id, attribute, **arguments)
                return Answer(text.upper(), errors)

        with Loud(SOURCE, isolating=False) as bundle:
            for _ in range(3):
                self.assertEqual(bundle.format("a", x="you"), ("A YOU", []))
                self.assertEqual(Bundle.format(bundle, "a", x="you"), ("A you", []))

        class Same(Bundle):
            """One that has the method of its parent."""

        with Same(SOURCE, isolating=False) as bundle:
            for _ in range(3):
                self.assertEqual(bundle.format("a", x="you"), ("A you", []))

    def test_a_warning_names_the_line_that_asks(self):
        for ask in ("bundle.format('a', x=1)", "bundle.format('a', x=1.5)", "format('a', x=1)", "Bundle.format(bundle, 'a', x=1)"):
            bundle = Bundle("junk\na = A { $x }\n", isolating=False)
            self.addCleanup(bundle.close)
            names = {"Bundle": Bundle, "bundle": bundle, "format": bundle.format}
            with warnings.catch_warnings(record=True) as told:
                warnings.simplefilter("always")
                exec(compile(f"\n\n{ask}\n{ask}\n", "asking.py", "exec"), names)
            self.assertEqual([(each.category, each.filename, each.lineno) for each in told], [(FluentWarning, "asking.py", 3)])

    def test_a_warning_may_be_an_error(self):
        bundle = Bundle("junk\na = A { $x }\n", isolating=False)
        self.addCleanup(bundle.close)
        with warnings.catch_warnings():
            warnings.simplefilter("error")
            with self.assertRaises(FluentWarning):
                bundle.format("a", x=1)
            self.assertEqual(bundle.format("a", x=1).text, "A 1")

    def test_its_method_keeps_the_bundle(self):
        bundle = Bundle(SOURCE, isolating=False)
        format = bundle.format
        self.assertEqual(format("a", x=1).text, "A 1")
        gone, bundle = weakref.ref(bundle), None
        gc.collect()
        self.assertEqual((format("a", x=2).text, format("a", x=2.5).text), ("A 2", "A 2.5"))
        self.assertIs(format.__self__, gone())
        del format
        gc.collect()
        self.assertIsNone(gone())

    def test_functions_that_are_not_called(self):
        called = []
        functions = {"F": lambda: called.append(1) or "f"}
        with Bundle(SOURCE + "f = { F() } { $x }\n", isolating=False, functions=functions) as bundle:
            for number in range(3):
                self.assertEqual(bundle.format("a", x=number), (f"A {number}", []))
                self.assertEqual(bundle.format("a", "t", x="x"), ("T x", []))
            self.assertEqual(called, [])
            self.assertEqual([bundle.format("f", x=1).text for _ in range(3)], ["f 1"] * 3)
            self.assertEqual(called, [1, 1, 1])

    def test_nothing_is_held_after_an_answer(self):
        name, count = "".join(["Ja", "ne"]), 10**9
        id, attribute = "".join(["", "a"]), "".join(["", "t"])
        objects = [name, count, id, attribute, None, self.bundle]
        self.bundle.format(id, attribute, x=name)
        before = [sys.getrefcount(each) for each in objects]
        for number in range(1000):
            self.bundle.format(id, attribute, x=name)
            self.bundle.format(id, x=count)
            self.bundle.format(id, None)
            self.bundle.format(id, x=name, **{f"x{each}": count for each in range(number % 12)})
        after = [sys.getrefcount(each) for each in objects]
        self.assertTrue(all(later - earlier < 100 for earlier, later in zip(before, after)), (before, after))


if __name__ == "__main__":
    unittest.main()
