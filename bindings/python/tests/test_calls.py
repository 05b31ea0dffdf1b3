"""The calls of the library: they are the same by the extension and by ctypes."""

import os
import threading
import unittest
from decimal import Decimal
from pathlib import Path

from kozhvadi import Bundle, FluentError, Number, ResolverError, _extension

EXTENSION = Path(_extension.__file__).with_name("_fast.abi3.so")


class Text(str):
    """A text of a class of its own."""


class CallsTest(unittest.TestCase):
    source = "a = { $x }\nmany =" + "".join(f" {{ $v{number} }}" for number in range(20)) + "\n    .title = T\n"

    def setUp(self):
        self.bundle = Bundle(self.source, isolating=False)
        self.addCleanup(self.bundle.close)

    def test_the_extension_is_used_if_it_is_there(self):
        is_wanted = EXTENSION.exists() and not os.environ.get("KOZHVADI_CTYPES")
        self.assertEqual(_extension.calls_type is not None, is_wanted)

    def test_values_of_each_kind(self):
        for value, shown in [
            ("", ""), ("x\0y", "x\0y"), ("Ž" * 5000, "Ž" * 5000), (Text("t"), "t"), (0, "0"), (-1, "-1"), (True, "1"),
            (-(2**63), str(-(2**63))), (2**63, str(2**63)), (2**64 - 1, str(2**64 - 1)), (2**64, str(2**64)),
            (-(2**63) - 1, str(-(2**63) - 1)), (1.5, "1.5"), (Decimal("1.50"), "1.50"), (Number("007"), "7"),
            (None, "None"), (object, str(object)),
        ]:
            self.assertEqual(self.bundle.format("a", x=value), (shown, []))

    def test_texts_of_any_length(self):
        for length in (0, 1, 255, 256, 257, 511, 512, 513, 5000):
            for _ in range(2):
                self.assertEqual(self.bundle.format("a", x="x" * length), ("x" * length, []))

    def test_a_message_that_calls_functions_is_asked_again(self):
        source = "a = { F() } { $x }\n    .t = T { $x }\nb = B { $x }\n"
        bundle = Bundle(source, isolating=False, functions={"F": lambda: "f"})
        self.addCleanup(bundle.close)
        for number in range(3):
            self.assertEqual(bundle.format("a", x=number), (f"f {number}", []))
            self.assertEqual(bundle.format("a", "t", x=number), (f"T {number}", []))
            self.assertEqual(bundle.format("b", x=number), (f"B {number}", []))

    def test_more_arguments_than_are_on_the_stack(self):
        for count in range(21):
            given = {f"v{number}": [number, f"t{number}", Decimal(number)][number % 3] for number in range(count)}
            answer = self.bundle.format("many", **given)
            shown = [str(value) for value in given.values()] + [f"{{$v{number}}}" for number in range(count, 20)]
            self.assertEqual(answer.text, " ".join(shown))
            self.assertEqual(answer.errors, [ResolverError(f"Unknown variable: $v{n}") for n in range(count, 20)])

    def test_no_argument_is_lost_if_one_is_wrong(self):
        for count in (1, 8, 9, 30):
            for wrong, raised in [("\ud800", ValueError), (Number("x"), ValueError)]:
                given = {f"v{number}": f"t{number}" for number in range(count)}
                given[f"v{count - 1}"] = wrong
                with self.assertRaisesRegex(raised, f"'v{count - 1}'"):
                    self.bundle.format("many", **given)
        with self.assertRaisesRegex(ValueError, "the name of an argument"):
            self.bundle.format("many", **{"\ud800": 1})
        self.assertEqual(self.bundle.format("many", "title").text, "T")

    def test_a_formatter_may_raise(self):
        class Wrong(Exception):
            """What the formatter raises."""

        def raises(value):
            raise Wrong(value)

        with Bundle(self.source, formatter=raises) as bundle:
            for count in (1, 12):
                with self.assertRaises(Wrong):
                    bundle.format("many", **{f"v{number}": None for number in range(count)})

    def test_a_formatter_may_ask_the_same_bundle(self):
        def shown(value):
            return self.formatting.format("a", x=value[0]).text

        with Bundle(self.source, isolating=False, formatter=shown) as self.formatting:
            self.assertEqual(self.formatting.format("a", x=[1]).text, "1")
            self.assertEqual(self.formatting.format("a", x=[[[2]]]).text, "2")

    def test_a_formatter_may_close_the_bundle(self):
        bundle = Bundle(self.source, formatter=lambda _value: bundle.close() or "")
        with self.assertRaisesRegex(FluentError, "closed"):
            bundle.format("a", x=None)

    def test_formatters_may_ask_each_others_bundles(self):
        bundles = []
        met = threading.Barrier(2)

        def asks(other):
            def shown(value):
                met.wait(120)
                return bundles[other].format("a", x=value[0]).text

            return shown

        bundles += [Bundle(self.source, isolating=False, formatter=asks(other)) for other in (1, 0)]
        texts = [None, None]

        def ask(number):
            texts[number] = bundles[number].format("a", x=[number]).text

        threads = [threading.Thread(target=ask, args=(number,), daemon=True) for number in (0, 1)]
        for thread in threads:
            thread.start()
        for thread in threads:
            thread.join(120)
        self.assertEqual(texts, ["0", "1"])

    def test_names_may_be_texts_of_any_class(self):
        self.assertEqual(self.bundle.format(Text("many"), Text("title")).text, "T")
        self.assertIn((Text("many"), Text("title")), self.bundle)
        self.assertTrue(self.bundle.has_message(Text("a")))
        for wrong in [3, None, b"a"]:
            with self.assertRaises(TypeError):
                self.bundle.has_message(wrong)


if __name__ == "__main__":
    unittest.main()
