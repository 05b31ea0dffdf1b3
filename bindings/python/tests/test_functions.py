"""Tests of functions that messages call."""

import tempfile
import threading
import time
import unittest
import warnings
from datetime import datetime, timedelta
from decimal import Decimal
from pathlib import Path

from kozhvadi import Bundle, FluentError, FluentWarning, Localization, MissingMessageError, Number
from kozhvadi.runtime import FluentBundle, FluentReferenceError, FluentResource, fluent_number

SOURCE = """\
settings = { PLATFORM() ->
    [windows] Settings
   *[other] { PREFERENCES() }
}
twice = { ADD($n, 1.50) }, { ADD($n, 1.50) } and { ADD(ADD($n, 1), NUMBER($n)) }
date = { DATETIME($day, dateStyle: "long") }
    .title = { DATETIME() }
gone = { SHOW($gone) }
plain = Plain { $n }
"""


class FunctionsTest(unittest.TestCase):
    def bundle(self, **functions):
        bundle = Bundle(SOURCE, isolating=False, functions=functions)
        self.addCleanup(bundle.close)
        return bundle

    def test_rounds(self):
        called = []

        def add(*values, **named):
            called.append((values, named))
            return sum(values)

        bundle = self.bundle(ADD=add)
        self.assertEqual(bundle.format("twice", n=2), ("3.50, 3.50 and 5", []))
        self.assertEqual(called, [((2, Decimal("1.50")), {}), ((2, 1), {}), ((3, 2), {})])
        self.assertEqual([type(value) for values, _ in called for value in values], [int, Decimal, int, int, int, int])

    def test_only_what_the_answer_meets(self):
        called = []
        functions = {name: lambda name=name: called.append(name) or name.lower() for name in ("PLATFORM", "PREFERENCES")}
        self.assertEqual(self.bundle(**functions).format("settings").text, "preferences")
        self.assertEqual(called, ["PLATFORM", "PREFERENCES"])
        called.clear()
        functions["PLATFORM"] = lambda: "windows"
        self.assertEqual(self.bundle(**functions).format("settings").text, "Settings")
        self.assertEqual(called, [])

    def test_values(self):
        bundle = self.bundle(DATETIME=lambda day="today", dateStyle="short": f"{day} {dateStyle}", SHOW=repr)
        self.assertEqual(bundle.format("date", day="2026-11-28").text, "2026-11-28 long")
        self.assertEqual(bundle.format("date", "title").text, "today short")
        self.assertEqual(bundle.format("gone").text, "None")
        self.assertEqual([error.kind for error in bundle.format("gone").errors], ["variable"])
        for value, shown in [(1, "1"), (1.50, "1.5"), (Decimal("1.50"), "1.50"), (Number("1.50"), "1.50"), ("x", "x"), (None, "SHOW()")]:
            self.assertEqual(self.bundle(SHOW=lambda _, value=value: value).format("gone").text, shown)
        self.assertEqual(self.bundle(SHOW=lambda value: [value]).format("gone", gone="a").text, "['a']")

    def test_messages_without_calls(self):
        bundle = self.bundle(SHOW=repr)
        self.assertEqual(bundle.format("plain", n=1), ("Plain 1", []))
        with self.assertRaises(MissingMessageError):
            bundle.format("nothing")
        with self.assertRaises(MissingMessageError):
            bundle.format("SHOW")
        with self.assertRaises(MissingMessageError):
            bundle.format("plain", "title")
        self.assertIn("settings", bundle)

    def test_what_a_bundle_has_is_the_same_with_functions(self):
        plain = Bundle(SOURCE, isolating=False)
        self.addCleanup(plain.close)
        bundle = self.bundle(SHOW=repr, ADD=sum)
        for id in ("settings", "date", "plain", "gone", "SHOW", "NUMBER"):
            self.assertEqual((id in bundle, bundle.has_message(id)), (id in plain, plain.has_message(id)))
        self.assertEqual(("date", "title") in bundle, True)
        self.assertEqual(bundle.messages(), plain.messages())
        self.assertEqual(bundle.attributes("date"), ["title"])
        self.assertEqual(bundle.variables("date"), ["day"])
        self.assertEqual(bundle.format("gone", gone="a").text, "'a'")

    def test_answers_are_asked_for_as_without_functions(self):
        """If there is the extension it asks, and not ctypes."""
        bundle = self.bundle(SHOW=repr)
        if bundle._calls is None:
            self.skipTest("there is no extension")
        bundle._format = None
        self.assertEqual(bundle.format("plain", n=1).text, "Plain 1")
        self.assertEqual(bundle.format("gone", gone="a").text, "'a'")

    def test_answers_that_are_not_kept(self):
        """Neither an exception that isn't an error nor a function that closes the bundle leaves anything behind."""
        def stop(_):
            raise KeyboardInterrupt

        bundle = self.bundle(SHOW=stop)
        for _ in range(3):
            with self.assertRaises(KeyboardInterrupt):
                bundle.format("gone", gone="a")
        self.assertEqual(bundle.format("plain", n=1).text, "Plain 1")
        bundle = self.bundle(SHOW=lambda _: bundle.close())
        with self.assertRaisesRegex(FluentError, "closed"):
            bundle.format("gone", gone="a")

    def test_functions_that_are_not_there(self):
        answer = self.bundle(SHOW=repr).format("settings")
        self.assertEqual((answer.text, [str(error) for error in answer.errors]), ("{PREFERENCES()}", ["Unknown function: PREFERENCES()"]))

    def test_what_a_function_raises_is_an_error_of_the_answer(self):
        class Silent(Exception):
            def __str__(self):
                raise self

        def raises(error):
            raise error

        source = 'a = before { F(1, z: 2) } after { $gone }\nb = { F("x") ->\n    [x] x\n   *[other] other\n}\n    .c = { F(F(3)) }\n'
        for function, told in [
            (lambda x: x, r"F\(\) raised TypeError: .*unexpected keyword argument 'z'"),
            (lambda: 1, r"F\(\) raised TypeError: .*"),
            (lambda *_, **__: raises(ValueError("a bad date")), r"F\(\) raised ValueError: a bad date"),
            (lambda *_, **__: raises(LookupError()), r"F\(\) raised LookupError"),
            (lambda *_, **__: raises(Silent()), r"F\(\) raised Silent"),
            (lambda *_, **__: raises(MissingMessageError("b")), r"F\(\) raised MissingMessageError: b"),
            (lambda *_, **__: raises(MemoryError("full")), r"F\(\) raised MemoryError: full"),
            (lambda *_, **__: "\ud800", r"F\(\) raised ValueError: the answer of 'F\(\)' can't be written in UTF-8.*"),
        ]:
            with Bundle(source, isolating=False, functions={"F": function}) as bundle:
                asked = [bundle, Localization({"de": "", "en": source}, isolating=False, functions={"F": function})]
                for texts in asked:
                    text, (error, missing) = texts.format("a")[:2]
                    self.assertEqual((text, missing.kind), ("before {F()} after {$gone}", "variable"))
                    self.assertRegex(str(error), f"^{told}$")
                    self.assertEqual((error.kind, error.id, error.attribute), ("raised", "F", None))
                    self.assertIsInstance(error, FluentError)
                    self.assertIn(type(error.__cause__).__name__, str(error))
        with Bundle(source, isolating=False, functions={"F": lambda x: raises(ValueError(x))}) as bundle:
            self.assertEqual(bundle.format("b").text, "other")
            text, errors = bundle.format("b", "c")
            self.assertEqual((text, [str(error) for error in errors]), ("{F()}", ["F() raised ValueError: 3", "F() raised ValueError: None"]))
            # The exception says where it was raised.
            self.assertEqual(errors[0].__cause__.__traceback__.tb_next.tb_next.tb_next.tb_frame.f_code.co_name, "raises")

    def test_what_ends_the_program_is_raised(self):
        for kind in (KeyboardInterrupt, SystemExit, GeneratorExit):

            def raises(_, kind=kind):
                raise kind

            bundle = self.bundle(SHOW=raises)
            with self.assertRaises(kind):
                bundle.format("gone")
            with Localization({"en": SOURCE}, functions={"SHOW": raises}) as texts, self.assertRaises(kind):
                texts.format("gone")
            self.assertEqual(bundle.format("plain", n=1).text, "Plain 1")

    def test_a_message_that_asks_for_itself_is_an_error_of_the_first_answer(self):
        asked = []

        def ask(number):
            asked.append(number)
            return bundle.format("a").text

        with Bundle("a = { ASK(1) } { ASK(2) }\n", isolating=False, functions={"ASK": ask}) as bundle:
            text, errors = bundle.format("a")
            self.assertEqual(text, "{ASK()} {ASK()}")
            self.assertEqual([type(error.__cause__) for error in errors], [RecursionError] * 2)
            self.assertLess(len(asked), 5_000)

    def test_each_different_call_is_made_once(self):
        made = []

        def called(*given):
            made.append(given)
            return given[0]

        source = "a = { F(G(1), G(1), G(2), H(G(3))) } { G(4) ->\n    [4] { G(5) }\n   *[other] { G(6) }\n} { G(5) }\n"
        bundle = Bundle(source, isolating=False, functions={"F": called, "G": called, "H": called})
        self.assertEqual(bundle.format("a").text, "1 5 5")
        self.assertEqual(sorted(made), [(1,), (1, 1, 2, 3), (2,), (3,), (3,), (4,), (5,)])

    def test_calls_have_ends_of_lines(self):
        source = 'a = { F("\u2028", "\u0085", "\\u000A") }{ F("x") }{ F("y") }\n'
        bundle = Bundle(source, isolating=False, functions={"F": lambda *given: "|".join(given)})
        self.assertEqual(bundle.format("a").text, "\u2028|\u0085|\nxy")

    def test_many_calls_take_few_rounds(self):
        rounds, each = 0, [f"G({n})" for n in range(3000)]

        def ends(*given):
            nonlocal rounds
            rounds += 1
            return len(given)

        bundle = Bundle(f"a = {{ F({', '.join(each)}) }}\n", functions={"F": ends, "G": lambda n: n}, isolating=False)
        began = time.perf_counter()
        self.assertEqual(bundle.format("a").text, "3000")
        # It takes some 0.1 s, and took half a minute when each call was a round.
        self.assertLess(time.perf_counter() - began, 5)
        self.assertEqual(rounds, 1)

    def test_names_that_no_message_calls(self):
        for name in ["f", "", "lower case", "_F", "1F", "F.G", "É", "F\n"]:
            for make in [Bundle, lambda source, functions: Localization({"en": source}, functions=functions)]:
                with self.assertRaisesRegex(ValueError, "no message can call"):
                    make("a = b\n", functions={name: repr})
        with Bundle("a = { F-1_X() }\n", isolating=False, functions={"F-1_X": lambda: "x", "N": lambda: "n"}) as bundle:
            self.assertEqual(bundle.format("a"), ("x", []))
        for make in [Bundle, lambda source, functions: Localization({"en": source}, functions=functions)]:
            with self.assertRaisesRegex(TypeError, "'SHOW'.*str"):
                make(SOURCE, functions={"SHOW": "show"})
            with self.assertRaisesRegex(TypeError, "the name of a function isn't a text: int"):
                make(SOURCE, functions={1: repr})

    def test_number_of_the_program(self):
        source = """a = { NUMBER($n) ->
    [one] one { NUMBER($n, minimumFractionDigits: 1) } "{ SHOW(NUMBER($n)) }
   *[other] { NUMBER( $n ) }
}
"""
        asked = []

        def number(value, **options):
            asked.append(value)
            return fluent_number(value, **options)

        with Bundle(source + "b = {\n", locale="de", isolating=False, functions={"NUMBER": number, "SHOW": repr}) as bundle:
            self.assertEqual([error.line for error in bundle.errors], [6])
            self.assertEqual(bundle.format("a", n=1).text, "one 1,0 \"1")
            asked.clear()
            self.assertEqual(bundle.format("a", n=1234.5), ("1.234,5", []))
            self.assertEqual(asked, [Decimal("1234.5")] * 2)
            text, errors = bundle.format("a", n="x")
            self.assertEqual((text, [type(error.__cause__) for error in errors]), ("{NUMBER()}", [TypeError] * 2))

    def test_numbers_with_options(self):
        source = """a = { $n ->
    [one] one { $n }
   *[other] other { $n } { 5.0 } { "{ $n }" } { m }
}
m = { NUMBER($n, minimumFractionDigits: 1) } { $gone }
"""
        euros = fluent_number(1234.5, style="currency", currency="EUR", maximumFractionDigits=0)
        for functions in [None, {"NUMBER": fluent_number}, {"F": repr}]:
            with Bundle(source, locale="de", isolating=False, functions=functions) as bundle:
                text, errors = bundle.format("a", n=euros)
                self.assertEqual(text, "other 1.235\xa0€ 5,0 { $n } 1.235\xa0€ {$gone}")
                self.assertEqual([str(error) for error in errors], ["Unknown variable: $gone"])
                self.assertEqual(bundle.format("a", n=fluent_number(1, useGrouping=False)).text, "one 1")
                self.assertEqual(bundle.format("a", n=fluent_number(0.25, style="percent"), gone="x").text[:11], "other 25\xa0% ")
        self.assertEqual(fluent_number(5) + 1, 6)
        self.assertIsInstance(fluent_number(5), int)
        source = 'a = { NUMBER($n, type: "ordinal", style: "roman") } { NUMBER($x) } { NUMBER() }\n'
        with Bundle(source, locale="en", isolating=False) as bundle:
            for n, shown in [(5, "5"), (fluent_number(5, minimumIntegerDigits=2), "05")]:
                self.assertEqual(bundle.format("a", n=n, x="x"), (f"{shown} NUMBER() NUMBER()", []))

    def test_functions_get_what_was_passed(self):
        day = datetime(2026, 11, 28, 12, 30)
        got = []

        def show(value, **_):
            got.append(value)
            return f"{value:%d.%m.}" if isinstance(value, datetime) else value

        price = fluent_number(2, currency="EUR")
        with Bundle(SOURCE, isolating=False, functions={"DATETIME": show, "SHOW": show}) as bundle:
            self.assertEqual(bundle.format("date", day=day).text, "28.11.")
            self.assertEqual(bundle.format("gone", gone=price).text, "2")
            self.assertEqual(bundle.format("gone", gone="2").text, "2")
        self.assertIs(got[0], day)
        self.assertIs(got[1], price)
        self.assertEqual(got[-1], "2")
        # What a function returns is passed on, too.
        source = "a = { SHOW(NEXT($day)) }\n"
        functions = {"NEXT": lambda day: day + timedelta(1), "SHOW": show}
        with Bundle(source, isolating=False, functions=functions) as bundle:
            self.assertEqual(bundle.format("a", day=day).text, "29.11.")

    def test_languages(self):
        sources = {"de": "day = { DAY($n) }\n", "en": "day = the { DAY($n) }\nother = { DAY(2) }\n", "tt": "third = { DAY(3) }\n"}
        with Localization(sources, isolating=False, functions={"DAY": lambda n: f"day {n}"}) as texts:
            self.assertEqual([texts.format(id, n=1).text for id in ("day", "other", "third")], ["day 1", "day 2", "day 3"])
        with tempfile.TemporaryDirectory() as folder:
            (Path(folder) / "de").mkdir()
            (Path(folder) / "de" / "main.ftl").write_text(sources["de"], encoding="utf-8")
            with Localization.load(folder, "main.ftl", ["de"], isolating=False, functions={"DAY": lambda n: n + 1}) as texts:
                self.assertEqual(texts.format("day", n=1).text, "2")

    def test_a_function_asks_the_bundle(self):
        bundle = self.bundle(SHOW=lambda _: bundle.format("plain", n=bundle.format("settings").text).text, PLATFORM=lambda: "windows")
        self.assertEqual(bundle.format("gone").text, "Plain Settings")

    def test_threads(self):
        bundle = self.bundle(ADD=lambda a, b: a + b)
        wrong, half = [], Decimal("1.50")

        def ask(n):
            for _ in range(200):
                if bundle.format("twice", n=n).text != f"{n + half}, {n + half} and {2 * n + 1}":
                    wrong.append(n)

        threads = [threading.Thread(target=ask, args=(n,)) for n in range(4)]
        for thread in threads:
            thread.start()
        for thread in threads:
            thread.join()
        self.assertEqual(wrong, [])

    def test_runtime(self):
        bundle = FluentBundle(["en"], functions={"ADD": lambda a, b: a + b, "SHOW": lambda _: 1 // 0}, use_isolating=False)
        bundle.add_resource(FluentResource(SOURCE))
        text, errors = bundle.format_pattern(bundle.get_message("twice").value, {"n": 2})
        self.assertEqual((text, errors), ("3.50, 3.50 and 5", []))
        text, errors = bundle.format_pattern(bundle.get_message("gone").value)
        self.assertEqual(text, "{SHOW()}")
        self.assertEqual([type(error) for error in errors], [ZeroDivisionError, FluentReferenceError])
        self.assertEqual(bundle.format_pattern(bundle.get_message("plain").value, {"n": 1}), ("Plain 1", []))

    def test_runtime_has_the_number_of_the_program(self):
        def text(functions):
            bundle = FluentBundle(["en"], functions=functions, use_isolating=False)
            bundle.add_resource(FluentResource("a = { NUMBER($n, minimumFractionDigits: 1) }\n"))
            return bundle.format_pattern(bundle.get_message("a").value, {"n": 1234})[0]

        self.assertEqual(text({"NUMBER": lambda n, **options: f"{n} {options}"}), "1234 {'minimumFractionDigits': 1}")
        with self.assertWarnsRegex(FluentWarning, "no message can call the function 'f'") as warned:
            self.assertEqual(text({"f": lambda n, **_: "mine", "OTHER": repr}), "1,234.0")
        self.assertEqual(warned.filename, __file__)
        with warnings.catch_warnings():
            warnings.simplefilter("error")
            self.assertEqual(text({"NUMBER": fluent_number}), "1,234.0")
