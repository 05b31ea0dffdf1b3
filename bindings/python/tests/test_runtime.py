"""What programs do with `fluent.runtime`: its imports alone are changed."""

import copy
import pickle
import tempfile
import threading
import unittest
from datetime import date, datetime
from decimal import Decimal
from pathlib import Path

import kozhvadi.runtime as runtime
import kozhvadi.runtime.builtins
from kozhvadi.runtime import (
    AbstractResourceLoader,
    FluentBundle,
    FluentLocalization,
    FluentResource,
    FluentResourceLoader,
    fluent_number,
)
from kozhvadi.runtime.errors import FluentCyclicReferenceError, FluentFormatError, FluentReferenceError
from kozhvadi.runtime.types import FluentDecimal, FluentFloat, FluentInt, FluentNumber, fluent_date

EMAILS = """emails = { $unreadEmails ->
    [0] You have no unread emails.
    [one] You have one unread email.
   *[other] You have { $unreadEmails } unread emails.
}
"""

PLATFORM = """welcome = { OS() ->
    [linux] Welcome to Linux
   *[other] Welcome
}
"""


def bundle(source, locales=("en-US",), **settings):
    settings.setdefault("use_isolating", False)
    made = FluentBundle(list(locales), **settings)
    made.add_resource(FluentResource(source))
    return made


def texts(source, args=None, id="a", **settings):
    made = bundle(source, **settings)
    return made.format_pattern(made.get_message(id).value, args)


def shown(n, source="a = { $n }", **settings):
    text, errors = texts(source, {"n": n}, **settings)
    assert not errors, errors
    return text


class Bundles(unittest.TestCase):
    def test_usage(self):
        made = bundle("welcome = Welcome to this great app!\ngreet-by-name = Hello, { $name }!\n", use_isolating=True)
        message = made.get_message("welcome")
        self.assertEqual(made.format_pattern(message.value), ("Welcome to this great app!", []))
        text, errors = made.format_pattern(made.get_message("greet-by-name").value, {"name": "Jane"})
        self.assertEqual((text, errors), ("Hello, \u2068Jane\u2069!", []))
        self.assertEqual(made.has_message("welcome"), True)
        self.assertEqual(made.has_message("goodbye"), False)
        self.assertEqual(made.locales, ["en-US"])
        self.assertEqual(made.use_isolating, True)

    def test_missing_message(self):
        with self.assertRaises(LookupError):
            bundle("a = A").get_message("b")

    def test_locales_as_a_text(self):
        self.assertEqual(FluentBundle("en").locales, ["en"])

    def test_attributes(self):
        message = bundle("login =\n    .placeholder = email@example.com\n    .title = Log in\n").get_message("login")
        self.assertIsNone(message.value)
        self.assertEqual(sorted(message.attributes), ["placeholder", "title"])
        self.assertIn("title", message.attributes)
        self.assertNotIn("label", message.attributes)
        self.assertEqual(len(message.attributes), 2)

    def test_attribute_value(self):
        made = bundle("a =\n    .title = Log in { $who }\n")
        title = made.get_message("a").attributes["title"]
        self.assertEqual(made.format_pattern(title, {"who": "you"}), ("Log in you", []))

    def test_terms(self):
        self.assertEqual(texts('-brand = { $case ->\n   *[nominative] Firefox\n    [locative] Firefoxa\n}\na = { -brand(case: "locative") }\n'), ("Firefoxa", []))

    def test_term_attribute_chooses(self):
        self.assertEqual(texts("-brand = B\n    .gender = f\na = { -brand.gender ->\n    [f] she\n   *[m] he\n}\n"), ("she", []))

    def test_message_reference(self):
        self.assertEqual(texts("a = { b } { b.c }\nb = B\n    .c = C\n"), ("B C", []))

    def test_plurals(self):
        made = bundle(EMAILS)
        pattern = made.get_message("emails").value
        told = [made.format_pattern(pattern, {"unreadEmails": n})[0] for n in (0, 1, 123)]
        self.assertEqual(told, ["You have no unread emails.", "You have one unread email.", "You have 123 unread emails."])

    def test_plurals_of_a_language(self):
        source = "a = { $n ->\n    [few] few\n    [many] many\n   *[other] other\n}\n"
        self.assertEqual([shown(n, source, locales=["pl"]) for n in (3, 5, 1.5)], ["few", "many", "other"])

    def test_first_locale_counts(self):
        self.assertEqual(shown(1234.5, locales=["de", "en"]), "1.234,5")

    def test_language_without_rules(self):
        self.assertEqual(shown(1, "a = { $n ->\n    [one] one\n   *[other] other\n}\n", locales=["oc"]), "other")

    def test_add_resource_keeps_the_old(self):
        made = bundle("a = Old\n")
        made.add_resource(FluentResource("a = New\nb = B\n"))
        self.assertEqual(made.format_pattern(made.get_message("a").value)[0], "Old")
        self.assertEqual(made.format_pattern(made.get_message("b").value)[0], "B")

    def test_allow_overrides(self):
        made = bundle("a = Old\n")
        made.add_resource(FluentResource("a = New\n"), allow_overrides=True)
        self.assertEqual(made.format_pattern(made.get_message("a").value)[0], "New")

    def test_a_pattern_asks_the_bundle_as_it_is(self):
        made = bundle("a = { b }\n")
        pattern = made.get_message("a").value
        self.assertEqual(len(made.format_pattern(pattern)[1]), 1)
        made.add_resource(FluentResource("b = B\n"))
        self.assertEqual(made.format_pattern(pattern), ("B", []))

    def test_isolating(self):
        self.assertEqual(shown("x", "a = A { $n }", use_isolating=True), "A \u2068x\u2069")

    def test_junk_is_passed_over(self):
        self.assertEqual(texts("what is this\na = A\n"), ("A", []))

    def test_literals_and_escapes(self):
        self.assertEqual(texts('a = { "{" }{ "\\u00e9" }{ 1.50 }\n'), ("{é1.50", []))


class Errors(unittest.TestCase):
    def told(self, source, args=None):
        text, errors = texts(source, args)
        return text, [(type(error), str(error)) for error in errors]

    def test_external(self):
        self.assertEqual(self.told("a = Hi { $name }"), ("Hi {$name}", [(FluentReferenceError, "Unknown external: name")]))

    def test_message(self):
        self.assertEqual(self.told("a = { b }"), ("{b}", [(FluentReferenceError, "Unknown message: b")]))

    def test_term(self):
        self.assertEqual(self.told("a = { -b }"), ("{-b}", [(FluentReferenceError, "Unknown term: -b")]))

    def test_attribute(self):
        self.assertEqual(self.told("a = { b.c }\nb = B")[1], [(FluentReferenceError, "Unknown attribute: b.c")])

    def test_function(self):
        self.assertEqual(self.told("a = { F() }"), ("{F()}", [(FluentReferenceError, "Unknown function: F")]))

    def test_cycle(self):
        self.assertEqual(self.told("a = { a }")[1], [(FluentCyclicReferenceError, "Cyclic reference")])

    def test_they_are_errors_of_values(self):
        self.assertTrue(issubclass(FluentReferenceError, FluentFormatError) and issubclass(FluentFormatError, ValueError))

    def test_they_are_compared(self):
        self.assertEqual(texts("a = { $n }")[1], [FluentReferenceError("Unknown external: n")])

    def test_they_are_pickled(self):
        error = FluentReferenceError("Unknown external: n")
        self.assertEqual(pickle.loads(pickle.dumps(error)), error)

    def test_a_missing_value_chooses_the_default(self):
        self.assertEqual(self.told("a = { $n ->\n    [one] one\n   *[other] other\n}")[0], "other")


class Numbers(unittest.TestCase):
    def test_they_are_written_as_the_locale_does(self):
        self.assertEqual([shown(n) for n in (1234567, 1234.5, Decimal("1.50"))], ["1,234,567", "1,234.5", "1.50"])

    def test_floats(self):
        self.assertEqual([shown(n) for n in (1 / 3, 0.1 + 0.2)], ["0.333", "0.3"])

    def test_currency(self):
        self.assertEqual(shown(fluent_number(1234.5, style="currency", currency="USD")), "$1,234.50")

    def test_currency_display(self):
        self.assertEqual(shown(fluent_number(5, style="currency", currency="USD", currencyDisplay="code")), "USD\xa05.00")

    def test_percent(self):
        self.assertEqual(shown(fluent_number(0.25, style="percent")), "25%")

    def test_grouping(self):
        self.assertEqual(shown(fluent_number(12345, useGrouping=False)), "12345")

    def test_maximum_fraction_digits(self):
        self.assertEqual(shown(fluent_number(1.2345, maximumFractionDigits=2)), "1.23")

    def test_minimum_fraction_digits(self):
        self.assertEqual(shown(fluent_number(1, minimumFractionDigits=2)), "1.00")

    def test_minimum_integer_digits(self):
        self.assertEqual(shown(fluent_number(7, minimumIntegerDigits=3)), "007")

    def test_significant_digits(self):
        self.assertEqual(shown(fluent_number(123456, maximumSignificantDigits=3)), "123,000")

    def test_options_of_the_message_come_on_top(self):
        self.assertEqual(shown(1.5, 'a = { NUMBER($n, minimumFractionDigits: 2, useGrouping: "false") }'), "1.50")

    def test_fraction_digits_choose(self):
        source = "a = { $n ->\n    [one] one\n   *[other] other\n}\n"
        self.assertEqual([shown(fluent_number(1), source), shown(fluent_number(1, minimumFractionDigits=1), source)], ["one", "other"])

    def test_they_are_numbers(self):
        self.assertEqual([type(fluent_number(n)) for n in (1, 1.5, Decimal(1))], [FluentInt, FluentFloat, FluentDecimal])
        self.assertIsInstance(fluent_number(1), (int, FluentNumber))
        self.assertEqual((fluent_number(5) + 1, fluent_number(2.5) * 2, str(fluent_number(5))), (6, 5.0, "5"))

    def test_options_stay(self):
        number = fluent_number(fluent_number(1, minimumFractionDigits=2), useGrouping=False)
        self.assertEqual((number.options.minimumFractionDigits, number.options.useGrouping), (2, False))
        self.assertEqual(number.options.currency, None)

    def test_they_are_copied(self):
        number = fluent_number(1.5, currency="EUR")
        for other in (copy.copy(number), pickle.loads(pickle.dumps(number))):
            self.assertEqual((other, other.options, type(other)), (number, number.options, FluentFloat))

    def test_what_is_no_option(self):
        with self.assertRaises(TypeError):
            fluent_number(1, kind="x")
        with self.assertRaises(ValueError):
            fluent_number(1, style="roman")
        with self.assertRaises(TypeError):
            fluent_number("1")

    def test_ordinals(self):
        source = 'a = { NUMBER($n, type: "ordinal") ->\n    [one] { $n }st\n    [two] { $n }nd\n   *[other] { $n }th\n}\n'
        self.assertEqual([shown(n, source) for n in (1, 2, 11)], ["1st", "2nd", "11th"])


class Functions(unittest.TestCase):
    def test_no_arguments(self):
        self.assertEqual(texts(PLATFORM, id="welcome", functions={"OS": lambda: "linux"}), ("Welcome to Linux", []))

    def test_arguments(self):
        self.assertEqual(texts("a = { F(1, $n) }", {"n": "x"}, functions={"F": lambda a, b: f"{a}{b}"}), ("1x", []))

    def test_keywords(self):
        self.assertEqual(texts('a = { F(1, by: "x", n: 2) }', functions={"F": lambda a, by, n: f"{a}{by}{n}"}), ("1x2", []))

    def test_a_number_of_the_program(self):
        functions = {"NUMBER": lambda n, **options: fluent_number(n, **{**options, "minimumFractionDigits": 1})}
        self.assertEqual(shown(5, "a = { NUMBER($n) }", functions=functions), "5.0")
        self.assertEqual(shown(5, "a = { NUMBER($n) }", functions=runtime.builtins.BUILTINS), "5")

    def test_they_give_numbers(self):
        functions = {"EUROS": lambda n: fluent_number(n, style="currency", currency="EUR")}
        self.assertEqual(shown(5, "a = { EUROS($n) }", functions=functions), "€5.00")

    def test_they_give_numbers_that_choose(self):
        self.assertEqual(texts("a = { F() ->\n    [one] one\n   *[other] other\n}", functions={"F": lambda: 1}), ("one", []))

    def test_they_get_numbers_with_options(self):
        got = []
        price = fluent_number(5, currency="EUR")
        texts("a = { F($n) }", {"n": price}, functions={"F": lambda n: got.append(n) or "x"})
        self.assertEqual(got[0].options.currency, "EUR")

    def test_they_get_dates(self):
        functions = {"DATETIME": lambda day, **options: f"{day:%d/%m/%Y}"}
        self.assertEqual(shown(date(2026, 11, 28), 'a = { DATETIME($n, dateStyle: "short") }', functions=functions), "28/11/2026")
        self.assertEqual(shown(datetime(2026, 11, 28, 9), "a = { DATETIME($n) }", functions=functions), "28/11/2026")

    def test_what_they_raise(self):
        text, errors = texts("a = before { F(1) }", functions={"F": lambda: "x"})
        self.assertEqual((text, [type(error) for error in errors]), ("before {F()}", [TypeError]))

    def test_what_has_no_value(self):
        text, errors = texts("a = { F($n) }", functions={"F": lambda n: f"<{n}>"})
        self.assertEqual((text, len(errors)), ("<None>", 1))

    def test_nested(self):
        self.assertEqual(texts("a = { F(F(1)) }", functions={"F": lambda n: n + 1}), ("3", []))


class Localizations(unittest.TestCase):
    def setUp(self):
        folder = tempfile.TemporaryDirectory()
        self.addCleanup(folder.cleanup)
        for path, text in {
            "de/main.ftl": "one = Eins\ntitle =\n    .label = Titel\n", "en/main.ftl": "one = One\ntwo = Two { $n }\ntitle = Title\n",
            "en/more.ftl": "more = More { F() }\n",
        }.items():
            (Path(folder.name) / path).parent.mkdir(exist_ok=True)
            (Path(folder.name) / path).write_text(text)
        self.loader = FluentResourceLoader(folder.name + "/{locale}")

    def made(self, **settings):
        return FluentLocalization(["de", "en"], ["main.ftl", "more.ftl"], self.loader, **settings)

    def test_fallback(self):
        asked = self.made()
        self.assertEqual([asked.format_value("one"), asked.format_value("two", {"n": 2})], ["Eins", "Two 2"])

    def test_absent(self):
        self.assertEqual(self.made().format_value("three"), "three")

    def test_a_message_without_a_value_falls_back(self):
        self.assertEqual(self.made().format_value("title"), "Title")

    def test_functions(self):
        self.assertEqual(self.made(functions={"F": lambda: "x"}).format_value("more"), "More x")

    def test_isolating(self):
        self.assertEqual(self.made(use_isolating=True).format_value("two", {"n": 2}), "Two \u20682\u2069")

    def test_loader_of_the_program(self):
        class Loader(AbstractResourceLoader):
            def resources(self, locale, resource_ids):
                yield [FluentResource(f"a = {locale} {id}") for id in resource_ids]

        self.assertEqual(FluentLocalization(["de"], ["x", "y"], Loader()).format_value("a"), "de x")

    def test_bundle_class(self):
        class Mine(FluentBundle):
            pass

        asked = self.made(bundle_class=Mine)
        self.assertEqual(asked.format_value("one"), "Eins")
        self.assertIsInstance(next(asked._bundles()), Mine)

    def test_threads(self):
        asked, found = self.made(), []
        threads = [threading.Thread(target=lambda: found.append(asked.format_value("two", {"n": 1}))) for _ in range(8)]
        for thread in threads:
            thread.start()
        for thread in threads:
            thread.join()
        self.assertEqual(found, ["Two 1"] * 8)


class Dates(unittest.TestCase):
    def test_dates(self):
        self.assertEqual(shown(date(2018, 2, 1)), "2/1/2018")
        self.assertEqual(shown(fluent_date(date(2018, 2, 1), dateStyle="long")), "February 1, 2018")
        self.assertEqual(texts("a = { DATETIME($n) }", {"n": date(2018, 2, 1)})[0], "2/1/2018")
        self.assertEqual(texts("a = { DATETIME($n) }", {"n": date(2018, 2, 1)}, functions=kozhvadi.runtime.builtins.BUILTINS)[0], "2/1/2018")


if __name__ == "__main__":
    unittest.main()
