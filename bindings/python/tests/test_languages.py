"""Languages: which are used, and texts that fall back."""

import doctest
import os
import subprocess
import sys
import tempfile
import unittest
from pathlib import Path

import kozhvadi._languages
import kozhvadi._localization
import kozhvadi.runtime
from kozhvadi import FluentError, Localization, MissingMessageError, ResolverError, UnknownLocaleError, accepted_languages, negotiate_languages, system_languages
from kozhvadi.runtime import (
    FluentBundle, FluentLocalization, FluentReferenceError, FluentResource, FluentResourceLoader, fluent_date, fluent_number,
)


L10N = Path(__file__).resolve().parents[3] / "examples" / "l10n"


def load_tests(loader, tests, pattern):
    for module in (kozhvadi._languages, kozhvadi._localization, kozhvadi.runtime):
        tests.addTests(doctest.DocTestSuite(module))
    return tests


class Negotiation(unittest.TestCase):
    def test_table(self):
        rows = [
            # requested, available, used
            ("de-AT fr", "en-US de fr", "de fr"),
            ("en-US", "en_US", "en_US"),
            ("en", "en-GB en-US", "en-US en-GB"),
            ("zh-TW", "en zh-CN zh-Hant", "zh-Hant"),
            ("zh-TW", "zh zh-Hans", ""),
            ("no", "nb nn", "nb"),
            ("nb", "no", "no"),
            ("iw", "he", "he"),
            ("es-MX", "es es-419", "es-419 es"),
            ("en-AU", "en-US en-GB", "en-GB en-US"),
            ("pt-AO", "pt-BR pt-PT", "pt-PT pt-BR"),
            ("sr-Latn", "sr", "sr"),
            ("az-Arab", "az", ""),
            ("C x *", "en", ""),
        ]
        for requested, available, used in rows:
            with self.subTest(requested=requested, available=available):
                self.assertEqual(negotiate_languages(requested.split(), available.split()), used.split())

    def test_strategies(self):
        available = ["en-US", "de", "de-AT", "fr"]
        self.assertEqual(negotiate_languages(["de-AT", "fr"], available, "en-US", "filtering"), ["de-AT", "de", "fr", "en-US"])
        self.assertEqual(negotiate_languages(["de-AT", "fr"], available, "en-US", "matching"), ["de-AT", "fr", "en-US"])
        self.assertEqual(negotiate_languages(["de-AT", "fr"], available, "en-US", "lookup"), ["de-AT"])
        self.assertEqual(negotiate_languages(["pl"], available, "en-US", "lookup"), ["en-US"])
        self.assertEqual(negotiate_languages([], []), [])
        with self.assertRaises(ValueError):
            negotiate_languages(["de"], available, strategy="best")
        with self.assertRaisesRegex(TypeError, "'de'"):
            negotiate_languages("de", available)
        self.assertEqual(negotiate_languages(["\ud800", "de"], ["\ud800", "de"]), ["de"])

    def test_system(self):
        self.assertEqual(system_languages({"LC_ALL": "C", "LANGUAGE": "de"}), [])
        self.assertEqual(system_languages({"LC_MESSAGES": "pt_BR.UTF-8", "LANG": "en_US"}), ["pt-BR"])
        self.assertEqual(system_languages({"LANG": "ca_ES@valencia"}), ["ca-ES-valencia"])

    def test_accepted(self):
        self.assertEqual(accepted_languages("da, en-GB;q=0.8, en;q=0.7"), ["da", "en-GB", "en"])
        self.assertEqual(accepted_languages(""), [])
        self.assertEqual(accepted_languages("de; Q=0.1, en;level=1;q=0.2, fr;q=x"), ["fr", "en", "de"])


class Texts(unittest.TestCase):
    def test_load(self):
        with tempfile.TemporaryDirectory() as folder:
            for locale, name, text in [
                ("en-US", "main.ftl", "hello = Hello, { $name }\nbye = Bye\nlogin =\n    .title = Log in\n"),
                ("de", "main.ftl", "\ufeffhello = Hallo, { $name }\nempty =\n    .title = Leer\n"),
                ("fr", "main.ftl", "bye = Au revoir\n"),
            ]:
                (Path(folder) / locale).mkdir(exist_ok=True)
                (Path(folder) / locale / name).write_text(text, encoding="utf-8")
            with Localization.load(folder, ["main.ftl", "more.ftl"], ["de-AT", "fr"], default="en-US", isolating=False) as texts:
                self.assertEqual(texts.locales, ["de", "fr", "en-US"])
                self.assertEqual(texts.format("hello", name="Jane"), ("Hallo, Jane", [], "de"))
                self.assertEqual(texts.format("bye")[::2], ("Au revoir", "fr"))
                self.assertEqual(texts.format("login", "title")[::2], ("Log in", "en-US"))
                self.assertEqual(texts.format("hello").errors, [ResolverError("Unknown variable: $name")])
                self.assertTrue("bye" in texts and ("empty", "title") in texts and "empty" not in texts)
                for key in [("nothing",), ("empty",), ("hello", "title")]:
                    with self.assertRaises(MissingMessageError):
                        texts.format(*key)

    def test_three_folders(self):
        with Localization.load(L10N, "main.ftl", ["de-AT", "fr"], default="en-US", isolating=False) as texts:
            told = [str(texts.format(id, name="Jane")) for id in ("welcome", "thanks", "bye")]
            self.assertEqual("".join(f"{text}\n" for text in [*told, "nothing is missing"]), (L10N / "expected").read_text())
            self.assertEqual([texts.format(id).locale for id in ("thanks", "bye")], ["fr", "en-US"])
            with self.assertRaisesRegex(MissingMessageError, "'nothing': de, fr, en-US"):
                texts.format("nothing")

    def test_example(self):
        top = L10N.parents[1]
        environment = {**os.environ, "PYTHONPATH": str(top / "bindings" / "python")}
        program = [sys.executable, "examples/python/languages.py"]
        told = subprocess.run(program, cwd=top, env=environment, capture_output=True, text=True, check=True).stdout
        self.assertEqual(told, (L10N / "expected").read_text())

    def test_bundles_are_made_when_they_are_asked(self):
        with tempfile.TemporaryDirectory() as folder:
            for locale, data in [("de", b"a = A\n"), ("fr", b"b = \xff\n"), ("not a tag", b"c = C\n"), ("pl", None)]:
                (Path(folder) / locale).mkdir()
                if data is not None:
                    (Path(folder) / locale / "main.ftl").write_bytes(data)
            texts = Localization.load(folder, "main.ftl", ["de", "pl", "not a tag"], default="fr")
            self.assertEqual(texts.locales, ["de", "fr"])
            self.assertEqual(texts.format("a").text, "A")
            with self.assertRaisesRegex(ValueError, "fr.main.ftl isn't UTF-8"):
                texts.format("b")
            self.assertEqual(texts.format("a").text, "A")
            with self.assertRaisesRegex(FluentError, "'pl' isn't one of the locales in .*: de, fr"):
                Localization.load(folder, "main.ftl", ["de"], default="pl")
            with self.assertRaisesRegex(FileNotFoundError, "other.ftl"):
                Localization.load(folder, "other.ftl", ["de"])
            with self.assertRaises(FileNotFoundError):
                Localization.load(Path(folder) / "nowhere", "main.ftl", ["de"])

    def test_a_locale_is_a_tag(self):
        with self.assertRaisesRegex(UnknownLocaleError, "'not a tag'"):
            Localization({"not a tag": "a = A"})
        with self.assertRaises(TypeError):
            Localization({"de": [b"a = A"]}).format("a")
        with Localization({}) as texts, self.assertRaises(MissingMessageError):
            texts.format("a")

    def test_no_rules(self):
        texts = Localization({"tt": "n = { $n ->\n    [one] one\n   *[other] other\n}\n"})
        self.assertEqual(texts.format("n", n=1).text, "other")

    def test_numbers(self):
        sources = {locale: f"{locale} = {{ $n }}\n" for locale in ("de", "io", "tt", "en")}
        for numbers, shown in [(True, ["1.234,5", "1234.5", "1\xa0234,5", "1,234.5"]), (False, ["1234.5"] * 4)]:
            texts = Localization(sources, numbers=numbers, isolating=False)
            self.assertEqual([texts.format(locale, n=1234.5).text for locale in sources], shown)


class Runtime(unittest.TestCase):
    """What the pages of `fluent.runtime` show."""

    def test_bundle(self):
        bundle = FluentBundle(["en-US"], use_isolating=False)
        bundle.add_resource(FluentResource(
            "welcome = Welcome to this great app, { $name }!\nfoo = { -bar }\n-bar = Bar\nshort = { $n ->\n"
            "    [one] one\n   *[other] { $n }\n}\nlogin =\n    .title = Log in\n    .label = Label\n"
        ))
        message = bundle.get_message("welcome")
        self.assertEqual(bundle.format_pattern(message.value, {"name": "Jane"}), ("Welcome to this great app, Jane!", []))
        text, errors = bundle.format_pattern(message.value)
        self.assertEqual(errors, [FluentReferenceError("Unknown external: name")])
        self.assertIsNone(bundle.get_message("login").value)
        attributes = bundle.get_message("login").attributes
        self.assertEqual(list(attributes), ["title", "label"])
        self.assertEqual(bundle.format_pattern(attributes["title"])[0], "Log in")
        self.assertFalse(bundle.has_message("-bar"))
        with self.assertRaises(LookupError):
            bundle.get_message("nothing")
        self.assertEqual(bundle.format_pattern(bundle.get_message("short").value, {"n": 1})[0], "one")
        self.assertEqual(bundle.format_pattern(bundle.get_message("short").value, {"n": fluent_number(1, minimumFractionDigits=1)})[0], "1.0")
        bundle.add_resource(FluentResource("foo = Other"))
        self.assertEqual(bundle.format_pattern(bundle.get_message("foo").value)[0], "Bar")
        bundle.add_resource(FluentResource("foo = Other"), allow_overrides=True)
        self.assertEqual(bundle.format_pattern(bundle.get_message("foo").value)[0], "Other")
        self.assertEqual(bundle.format_pattern(bundle.get_message("foo").value, {"message_id": 1, "id": 2}), ("Other", []))

    def test_what_is_not_there(self):
        self.assertIsNone(fluent_date(None))
        with self.assertRaises(TypeError):
            FluentResource(b"a = A")

    def test_localization(self):
        with tempfile.TemporaryDirectory() as folder:
            for path, text in {
                "de/one.ftl": "one = in German\n", "de/two.ftl": "two = in German\n", "fr/two.ftl": "three = in French\n",
                "en/one.ftl": "four = exists\n", "en/two.ftl": "five =\n    .title = exists\n",
            }.items():
                (Path(folder) / path).parent.mkdir(exist_ok=True)
                (Path(folder) / path).write_text(text)
            texts = FluentLocalization(["de", "fr", "en"], ["one.ftl", "two.ftl"], FluentResourceLoader(folder + "/{locale}"))
            told = [texts.format_value(id) for id in ("one", "two", "three", "four", "five", "six")]
            self.assertEqual(told, ["in German", "in German", "in French", "exists", "five", "six"])


if __name__ == "__main__":
    unittest.main()
