"""What is wrong with files, and tidy texts."""

import doctest
import json
import re
import unittest
from pathlib import Path

import kozhvadi._linting
from kozhvadi import FileCounts, Finding, FluentError, TidyError, UnknownLocaleError, lint, tidy

ROWS = Path(__file__).resolve().parents[3] / "tests" / "rows" / "lint.jsonl"

# The options of the command that the call has, with the keys of their values.
FLAGS = {"--notes": "notes", "--strict": "strict"}
VALUES = {"--reference": "reference", "--function": "functions", "--locale": "locale", "--format": "format"}


# What the command shows as U+FFFD: control characters, and the marks that change the direction of text.
MASKED = re.compile("[\x00-\x08\x0a-\x1f\x7f-\x9f\u202a-\u202e\u2066-\u2069]")


def load_tests(loader, tests, pattern):
    tests.addTests(doctest.DocTestSuite(kozhvadi._linting))
    return tests


def asked(words):
    """What the words of a command ask for, or `None` if it is something that the call hasn't."""
    options = {"reference": [], "functions": [], "files": []}
    left = list(words[1:])
    while left:
        word, equals, value = left.pop(0).partition("=")
        if word in FLAGS:
            options[FLAGS[word]] = True
        elif word in VALUES and (equals or left):
            key = VALUES[word]
            given = value if equals else left.pop(0)
            if isinstance(options.get(key), list):
                options[key].append(given)
            elif options.setdefault(key, given) is not given:
                return None
        elif word.startswith("-"):
            return None
        else:
            options["files"].append(word)
    return options


def are_texts(options, texts):
    """Whether all that is asked about are files with texts, and none is a folder."""
    named = options["files"] + options["reference"]
    return all(name in texts for name in named) and all(isinstance(text, str) for text in texts.values())


def rows():
    """The rows of the command that reports on texts, each with what it asks for."""
    for line in ROWS.read_text(encoding="utf-8").splitlines():
        row = json.loads(line)
        options = asked(row["words"]) if row["words"][:1] == ["lint"] and row["status"] in (0, 1) else None
        texts = row.get("files", {})
        if options and options["files"] and are_texts(options, texts):
            yield row, options, texts


def reported(options, texts):
    named = {key: [(name, texts[name]) for name in options[key]] for key in ("files", "reference")}
    others = {key: value for key, value in options.items() if key not in ("files", "reference", "format")}
    return lint(named["files"], reference=named["reference"], **others)


class LintTest(unittest.TestCase):
    def test_the_rows_of_the_command(self):
        tried = {"json": 0, "line": 0}
        for row, options, texts in rows():
            format = options.get("format", "text")
            if format not in tried:
                continue
            tried[format] += 1
            with self.subTest(row["what"]):
                report = reported(options, texts)
                self.assertEqual(report.status, row["status"])
                if format == "line":
                    shown = [MASKED.sub("\ufffd", str(finding)) for finding in report.findings]
                    self.assertEqual(shown, row["stdout"].splitlines())
                    continue
                objects = [json.loads(line) for line in row["stdout"].splitlines()]
                self.assertEqual([vars(finding) for finding in report.findings], [it for it in objects if "code" in it])
                self.assertEqual([vars(counts) for counts in report.counts], [it for it in objects if "code" not in it])
        self.assertGreater(min(tried.values()), 2, tried)

    def test_files_may_be_pairs(self):
        text = "a = { -b }\n"
        found = Finding("x.ftl", 1, 7, 6, "error", "unknown-term", "a", "there is no term `-b`", None)
        self.assertEqual(lint([("x.ftl", text)]).findings, [found])
        self.assertEqual(lint(iter({"x.ftl": text}.items())).findings, [found])
        codes = [finding.code for finding in lint([("x.ftl", text), ("x.ftl", text)]).findings]
        self.assertEqual(codes, ["unknown-term", "duplicate-id", "unknown-term"])
        self.assertEqual(lint({}).findings, [])

    def test_options(self):
        files, reference = {"de.ftl": "a = b\nc = { F() }\n"}, {"en.ftl": "a = b\n"}
        self.assertEqual(lint(files).status, 0)
        self.assertEqual(lint(files, strict=True).status, 1)
        self.assertEqual(lint(files, functions=iter(["F"]), strict=True).findings, [])
        report = lint(files, reference=reference, notes=True)
        self.assertEqual([finding.code for finding in report.findings], ["untranslated", "obsolete-message", "unknown-function"])
        self.assertEqual(report.counts, [FileCounts("de.ftl", 2, None, 1, 1), FileCounts("en.ftl", 1, 0, None, None)])
        plural = {"a": "a = { $n ->\n   *[one] { $n } x\n }\n"}
        self.assertEqual(lint(plural, locale="en").findings, [])
        self.assertEqual(len(lint(plural, locale="cy").findings), 4)
        self.assertEqual(lint(plural, locale="C").findings, [])

    def test_what_is_refused(self):
        with self.assertRaises(UnknownLocaleError):
            lint({}, locale="no tag")
        with self.assertRaisesRegex(ValueError, "'x.ftl'"):
            lint({"x.ftl": "\ud800"})
        with self.assertRaises(ValueError):
            lint({"\ud800": ""})
        with self.assertRaises(MemoryError):
            lint({"deep.ftl": "a = " + "{" * 1430 + "1" + "}" * 1430})
        for wrong in ["a = b\n", b"a = b\n", 3, ["a"], {"a": None}]:
            with self.assertRaises((TypeError, ValueError)):
                lint(wrong)
        with self.assertRaisesRegex(TypeError, "list of names"):
            lint({}, functions="NUMBER")


class TidyTest(unittest.TestCase):
    def test_texts(self):
        for source, text in [
            ("", ""),
            ("a=b", "a = b\n"),
            ("\ufeffa = b\r\n\r\n\r\nc = d\r\n", "a = b\n\nc = d\n"),
            ("a = x\0y\n", "a = x\0y\n"),
        ]:
            self.assertEqual(tidy(source), text)
            self.assertEqual(tidy(text), text)

    def test_places(self):
        for source, line, column, reason in [
            ("a = b\nc\n", 2, 2, "expected `=` after `c`, found the end of the line"),
            ("\ufeffa = b\r\n\r\né = \"é\"\r\n", 3, 1, "expected a message, a term or a comment, found `é`"),
            ("a = é }\nb\n", 1, 7, None),
        ]:
            with self.assertRaises(TidyError) as raised:
                tidy(source)
            self.assertEqual((raised.exception.line, raised.exception.column), (line, column))
            self.assertTrue(str(raised.exception).startswith(f"line {line}, column {column}: "))
            if reason:
                self.assertEqual(raised.exception.reason, reason)

    def test_no_places(self):
        with self.assertRaisesRegex(TidyError, "carriage return") as raised:
            tidy("a = \r b\n")
        self.assertIsNone(raised.exception.line)
        self.assertIsInstance(raised.exception, (FluentError, ValueError))
        with self.assertRaises(MemoryError):
            tidy("a = " + "{" * 1430 + "1" + "}" * 1430)
        with self.assertRaises(ValueError):
            tidy("\ud800")
        with self.assertRaises(TypeError):
            tidy(b"a = b\n")


if __name__ == "__main__":
    unittest.main()
