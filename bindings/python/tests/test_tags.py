"""Which tags the library, the call for C and the linter take: the rows of tests/tags, as the program and the package for Rust
have them, too."""

import ctypes
import json
import unittest
from pathlib import Path

from kozhvadi import Bundle, FluentError, UnknownLocaleError, has_plural_rules, lint
from kozhvadi import _library as c

ROWS = Path(__file__).resolve().parents[3] / "tests/tags/rows.txt"

SOURCE = "count = { $n ->\n    [one] one\n   *[other] other\n}\n"

# A language with the category `one` needs a variant for it.
LACKS_ONE = "count = { $n ->\n    [zero] none\n   *[other] other\n}\n"


def rows():
    """A tag, what 1 chooses in it, and whether its rules are those of the root."""
    for line in ROWS.read_text(encoding="utf-8").splitlines():
        tag, end = json.JSONDecoder().raw_decode(line)
        chosen, *root = line[end:].split()
        yield tag, chosen, bool(root)


def chosen_from_c(tag):
    """What `fluent_answer` says for 1, by a call as C makes it."""
    made, size = c.FluentText(), ctypes.c_size_t
    (sources, count), name, asked = c.sources([SOURCE.encode()]), tag.encode(), b"count\tn=1\n"
    status = c.library.fluent_answer(
        sources, size(count), name, size(len(name)), False, False, asked, size(len(asked)), ctypes.byref(made)
    )
    text = c.string_of(made).split("\n")[1] if status == c.READ else f"status {status}"
    c.library.fluent_free_text(made)
    return "refused" if status == c.UNKNOWN_LOCALE else text


class TagsTest(unittest.TestCase):
    def test_bundles(self):
        for tag, chosen, _ in rows():
            with self.subTest(tag=tag):
                try:
                    came = Bundle(SOURCE, locale=tag).format("count", n=1).text
                except UnknownLocaleError as error:
                    came = "refused"
                    self.assertIsInstance(error, FluentError)
                self.assertEqual(came, chosen)

    def test_calls_of_c(self):
        for tag, chosen, _ in rows():
            with self.subTest(tag=tag):
                self.assertEqual(chosen_from_c(tag), chosen)

    def test_linting(self):
        for tag, chosen, _ in rows():
            with self.subTest(tag=tag):
                try:
                    lacks = any("`one`" in finding.text for finding in lint({"a.ftl": LACKS_ONE}, locale=tag).findings)
                    # A language without plural rules lacks no category.
                    came = "one" if lacks else "other"
                except UnknownLocaleError:
                    came = "refused"
                self.assertEqual(came, chosen)

    def test_rules_of_their_own(self):
        for tag, chosen, is_root in rows():
            with self.subTest(tag=tag):
                self.assertEqual(has_plural_rules(tag), chosen != "refused" and not is_root)


if __name__ == "__main__":
    unittest.main()
