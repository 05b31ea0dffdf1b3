"""The project's file: its rows, which are small projects with the pairs of files that come of them, and files that are
wrong."""

import json
import os
import random
import sys
import tempfile
import unittest
from pathlib import Path

from kozhvadi._project_file import ProjectFile, Wrong

ROWS = Path(__file__).resolve().parents[3] / "tests/projects/rows.jsonl"

FILE = """\
basepath = "."
locales = ["de", "pl"]
[env]
    l = "l10n/{locale}/"
[[paths]]
    reference = "en/**"
    l10n = "{l}**"
[[filters]]
    path = "{l}old.ftl"
    key = "re:^pref-"
    action = "ignore"
"""


def listed(start):
    """The sources at or below a path."""
    if os.path.isfile(start):
        return [start]
    found = (os.path.join(folder, name) for folder, _, names in os.walk(start) for name in names)
    return sorted((each for each in found if each.endswith(".ftl")), key=os.fsencode)


@unittest.skipUnless(sys.version_info >= (3, 11), "Python 3.11 is needed to read TOML")
class ProjectFileTest(unittest.TestCase):
    maxDiff = None

    def setUp(self):
        folder = tempfile.TemporaryDirectory()
        self.addCleanup(folder.cleanup)
        self.root = os.path.realpath(folder.name)

    def written(self, files, links=None):
        for name, text in files.items():
            path = Path(self.root, name)
            path.parent.mkdir(parents=True, exist_ok=True)
            path.write_text(text, encoding="utf-8", newline="")
        for name, target in (links or {}).items():
            Path(self.root, name).symlink_to(target)
        return Path(self.root, next(name for name in files if name.endswith("l10n.toml")))

    def read(self, path):
        """The project, or what is wrong with its file."""
        try:
            project = ProjectFile.read(path)
        except Wrong as error:
            return None, str(error)
        return project, project.without_reference(listed)

    def shown(self, path):
        return path and os.path.relpath(path, self.root)

    def test_rows(self):
        for line in ROWS.read_text(encoding="utf-8").splitlines():
            row = json.loads(line)
            if "--define" in row.get("args", []):
                continue
            with self.subTest(row["name"]):
                self.setUp()
                project, wrong = self.read(self.written(row["files"], row.get("links")))
                if "error" in row:
                    self.assertTrue(wrong and wrong.startswith(f"{row['error']}: "), wrong)
                    continue
                self.assertIsNone(wrong)
                self.check(project, row["pairs"])

    def check(self, project, pairs):
        wanted = {locale: [[path, original or None] for path, original in own] for locale, own in pairs.items()}
        found = {locale: project.pairs(locale, listed) for locale in project.locales}
        told = {locale: [[self.shown(path), self.shown(each)] for path, each in own.items()] for locale, own in found.items()}
        self.assertEqual(told, wanted)
        # What is said of one file alone is the same.
        for locale, own in found.items():
            for path, original in own.items():
                self.assertEqual(project.placed(path, os.path.isfile), (locale, original))
                if original:
                    self.assertEqual(project.translation(original, locale), path)
                    self.assertEqual(project.placed(original, os.path.isfile), (None, None))

    def test_what_is_asked_of_no_project(self):
        project, _ = self.read(self.written({"l10n.toml": FILE, "en/a.ftl": "a = A\n"}))
        for name in ("l10n/fr/a.ftl", "l10n/de", "en", "a.ftl", "l10n/de-AT/a.ftl"):
            self.assertIsNone(project.placed(f"{self.root}/{name}", os.path.isfile), name)

    def test_filters(self):
        project, _ = self.read(self.written({"l10n.toml": FILE, "en/old.ftl": "a = A\n"}))
        old, new = f"{self.root}/l10n/de/old.ftl", f"{self.root}/l10n/de/new.ftl"
        self.assertTrue(project.is_left_out(old, "de", "pref-x"))
        for path, key in ((old, "x-pref-"), (old, None), (new, "pref-x")):
            self.assertFalse(project.is_left_out(path, "de", key))

    def test_damaged_files_are_refused_with_a_line_or_read(self):
        """Whatever is in the file, it is read or refused with its name and a line."""
        chance = random.Random(5)
        pieces = [*FILE.split("\n"), *FILE.split(" "), '"', "[", "]", "{", "}", "{l}", "**", "*", "/", "..", "\0", "é", "=", "1"]
        refused = 0
        for number in range(400):
            data = bytearray(FILE.encode())
            for _ in range(chance.randrange(1, 4)):
                start = chance.randrange(len(data) + 1)
                data[start : start + chance.randrange(12)] = chance.choice(pieces).encode()
            if number % 10 == 0:
                data[chance.randrange(len(data))] = 0xFF
            path = Path(self.root, "l10n.toml")
            path.write_bytes(data)
            _, wrong = self.read(path)
            if wrong:
                refused += 1
                name, line, words = wrong.split(":", 2)
                self.assertEqual(name, "l10n.toml")
                self.assertTrue(1 <= int(line) <= data.count(b"\n") + 1 and words.strip(), wrong)
        self.assertGreater(refused, 200)

    def test_hostile_files_end(self):
        doubled = "".join(f'v{number} = "{{v{number + 1}}}{{v{number + 1}}}"\n' for number in range(60))
        deep = "".join(f'v{number} = "{{v{number + 1}}}"\n' for number in range(2_000))
        for wrong in (
            f'locales = ["de"]\n[env]\n{doubled}v60 = "x"\n[[paths]]\nl10n = "{{v0}}{{locale}}"\n',
            f'locales = ["de"]\n[env]\n{deep}v2000 = "x"\n[[paths]]\nl10n = "{{v0}}{{locale}}"\n',
            "x = " + "[" * 100_000,
            'locales = ["de"]\n[[paths]]\nl10n = "\\u0000{locale}"\n',
            'locales = ["de"]\n[[includes]]\npath = "l10n.toml"\n',
            'locales = ["de"]\n[[includes]]\npath = "*"\n',
            "#" * 2_000_000,
        ):
            project, words = self.read(self.written({"l10n.toml": wrong}))
            self.assertIsNone(project)
            self.assertRegex(words, r"^l10n\.toml:[0-9]+: ")
        # A pattern of many wildcards takes no time that grows with their number.
        stars = "/".join(["*a*a*a*a*"] * 8)
        text = f'locales = ["de"]\n[[paths]]\nl10n = "{{locale}}/{stars}b"\n'
        project, words = self.read(self.written({"l10n.toml": text}))
        self.assertIsNone(project.placed(f"{self.root}/de/" + "/".join(["a" * 60] * 8), os.path.isfile))

    def test_a_file_that_cannot_be_read(self):
        path = Path(self.root, "l10n.toml")
        path.mkdir()
        self.assertRegex(self.read(path)[1], "^l10n.toml:1: it can't be read")


if __name__ == "__main__":
    unittest.main()
