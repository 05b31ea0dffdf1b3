"""The example that changes translations."""

import os
import subprocess
import sys
import tempfile
import unittest
from pathlib import Path

ROOT = Path(__file__).resolve().parents[3]
FILES = {
    "de.ftl": "# $name (String) - wer\nhello = Hallo, { $name }!\nbye = Tschüs,   { $name }. { hello }\n",
    "fr.ftl": "hello =\n    Bonjour, { $name }\n      !\nold = Ancien\nnew = { old }\n-t = { $name }\n",
    "it.ftl": "other   = Niente\n",
    "pl.ftl": "hello = { $name\nold = Stare\n",
}


class MigrateTest(unittest.TestCase):
    def run_in(self, folder, *options):
        """Runs the example over the files in a folder."""
        for name, text in FILES.items():
            (folder / name).write_text(text, encoding="utf-8")
        command = [sys.executable, "-B", ROOT / "examples/python/migrate.py", folder, *options]
        paths = {**os.environ, "PYTHONPATH": str(ROOT / "bindings/python"), "PYTHONUTF8": "1"}
        return subprocess.run(command, capture_output=True, text=True, env=paths)

    def test_changes_files(self):
        with tempfile.TemporaryDirectory() as room:
            folder = Path(room)
            ran = self.run_in(folder, "--id", "hello=greeting", "--variable", "hello.name=person", "--remove=old", "--write")
            texts = {path.name: path.read_text(encoding="utf-8") for path in folder.iterdir()}
        self.assertEqual(
            texts["de.ftl"],
            "# $person (String) - wer\ngreeting = Hallo, { $person }!\nbye = Tschüs,   { $name }. { greeting }\n",
        )
        self.assertEqual(
            texts["fr.ftl"], "greeting =\n    Bonjour, { $person }\n      !\nnew = { old }\n-t = { $name }\n"
        )
        self.assertEqual((texts["it.ftl"], texts["pl.ftl"]), (FILES["it.ftl"], FILES["pl.ftl"]))
        self.assertEqual(ran.stdout, f"{folder / 'de.ftl'}: changed\n{folder / 'fr.ftl'}: changed\n")
        self.assertIn(f"{folder / 'fr.ftl'}:5: refers to old, which is removed\n", ran.stderr)
        self.assertIn(f"{folder / 'pl.ftl'}:", ran.stderr)
        self.assertEqual(ran.returncode, 1)

    def test_shows_what_it_would_change(self):
        with tempfile.TemporaryDirectory() as room:
            folder = Path(room)
            ran = self.run_in(folder, "--remove", "bye")
            self.assertEqual((folder / "de.ftl").read_text(encoding="utf-8"), FILES["de.ftl"])
        self.assertIn("-bye = Tschüs,   { $name }. { hello }", ran.stdout)


if __name__ == "__main__":
    unittest.main()
