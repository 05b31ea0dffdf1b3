"""The wheel that tools/release makes: its commands, and the pages in it."""

import importlib
import os
import subprocess
import sys
import tempfile
import unittest
import zipfile
from pathlib import Path

from kozhvadi import __version__

FOLDER = Path(__file__).resolve().parents[1]
ROOT = FOLDER.parents[1]
COMMANDS = {"kozhvadi-server": "kozhvadi.server.__main__:main", "kozhvadi-playground": "kozhvadi.playground.__main__:main"}


class WheelTest(unittest.TestCase):
    def setUp(self):
        made = tempfile.TemporaryDirectory()
        self.addCleanup(made.cleanup)
        self.folder = Path(made.name)
        library, extension = FOLDER / "kozhvadi/libfluent_c.so", FOLDER / "kozhvadi/_fast.abi3.so"
        words = [sys.executable, "-B", ROOT / "tools/release/wheel.py", FOLDER, library, extension, __version__, self.folder]
        subprocess.run([*map(str, words)], check=True)
        (path,) = self.folder.glob("*.whl")
        with zipfile.ZipFile(path) as wheel:
            wheel.extractall(self.folder / "site")

    def test_its_commands(self):
        text = (self.folder / f"site/kozhvadi-{__version__}.dist-info/entry_points.txt").read_text(encoding="utf-8")
        head, *lines = text.splitlines()
        self.assertEqual(head, "[console_scripts]")
        self.assertEqual(dict(line.split(" = ") for line in lines), COMMANDS)
        for name in COMMANDS.values():
            module, _, function = name.partition(":")
            self.assertTrue(callable(getattr(importlib.import_module(module), function)))

    def test_its_server_names_pages(self):
        script = "from kozhvadi.server._codes import link_of; print(link_of('duplicate-id')['codeDescription']['href'])"
        script += "; print(link_of('missing-file')['codeDescription']['href'])"
        ran = subprocess.run(
            [sys.executable, "-B", "-c", script],
            env={**os.environ, "PYTHONPATH": str(self.folder / "site")},
            cwd=self.folder,
            capture_output=True,
            text=True,
            check=True,
        )
        for link, code in zip(ran.stdout.split(), ("duplicate-id", "missing-file"), strict=True):
            path, _, line = link.removeprefix("file://").partition("#L")
            self.assertIn("/site/kozhvadi/server/pages/", path)
            self.assertIn(f"`{code}`", Path(path).read_text(encoding="utf-8").splitlines()[int(line) - 1])


if __name__ == "__main__":
    unittest.main()
