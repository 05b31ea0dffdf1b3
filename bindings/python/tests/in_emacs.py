"""The language server in Emacs, by eglot. `in_editor.sh` runs this, if there is an `emacs` with eglot."""

import json
import os
import shutil
import subprocess
import tempfile
import unittest
from pathlib import Path

from .in_neovim import GUIDE, with_server

HERE = Path(__file__).resolve().parent
EDITORS = HERE.parents[2] / "editors"

FILES = {
    "l10n/en-US/main.ftl": "welcome = Welcome, { $name }.\nagain = { welcome }\nbye = Bye\n",
    "l10n/pl/main.ftl": "# Ż\U0001f44d\nwelcome = Witaj, { $nmae }.\nagain = \U0001f44d { welcome }\n",
    "l10n/pl/mark.ftl": "\ufeffmore = { welcome } { welcome }\n",
}


def lines_of_the_guide():
    """The lines for Emacs, as the guide has them, but for the folder of a release."""
    section = GUIDE.read_text(encoding="utf-8").partition("## Emacs\n")[2].partition("\n## ")[0]
    lines = "".join(f"{line[4:]}\n" for line in section.split("\n") if line.startswith("    "))
    return lines.replace("~/.local/share/editors/emacs", str(EDITORS / "emacs"))


def has_eglot():
    words = ["emacs", "--batch", "--eval", "(require 'eglot)"]
    return bool(shutil.which("emacs")) and subprocess.run(words, capture_output=True, check=False).returncode == 0


class EmacsTest(unittest.TestCase):
    maxDiff = None

    @unittest.skipUnless(has_eglot(), "there is no emacs with eglot")
    def test_it(self):
        with tempfile.TemporaryDirectory() as made:
            folder, out, guide = (Path(made, name) for name in ("project", "out", "guide.el"))
            for name, text in FILES.items():
                path = folder / name
                path.parent.mkdir(parents=True, exist_ok=True)
                path.write_text(text, encoding="utf-8")
            (folder / "l10n/pl/link.ftl").symlink_to("main.ftl")
            guide.write_text(lines_of_the_guide(), encoding="utf-8")
            env = {**with_server(made), "HOME": made}
            env |= {"FOLDER": str(folder), "OUT": str(out), "GUIDE": str(guide), "LANG": "C.UTF-8"}
            ran = subprocess.run(
                ["emacs", "--batch", "-l", str(HERE / "in_emacs.el")],
                env={**os.environ, **env},
                capture_output=True,
                text=True,
                timeout=900,
                check=False,
            )
            self.assertTrue(out.exists(), ran.stderr[-3000:])
            told = json.loads(out.read_text(encoding="utf-8"))
        self.assertEqual(told["mode"], "fluent-mode")
        lines = [[line, text.partition(" (")[0]] for line, text in told["findings"]]
        variable, missing = "the reference has no variable `$nmae`", "1 message of the reference has no translation: `bye`"
        self.assertEqual([line for line, _ in lines], [1, 2, 2])
        self.assertIn(variable, lines[0][1])
        self.assertIn(missing, [text.split("]: ")[-1] for _, text in lines][1:] + [text for _, text in lines][1:])
        self.assertEqual(
            told["renamed"],
            [
                FILES["l10n/pl/main.ftl"].replace("welcome", "greeting"),
                FILES["l10n/pl/mark.ftl"][1:].replace("welcome", "greeting"),
                FILES["l10n/en-US/main.ftl"].replace("welcome", "greeting"),
            ],
        )
        self.assertTrue(any("the reference l10n/none isn't in" in text for _, text in told["without the reference"]))


if __name__ == "__main__":
    unittest.main()
