"""The language server in Neovim, whose own client starts it. `in_editor.sh` runs this, if there is an `nvim`."""

import json
import os
import subprocess
import sys
import tempfile
import unittest
from pathlib import Path

HERE = Path(__file__).resolve().parent

FILES = {
    "l10n/en-US/main.ftl": "welcome = Welcome, { $name }.\nunread = { $count ->\n    [one] One.\n   *[other] { $count }.\n}\nbye = Bye\n",
    "l10n/pl/terms.ftl": "# The program.\n-brand = Kozhvadi\n",
    "l10n/pl/main.ftl": (
        "# Zażółć \U0001f44d\nwelcome = \U0001f44d Witaj w { -brand }, { $nmae }.\nunread = { $count ->\n    [one] Jedna.\n"
        "    [few] { $count } nie.\n   *[other] { $count } inne.\n}\n"
    ),
    "l10n/pl/mark.ftl": "\ufeffagain = { welcome } { welcome }\n",
}


GUIDE = HERE.parents[2] / "docs" / "command" / "editors.md"


def lines_of_the_guide():
    """The lines for init.lua, as the guide has them."""
    section = GUIDE.read_text(encoding="utf-8").partition("## Neovim\n")[2].partition("\n## ")[0]
    return "".join(f"{line[4:]}\n" for line in section.split("\n") if line.startswith("    "))


def with_server(folder):
    """The variables of an environment with the command `kozhvadi-server`, which is made in a folder."""
    server = Path(folder, "bin/kozhvadi-server")
    server.parent.mkdir()
    server.write_text(f'#!/bin/sh\nexec "{sys.executable}" -m kozhvadi.server "$@"\n', encoding="utf-8")
    server.chmod(0o755)
    return {"PYTHONPATH": str(HERE.parent), "PATH": f"{server.parent}:{os.environ['PATH']}"}


def without_hint(found):
    """Findings without the hints in parentheses."""
    return [[line, column, text.partition(" (")[0]] for line, column, text in found]


class NeovimTest(unittest.TestCase):
    maxDiff = None

    def test_it(self):
        with tempfile.TemporaryDirectory() as made:
            folder, out = Path(made, "project"), Path(made, "out")
            for name, text in FILES.items():
                path = folder / name
                path.parent.mkdir(parents=True, exist_ok=True)
                path.write_text(text, encoding="utf-8")
            (folder / "l10n/pl/link.ftl").symlink_to("main.ftl")
            guide = Path(made, "guide.lua")
            guide.write_text(lines_of_the_guide(), encoding="utf-8")
            set_up = f"lua FOLDER, GUIDE, OUT = [[{folder}]], [[{guide}]], [[{out}]]"
            home = with_server(made)
            home |= {
                "HOME": made,
                "XDG_CONFIG_HOME": made,
                "XDG_DATA_HOME": made,
                "XDG_STATE_HOME": made,
                "XDG_CACHE_HOME": made,
            }
            words = [
                "nvim",
                "--headless",
                "-u",
                "NONE",
                "-i",
                "NONE",
                "-n",
                "-c",
                set_up,
                "-c",
                f"luafile {HERE / 'in_neovim.lua'}",
            ]
            ran = subprocess.run(
                [*words, "-c", "qa!"],
                env={**os.environ, **home},
                capture_output=True,
                text=True,
                timeout=900,
                check=False,
            )
            told = dict(map(json.loads, out.read_text(encoding="utf-8").splitlines())) if out.exists() else {}
            self.assertIn("stopped", told, ran.stderr)
        # Neovim counts columns in bytes: the thumb is four of them.
        category = [2, 11, "unread: there is no variant for the plural category `many`"]
        missing = [6, 0, "1 message of the reference has no translation: `bye`"]
        self.assertEqual(
            without_hint(told["findings"]),
            [[1, 37, "welcome: the reference has no variable `$nmae`"], category, missing],
        )
        self.assertEqual(without_hint(told["findings after an edit"]), [category, missing])
        self.assertEqual(told["jumped to"], ["terms.ftl", 2, 2])
        self.assertIn("$count = 2    few    2 nie.", told["hover"])
        self.assertEqual(
            told["renamed"],
            [
                "greeting = \U0001f44d Witaj w { -brand }, { $name }.",
                "greeting = Welcome, { $name }.",
                "again = { greeting } { greeting }",
            ],
        )
        self.assertEqual(told["action"], "Add the variant `[many]`")
        mended = [
            "# Zażółć \U0001f44d",
            "greeting = \U0001f44d Witaj w { -brand }, { $name }.",
            "unread = { $count ->",
            "    [one] Jedna.",
            "    [few] { $count } nie.",
            "    [many] { $count } inne.",
            "   *[other] { $count } inne.",
            "}",
        ]
        self.assertEqual(told["mended"], mended)
        self.assertEqual(told["formatted"][-1], "last = { $x }")
        (absent,) = [each for each in told["without the reference"] if each[0] == 0]
        self.assertIn("the reference l10n/none isn't in", absent[2])
        self.assertTrue(told["stopped"])


if __name__ == "__main__":
    unittest.main()
