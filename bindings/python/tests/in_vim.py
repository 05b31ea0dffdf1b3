"""The language server in Vim, by ALE. `in_editor.sh` runs this, if there is a `vim` with ALE."""

import json
import os
import shutil
import subprocess
import tempfile
import unittest
from pathlib import Path

from .in_emacs import EDITORS, FILES, HERE
from .in_neovim import GUIDE, with_server

# Where Debian has it, or where ALE says.
ALE = Path(os.environ.get("ALE", "/usr/share/vim-ale"))


def lines_of_the_guide():
    section = GUIDE.read_text(encoding="utf-8").partition("## Vim\n")[2].partition("\n## ")[0]
    return "".join(f"{line[4:]}\n" for line in section.split("\n") if line.startswith("    "))


class VimTest(unittest.TestCase):
    maxDiff = None

    @unittest.skipUnless(shutil.which("vim") and ALE.is_dir(), "there is no vim with ALE")
    def test_it(self):
        with tempfile.TemporaryDirectory() as made:
            folder, told, guide = (Path(made, name) for name in ("project", "told", "guide.vim"))
            for name, text in FILES.items():
                path = folder / name
                path.parent.mkdir(parents=True, exist_ok=True)
                path.write_text(text, encoding="utf-8")
            (folder / "l10n/pl/link.ftl").symlink_to("main.ftl")
            guide.write_text(lines_of_the_guide(), encoding="utf-8")
            env = {**os.environ, **with_server(made), "HOME": made, "FOLDER": str(folder), "TOLD": str(told)}
            env |= {"GUIDE": str(guide), "ALE": str(ALE), "EDITORS": str(EDITORS), "LANG": "C.UTF-8"}
            ran = subprocess.run(
                ["vim", "-es", "-N", "-u", "NONE", "-i", "NONE", "-S", str(HERE / "in_vim.vim")],
                env=env,
                stdin=subprocess.DEVNULL,
                capture_output=True,
                text=True,
                timeout=900,
                check=False,
            )
            self.assertTrue(told.exists(), ran.stdout[-2000:] + ran.stderr[-2000:])
            found = json.loads(told.read_text(encoding="utf-8"))
        self.assertEqual(found["filetype"], "fluent")
        told = sorted((line, code) for line, code, _ in found["findings"])
        self.assertEqual(told, [(2, "unknown-variable"), (3, "missing-message"), (3, "unknown-variable")])
        self.assertEqual(
            [f"{chr(10).join(lines)}\n".removeprefix("\ufeff") for lines in found["renamed"]],
            [
                FILES["l10n/pl/main.ftl"].replace("welcome", "greeting"),
                FILES["l10n/pl/mark.ftl"][1:].replace("welcome", "greeting"),
                FILES["l10n/en-US/main.ftl"].replace("welcome", "greeting"),
            ],
        )
        self.assertIn([1, "missing-reference"], [each[:2] for each in found["without"]])


if __name__ == "__main__":
    unittest.main()
