"""The extension for Visual Studio Code, as it is installed: node runs it over the real server, without the editor."""

import os
import shutil
import subprocess
import sys
import tempfile
import unittest
import zipfile
from pathlib import Path
from xml.etree import ElementTree

from kozhvadi import __version__

FOLDER = Path(__file__).resolve().parents[1]
ROOT = FOLDER.parents[1]


class ExtensionTest(unittest.TestCase):
    def setUp(self):
        made = tempfile.TemporaryDirectory()
        self.addCleanup(made.cleanup)
        self.folder = Path(made.name)
        words = [sys.executable, "-B", ROOT / "tools/release/vsix.py", ROOT / "editors", __version__, self.folder]
        told = subprocess.run([*map(str, words)], check=True, capture_output=True, text=True).stdout
        with zipfile.ZipFile(told.strip()) as package:
            package.extractall(self.folder / "unpacked")

    def test_the_package(self):
        names = {str(path.relative_to(self.folder / "unpacked")) for path in self.folder.rglob("unpacked/**/*.*")}
        self.assertLess({"extension.vsixmanifest", "[Content_Types].xml", "extension/package.json"}, names)
        self.assertFalse([name for name in names if "test" in name])
        manifest = ElementTree.parse(self.folder / "unpacked/extension.vsixmanifest").getroot()
        space = "{http://schemas.microsoft.com/developer/vsx-schema/2011}"
        self.assertEqual(manifest.find(f"{space}Metadata/{space}Identity").get("Version"), __version__)
        for asset in manifest.iter(f"{space}Asset"):
            self.assertTrue((self.folder / "unpacked" / asset.get("Path")).is_file())
        types = ElementTree.parse(self.folder / "unpacked/[Content_Types].xml").getroot()
        known = {each.get("Extension") for each in types}
        self.assertLessEqual({Path(name).suffix for name in names if name.startswith("extension")}, known)

    @unittest.skipUnless(shutil.which("node"), "there is no node")
    @unittest.skipIf(os.environ.get("KOZHVADI_CTYPES"), "node has run it over the extension of Python")
    def test_over_the_server(self):
        env = {"EXTENSION": str(self.folder / "unpacked/extension"), "PYTHON": sys.executable, "PYTHONPATH": str(FOLDER)}
        ran = subprocess.run(
            ["node", "--test", str(ROOT / "editors/vscode/test/extension.test.js")],
            env={**os.environ, **env},
            capture_output=True,
            text=True,
            timeout=600,
            check=False,
        )
        self.assertEqual(ran.returncode, 0, ran.stdout[-6000:] + ran.stderr[-2000:])


if __name__ == "__main__":
    unittest.main()
