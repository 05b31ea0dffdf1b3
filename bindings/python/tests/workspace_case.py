"""Tests of the language server in a folder of their own."""

import tempfile
import unittest
from pathlib import Path

from .language_client import Client


class WorkspaceCase(unittest.TestCase):
    """A test with a folder, and a client of a server."""

    def setUp(self):
        folder = tempfile.TemporaryDirectory()
        self.addCleanup(folder.cleanup)
        self.root = Path(folder.name, "a b ü")
        self.root.mkdir()
        self.client = self.entered(Client())

    def entered(self, client):
        self.addCleanup(client.__exit__)
        return client

    def file(self, name, text):
        """Writes a file, and returns its path."""
        path = self.root / name
        path.parent.mkdir(parents=True, exist_ok=True)
        path.write_bytes(text if isinstance(text, bytes) else text.encode())
        return path

    def found(self, diagnostics):
        return [
            (each["code"], each["severity"], each["range"]["start"]["line"], each["range"]["start"]["character"])
            for each in diagnostics
        ]

    def codes(self, uri, version=None):
        return [each["code"] for each in self.client.diagnostics(uri, version)]

    def shown(self):
        """What the server has shown to the user since the last question."""
        self.client.ask("workspace/symbol", query="")
        shown, self.client.shown = self.client.shown, []
        return shown
