"""The example of a site."""

import importlib.util
import os
import re
import subprocess
import sys
import threading
import unittest
import urllib.request
from pathlib import Path

ROOT = Path(__file__).resolve().parents[3]
EXAMPLE, FOLDER = ROOT / "examples/python/middleware.py", ROOT / "examples/l10n"
MARKS = dict.fromkeys(map(ord, "\u2068\u2069"))


def lines_of(html):
    """The lines of a page, without isolation marks."""
    return [line.translate(MARKS) for line in re.findall("<p>(.*)</p>", html)]


class MiddlewareTest(unittest.TestCase):
    def setUp(self):
        spec = importlib.util.spec_from_file_location("middleware", EXAMPLE)
        self.example = importlib.util.module_from_spec(spec)
        spec.loader.exec_module(self.example)
        self.site = self.example.Languages(self.example.page, FOLDER)

    def asked(self, query="", **fields):
        """The headers and the lines of the page that a request gets."""
        headers = {}
        environ = {"QUERY_STRING": query, **{f"HTTP_{name.upper()}": value for name, value in fields.items()}}
        body = b"".join(self.site(environ, lambda status, found: headers.update(found)))
        return headers, lines_of(body.decode())

    def test_visitors_get_their_languages(self):
        headers, lines = self.asked("name=Jane", accept_language="de-AT, fr;q=0.5")
        self.assertEqual((headers["Content-Language"], headers["Vary"]), ("de", "Accept-Language, Cookie"))
        # What German lacks is in French, and what French lacks in English.
        self.assertEqual(lines, ["Willkommen, Jane.", "Merci.", "Goodbye."])
        self.assertEqual(self.asked("name=%C5%BDofia+%3Cb%3E", accept_language="nb")[1][0], "Welcome, Žofia &lt;b&gt;.")
        self.assertEqual(self.asked()[1], ["Welcome, you.", "Thank you.", "Goodbye."])

    def test_a_cookie_comes_first(self):
        headers, lines = self.asked(accept_language="de", cookie="theme=dark; language=fr")
        self.assertEqual((headers["Content-Language"], lines[1]), ("fr", "Merci."))
        self.assertEqual(self.asked(accept_language="de", cookie="language=; x")[0]["Content-Language"], "de")

    def test_what_translators_should_mend_is_logged(self):
        texts = self.site.texts_for({})
        with self.assertLogs("site") as logged:
            self.assertEqual(texts("none"), "none")
            texts("welcome")
        self.assertEqual(len(logged.output), 2)

    def test_threads_share_bundles(self):
        wrong = []

        def ask(accepted, thanks):
            wrong.extend(0 for _ in range(200) if self.asked(accept_language=accepted)[1][1] != thanks)

        wanted = [("fr", "Merci."), ("en", "Thank you."), ("de,fr", "Merci."), ("de", "Thank you.")]
        threads = [threading.Thread(target=ask, args=each) for each in wanted]
        for thread in threads:
            thread.start()
        for thread in threads:
            thread.join()
        self.assertEqual(wrong, [])

    def test_as_a_program(self):
        paths = {**os.environ, "PYTHONPATH": str(ROOT / "bindings/python"), "PYTHONUTF8": "1"}
        command = [sys.executable, "-B", EXAMPLE, FOLDER]
        with subprocess.Popen(command, stdout=subprocess.PIPE, stderr=subprocess.DEVNULL, text=True, env=paths) as site:
            try:
                request = urllib.request.Request(site.stdout.readline().strip() + "?name=Jane", headers={"Accept-Language": "fr"})
                with urllib.request.urlopen(request, timeout=300) as answer:
                    self.assertEqual(lines_of(answer.read().decode())[0], "Bienvenue, Jane.")
            finally:
                site.kill()


if __name__ == "__main__":
    unittest.main()
