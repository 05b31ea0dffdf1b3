"""The playground over HTTP: what it answers, whom it refuses, and whether its page can be read and used by anyone."""

import functools
import http.client
import json
import os
import random
import re
import signal
import subprocess
import sys
import tempfile
import threading
import time
import unittest
import urllib.request
from html.parser import HTMLParser
from pathlib import Path
from unittest import mock

from kozhvadi.playground.__main__ import _by_pattern
from kozhvadi.playground._looking import Asked, languages, looked_at
from kozhvadi.playground._pages import Playground
from kozhvadi.playground._project import Project

FOLDER = Path(__file__).resolve().parents[1]
ROOT = FOLDER.parents[1]
PAGES = FOLDER / "kozhvadi" / "playground"


class AskingCase(unittest.TestCase):
    """Tests of `self.server`."""

    def ask(self, method, path, body=None, **headers):
        """The status of an answer, its headers and its body."""
        connection = http.client.HTTPConnection("127.0.0.1", self.server.server_port, timeout=300)
        host = headers.pop("Host", f"127.0.0.1:{self.server.server_port}")
        connection.putrequest(method, path, skip_host=True)
        if host is not None:
            connection.putheader("Host", host)
        named = {name.replace("_", "-"): value for name, value in headers.items()}
        if body is not None:
            named = {"Content-Type": "application/json", "Content-Length": str(len(body)), **named}
        for name, value in named.items():
            connection.putheader(name, value)
        connection.endheaders(body)
        answer = connection.getresponse()
        told = answer.status, dict(answer.getheaders()), answer.read()
        connection.close()
        return told

    def look(self, **given):
        status, _, body = self.ask("POST", "/look", json.dumps(given).encode())
        return status, json.loads(body) if status == 200 else body


class ServedTest(AskingCase):
    def setUp(self):
        self.server = Playground(0, lambda: {"source": "a = b\n", "reference": "", "locale": "en"})
        self.addCleanup(self.server.server_close)
        self.addCleanup(self.server.shutdown)
        threading.Thread(target=self.server.serve_forever, args=(0.01,), daemon=True).start()

    def test_the_pages(self):
        for path, kind in [
            ("/", "text/html"),
            ("/page.css", "text/css"),
            ("/page.js", "text/javascript"),
            ("/assist.js", "text/javascript"),
            ("/start", "application/json"),
        ]:
            status, headers, body = self.ask("GET", path)
            self.assertEqual(status, 200)
            self.assertTrue(headers["Content-Type"].startswith(kind))
            self.assertIn("default-src 'none'", headers["Content-Security-Policy"])
            self.assertEqual(headers["X-Content-Type-Options"], "nosniff")
            self.assertTrue(body)
        self.assertEqual(self.ask("HEAD", "/")[2], b"")
        self.assertEqual(json.loads(self.ask("GET", "/start")[2])["source"], "a = b\n")

    def test_it_serves_this_machine_alone(self):
        self.assertEqual(self.server.server_address[0], "127.0.0.1")
        port = self.server.server_port
        for host in (
            "example.org",
            f"example.org:{port}",
            "127.0.0.1",
            f"127.0.0.1:{port + 1}",
            "",
            None,
            f"localhost:{port}.example.org",
        ):
            self.assertEqual(self.ask("GET", "/", Host=host)[0], 421, host)
        self.assertEqual(self.ask("GET", "/", Host=f"localhost:{port}")[0], 200)

    def test_other_sites_are_refused(self):
        body = b'{"source": "a = b"}'
        port = self.server.server_port
        for headers, status in [
            ({"Origin": "http://example.org"}, 403),
            ({"Origin": "null"}, 403),
            ({"Origin": f"https://127.0.0.1:{port}"}, 403),
            ({"Sec_Fetch_Site": "cross-site"}, 403),
            ({"Sec_Fetch_Site": "same-site"}, 403),
            ({"Content_Type": "text/plain"}, 415),
            ({"Content_Type": "application/x-www-form-urlencoded"}, 415),
            ({"Origin": f"http://127.0.0.1:{port}"}, 200),
            ({"Sec_Fetch_Site": "same-origin"}, 200),
            ({}, 200),
        ]:
            self.assertEqual(
                self.ask("POST", "/look", body, **{k.replace("_", "-"): v for k, v in headers.items()})[0],
                status,
                headers,
            )

    def test_no_other_file_is_read(self):
        for path in (
            "/../../setup.py",
            "/%2e%2e/_looking.py",
            "/_looking.py",
            "/__main__.py",
            "/page.html",
            "//etc/passwd",
            "/page.css/..",
            "/look",
            "/etc/passwd",
        ):
            self.assertEqual(self.ask("GET", path)[0], 404, path)
        for path in ("file:///etc/passwd", "http://example.org/start"):
            self.assertEqual(self.ask("GET", path)[0], 421, path)
        for path in ("/", "/page.js", "/start", "/nothing"):
            self.assertEqual(self.ask("POST", path, b"{}")[0], 404, path)
        self.assertEqual(self.ask("PUT", "/look", b"{}")[0], 501)

    def test_bad_requests(self):
        for body, status in [
            (b"", 400),
            (b"{", 400),
            (b"[]", 400),
            (b"\xff", 400),
            (b"[" * 100_000, 400),
            (b'{"source": 1}', 400),
            (b'{"source": "a", "locale": {}}', 400),
            (b'{"arguments": 3}', 200),
            (b"{}", 200),
            (b'{"source": "\\ud800 = x"}', 200),
        ]:
            self.assertEqual(self.ask("POST", "/look", body)[0], status, body[:40])
        self.assertEqual(self.ask("POST", "/look", b"", **{"Content-Length": "99999999999999"})[0], 413)
        for length in ("", "-1", "x", "1e3", "\u0663"):
            self.assertEqual(
                self.ask(
                    "POST", "/look", b"", **{"Content-Length": length.encode("latin-1", "replace").decode("latin-1")}
                )[0],
                411,
            )

    def test_what_the_class_refuses_has_the_headers_of_all_answers(self):
        status, headers, _ = self.ask("TRACE", "/")
        self.assertEqual((status, headers["X-Content-Type-Options"]), (501, "nosniff"))
        self.assertIn("default-src 'none'", headers["Content-Security-Policy"])

    def test_the_start_is_for_the_page_alone(self):
        for site, status in (("cross-site", 403), ("same-site", 403), ("same-origin", 200), ("none", 200)):
            self.assertEqual(self.ask("GET", "/start", **{"Sec-Fetch-Site": site})[0], status, site)
        self.assertEqual(self.ask("GET", "/", **{"Sec-Fetch-Site": "cross-site"})[0], 200)

    def test_two_lengths(self):
        connection = http.client.HTTPConnection("127.0.0.1", self.server.server_port, timeout=300)
        connection.putrequest("POST", "/look")
        connection.putheader("Content-Type", "application/json")
        for length in ("2", "3"):
            connection.putheader("Content-Length", length)
        connection.endheaders(b"{}")
        self.assertEqual(connection.getresponse().status, 411)
        connection.close()

    def test_no_page_waits_for_another(self):
        """A request that isn't answered yet leaves the others their time: each has a thread, and there is no lock."""
        begun, goes_on = threading.Barrier(3), threading.Event()

        def held(asked):
            if asked.source.startswith("slow"):
                begun.wait(300)
                goes_on.wait(300)
            return looked_at(asked)

        statuses = []
        slow = json.dumps({"source": "slow = x\n"}).encode()
        with mock.patch("kozhvadi.playground._pages.looked_at", held):
            asks = lambda: statuses.append(self.ask("POST", "/look", slow)[0])
            threads = [threading.Thread(target=asks) for _ in range(2)]
            for each in threads:
                each.start()
            begun.wait(300)
            self.assertEqual(self.look(source="a = b\n")[0], 200)
            self.assertEqual(statuses, [])
            goes_on.set()
            for each in threads:
                each.join()
        self.assertEqual(statuses, [200, 200])

    def test_tidying(self):
        status, _, body = self.ask("POST", "/tidy", b'{"source": "a   =   {$x}"}')
        self.assertEqual((status, json.loads(body)), (200, {"text": "a = { $x }\n"}))
        status, _, body = self.ask("POST", "/tidy", b'{"source": "a = {"}')
        self.assertIn("can't be tidied: line 1, column 6", json.loads(body)["problem"])

    def test_whatever_is_typed_there_is_an_answer(self):
        chance = random.Random(3)
        pieces = [
            "a",
            " = ",
            "b { ",
            "}",
            "$x",
            "-t",
            "\n",
            "    .at = ",
            "[one]",
            "*[other]",
            " ->",
            '"',
            "\\",
            "é\U0001f44d",
            "\r\n",
            "{" * 2000,
            "\0",
            "\u202e",
        ]
        for number in range(150):
            source = "".join(chance.choice(pieces) for _ in range(chance.randrange(40)))
            reference = "".join(chance.choice(pieces) for _ in range(chance.randrange(9)))
            locale = chance.choice(["en", "pl", "xx", "", "\ud800", "x" * 5000, "ar"])
            status, told = self.look(
                source=source,
                reference=reference,
                locale=locale,
                arguments={"x": chance.choice(["", "1", "1e9", "-", "9" * 400])},
            )
            self.assertEqual(status, 200, told)
            units = len(source.encode("utf-16-le")) // 2
            for each in told["findings"]:
                if each["file"] == "source":
                    self.assertTrue(0 <= each["start"] <= each["end"] <= units)


class ProjectTest(AskingCase):
    """A server that shows the files of a folder."""

    FILES = {"main.ftl": "a = { -brand }\nb = B\n", "sub/terms.ftl": "-brand = Lis\nb = x\n"}

    def setUp(self):
        folder = tempfile.TemporaryDirectory()
        self.addCleanup(folder.cleanup)
        self.root = Path(folder.name)
        for language in ("pl", "en"):
            for name, text in self.FILES.items():
                path = self.root / language / name
                path.parent.mkdir(parents=True, exist_ok=True)
                path.write_text(text, encoding="utf-8")
        (self.root / "en/main.ftl").write_text("a = { -brand }\nc = C\n", encoding="utf-8")
        self.given = {"locale": "pl", "name": "main.ftl", "source": "a = b\n", "reference": "", "writes": True}
        self.server = Playground(0, self.begin)
        self.addCleanup(self.server.server_close)
        self.addCleanup(self.server.shutdown)
        threading.Thread(target=self.server.serve_forever, args=(0.01,), daemon=True).start()
        self.start = json.loads(self.ask("GET", "/start")[2])

    def begin(self):
        return {**self.given, "project": Project.read([self.root / "pl"], [self.root / "en"])}

    def test_files_are_loaded_together(self):
        self.assertEqual(self.start["files"], self.FILES)
        asked = {"source": self.FILES["main.ftl"], "reference": self.start["references"]["main.ftl"], "locale": "pl"}
        _, told = self.look(name="main.ftl", **asked)
        self.assertEqual(told["messages"][0]["parts"][0]["text"], "Lis")
        self.assertEqual([each["code"] for each in told["findings"]], ["untranslated", "missing-message"])
        self.assertEqual(told["counts"]["sub/terms.ftl"]["error"], 1)
        # Another text of another file, and a file that isn't one of them.
        _, told = self.look(name="main.ftl", others={"sub/terms.ftl": "-brand = Wilk\n"}, **asked)
        self.assertEqual(told["messages"][0]["parts"][0]["text"], "Wilk")
        _, told = self.look(name="none.ftl", **asked)
        self.assertEqual(told["messages"][0]["parts"][0]["errors"], ["Unknown term: -brand"])

    def test_they_are_read_again(self):
        (self.root / "pl/main.ftl").write_text("a = new\n", encoding="utf-8")
        self.assertEqual(json.loads(self.ask("GET", "/start")[2])["files"]["main.ftl"], "a = new\n")

    def save(self, **given):
        status, _, body = self.ask("POST", "/save", json.dumps(given).encode())
        return status, json.loads(body) if status == 200 else body.decode()

    def test_saving(self):
        path = self.root / "pl/sub/terms.ftl"
        path.chmod(0o640)
        self.assertEqual(self.save(name="sub/terms.ftl", source="-brand = Ż\n"), (200, {"saved": "sub/terms.ftl"}))
        self.assertEqual((path.read_text(encoding="utf-8"), path.stat().st_mode & 0o777), ("-brand = Ż\n", 0o640))
        self.assertEqual(sorted(each.name for each in path.parent.iterdir()), ["terms.ftl"])
        for name in ("../en/main.ftl", "/etc/passwd", "", "none.ftl"):
            self.assertEqual(self.save(name=name, source="x")[0], 404, name)
        path.write_text("-brand = other\n", encoding="utf-8")
        told = self.save(name="sub/terms.ftl", source="x")[1]["problem"]
        self.assertIn("has changed since the page was loaded", told)
        self.assertEqual(path.read_text(encoding="utf-8"), "-brand = other\n")

    def test_nothing_is_saved_unless_it_was_asked_for(self):
        self.given["writes"] = False
        self.ask("GET", "/start")
        self.assertEqual(self.save(name="main.ftl", source="x")[0], 403)
        self.assertEqual((self.root / "pl/main.ftl").read_text(encoding="utf-8"), self.FILES["main.ftl"])


class ReadTest(unittest.TestCase):
    def test_what_cant_be_shown(self):
        with tempfile.TemporaryDirectory() as made:
            with self.assertRaisesRegex(ValueError, "there is no .ftl file"):
                Project.read([Path(made)], [])
            for name in ("one.ftl", ".hidden/two.ftl"):
                path = Path(made, name)
                path.parent.mkdir(exist_ok=True)
                path.write_text("a = b\n", encoding="utf-8")
            project = Project.read([Path(made)], [Path(made, "one.ftl")])
            self.assertEqual((list(project.files), list(project.references)), (["one.ftl"], ["one.ftl"]))
            Path(made, "more").mkdir()
            Path(made, "more/one.ftl").write_text("a = c\n", encoding="utf-8")
            with self.assertRaisesRegex(ValueError, "have the same name"):
                Project.read([Path(made), Path(made, "more")], [])


    def test_the_reference_by_the_file_of_a_project(self):
        with tempfile.TemporaryDirectory() as made:
            files = {
                "l10n.toml": 'locales = ["pl"]\n[[paths]]\nreference = "en/**"\nl10n = "text/{locale}/**"\n',
                "en/one.ftl": "a = A\n",
                "text/pl/one.ftl": "a = Ą\n",
                "text/pl/two.ftl": "b = B\n",
            }
            for name, text in files.items():
                path = Path(made, name)
                path.parent.mkdir(parents=True, exist_ok=True)
                path.write_text(text, encoding="utf-8")
            folder = Path(made, "text/pl")
            project = Project.read([folder], [])
            self.assertEqual((list(project.files), project.references), (["one.ftl", "two.ftl"], {"one.ftl": "a = A\n"}))
            self.assertEqual(_by_pattern([folder]), "pl")
            self.assertEqual(_by_pattern([Path(made, "text/pl/two.ftl")]), "pl")
            self.assertIsNone(_by_pattern([Path(made, "en")]))
            Path(made, "l10n.toml").write_text("locales = 3\n", encoding="utf-8")
            with self.assertRaisesRegex(ValueError, "l10n.toml:1: `locales` isn't a list"):
                Project.read([folder], [])


class LookedAtTest(unittest.TestCase):
    def test_a_chain_of_references(self):
        source = "".join(f"m{number} = {{ m{number + 1} }}\n" for number in range(10_000)) + "m10000 = { $y }\n"
        begun = time.process_time()
        told = looked_at(Asked(source))
        self.assertLess(time.process_time() - begun, 10)
        self.assertEqual([each["name"] for each in told["messages"][0]["parts"][0]["variables"]], ["y"])

    def test_messages_near_the_caret(self):
        source = "".join(f"m{number} = x\n" for number in range(1_000))
        for place, first in ((0, 0), (source.index("m500 "), 400), (len(source), 800)):
            told = looked_at(Asked(source, at=place))
            self.assertEqual((told["messages"][0]["id"], told["messages"][0]["line"]), (f"m{first}", first + 1))
            self.assertEqual(len(told["messages"]), 200)

    def test_messages(self):
        source = (
            "# Hi.\nwelcome = { $name } in { -brand }\n    .title = T\n-brand = B\nunread = { $n ->\n    [one] one\n    [few] { $n } few\n"
            "   *[other] { $n } other\n}\nbroken = { $\nwrong = { no }\n"
        )
        told = looked_at(Asked(source, locale="pl", arguments={"name": "Zoë", "n": "2"}))
        self.assertEqual(told["categories"], {"one": "1", "few": "2", "many": "5", "other": "1.5"})
        welcome, unread, broken, wrong = told["messages"]
        self.assertEqual((welcome["comment"], welcome["line"]), ("Hi.", 2))
        self.assertEqual([part["text"] for part in welcome["parts"]], ["\u2068Zoë\u2069 in B", "T"])
        self.assertEqual(unread["parts"][0]["text"], "\u20682\u2069 few")
        self.assertEqual(
            [(case["label"], case["value"], case["text"]) for case in unread["parts"][0]["cases"]],
            [
                ("one", "1", "one"),
                ("few", "2", "\u20682\u2069 few"),
                ("many", "5", "\u20685\u2069 other"),
                ("other", "1.5", "\u20681,5\u2069 other"),
            ],
        )
        self.assertEqual((broken["read"], broken["parts"]), (False, []))
        self.assertEqual(wrong["parts"][0]["errors"], ["Unknown message: no"])
        found = {(each["code"], each["line"]) for each in told["findings"]}
        self.assertEqual(found, {("syntax", 10), ("missing-category", 5), ("unknown-message", 11)})

    def test_dates(self):
        source = 'a = Due { DATETIME($day, dateStyle: "long", timeStyle: "short") }\n'
        told = looked_at(Asked(source, arguments={"day": "2026-11-28T20:26"}))
        part = told["messages"][0]["parts"][0]
        self.assertEqual(part["text"], "Due \u2068November 28, 2026 at 8:26 PM\u2069")
        self.assertEqual(part["variables"], [{"name": "day", "kind": "date", "value": "2026-11-28T20:26", "keys": []}])
        self.assertEqual(told["findings"], [])
        part = looked_at(Asked(source))["messages"][0]["parts"][0]
        self.assertRegex(part["variables"][0]["value"], r"^\d{4}-\d\d-\d\dT\d\d:\d\d$")
        self.assertEqual(part["errors"], [])
        part = looked_at(Asked(source, arguments={"day": "tomorrow"}))["messages"][0]["parts"][0]
        self.assertEqual(part["errors"], ["DATETIME() raised TypeError: DATETIME takes a date: str"])

    def test_a_reference(self):
        told = looked_at(Asked("\U0001f44d\na = { $nmae }\n", "a = { $name }\nb = B\n", "de"))
        found = [
            (each["file"], each["code"], each["start"], each["end"])
            for each in told["findings"]
            if each["severity"] != "note"
        ]
        self.assertEqual(
            found,
            [
                ("source", "syntax", 0, 2),
                ("source", "unknown-variable", 9, 14),
                ("reference", "missing-message", 14, 15),
            ],
        )
        fixes = [fix for each in told["findings"] for fix in each["fixes"]]
        self.assertEqual(fixes, [{"title": "Change to `$name`", "start": 9, "end": 14, "text": "$name"}])

    def test_too_much(self):
        told = looked_at(Asked("".join(f"m{number} = x\n" for number in range(300))))
        self.assertEqual((len(told["messages"]), told["more"]), (200, 100))
        self.assertIn("nests too deep", looked_at(Asked("a = " + "{" * 5000))["problem"])

    def test_languages(self):
        self.assertLess({"en", "pl", "ar", "zh", "pt-PT"}, set(languages()))

    def test_the_command_of_the_guide(self):
        guide = (ROOT / "docs/command/playground.md").read_text(encoding="utf-8")
        line = next(each for each in guide.split("\n") if each.startswith("    python3 -m kozhvadi.playground"))
        words = [sys.executable, *line.split()[1:], "--port", "0"]
        environment = {**os.environ, "PYTHONPATH": str(FOLDER)}
        # A shell has what it runs in the background ignore the signal of Ctrl-C.
        heard = functools.partial(signal.signal, signal.SIGINT, signal.SIG_DFL)
        pipes = {"stdout": subprocess.PIPE, "stderr": subprocess.PIPE}
        served = subprocess.Popen(words, cwd=ROOT, env=environment, text=True, preexec_fn=heard, **pipes)
        address = served.stdout.readline().split()[0]
        with urllib.request.urlopen(f"{address}start", timeout=300) as answer:
            start = json.loads(answer.read())
        self.assertEqual(start["source"], (ROOT / "examples/inbox.pl.ftl").read_text(encoding="utf-8"))
        self.assertEqual(start["reference"], (ROOT / "examples/inbox.ftl").read_text(encoding="utf-8"))
        self.assertEqual(start["locale"], "pl")
        served.send_signal(signal.SIGINT)
        _, told = served.communicate(timeout=300)
        self.assertEqual((served.returncode, told), (0, ""))

    def test_the_command(self):
        with tempfile.TemporaryDirectory() as made:
            bad = Path(made, "bad.ftl")
            bad.write_bytes(b"\xff")
            Path(made, "empty").mkdir()
            other = Playground(0, dict)
            self.addCleanup(other.server_close)
            taken = other.server_port
            for words, told in [
                ([made + "/none.ftl"], "No such file"),
                ([str(bad)], "isn't UTF-8"),
                (["--port", "99999"], "port"),
                (["--port", str(taken)], f"port {taken} is in use: name another one, or --port 0"),
                ([made + "/empty"], "there is no .ftl file"),
                (["--locale", "x"], "no tag of a language"),
            ]:
                ran = subprocess.run(
                    [sys.executable, "-m", "kozhvadi.playground", *words],
                    cwd=FOLDER,
                    capture_output=True,
                    text=True,
                    check=False,
                )
                self.assertNotEqual(ran.returncode, 0)
                self.assertIn(told, ran.stderr)
                self.assertNotIn("Traceback", ran.stderr)


class Fields(HTMLParser):
    """The fields of a page, and what labels them."""

    def __init__(self):
        super().__init__()
        self.fields, self.labels, self.ids, self.open = [], set(), [], []
        self.names = {}

    def handle_starttag(self, tag, attrs):
        given = dict(attrs)
        self.ids += [given["id"]] if "id" in given else []
        if tag == "label" and "for" in given:
            self.labels.add(given["for"])
        if tag in ("input", "select", "textarea", "button"):
            self.fields.append((tag, given, "label" in self.open))
        if tag not in ("input", "meta", "link", "br"):
            self.open.append(tag)
        if tag == "button":
            self.names[given.get("id")] = ""

    def handle_data(self, data):
        if self.open and self.open[-1] == "button":
            self.names[self.fields[-1][1].get("id")] += data.strip()

    def handle_endtag(self, tag):
        if tag in self.open:
            while self.open.pop() != tag:
                pass


def themes():
    """The colours of each theme, by their names."""
    style = (PAGES / "page.css").read_text(encoding="utf-8")
    light, dark = (
        re.search(pattern + r" \{(.*?)\}", style, re.DOTALL)[1] for pattern in (":root", r':root\[data-theme="dark"\]')
    )
    return {
        name: dict(re.findall(r"--([\w-]+): (#[0-9a-f]{6});", text))
        for name, text in (("light", light), ("dark", dark))
    }


def luminance(colour):
    def linear(part):
        return part / 12.92 if part <= 0.03928 else ((part + 0.055) / 1.055) ** 2.4

    red, green, blue = (linear(int(colour[at : at + 2], 16) / 255) for at in (1, 3, 5))
    return 0.2126 * red + 0.7152 * green + 0.0722 * blue


def contrast(one, other):
    """The contrast of two colours, by WCAG 2."""
    high, low = sorted((luminance(one), luminance(other)), reverse=True)
    return (high + 0.05) / (low + 0.05)


class AccessTest(unittest.TestCase):
    def test_each_field_has_a_label(self):
        page = Fields()
        page.feed((PAGES / "page.html").read_text(encoding="utf-8"))
        self.assertEqual(len(page.ids), len(set(page.ids)))
        for tag, given, is_in_label in page.fields:
            labelled = (
                given.get("id") in page.labels
                or is_in_label
                or given.get("aria-label")
                or page.names.get(given.get("id"))
            )
            self.assertTrue(labelled, (tag, given))
            self.assertNotIn("tabindex", given)

    def test_contrast(self):
        texts = [
            ("ink", "page panel raised accent-wash"),
            ("quiet", "page panel raised accent-wash"),
            ("accent", "panel page"),
            ("on-accent", "accent"),
            ("error", "panel raised error-wash accent-wash"),
            ("warning", "panel raised"),
            ("note", "panel raised note-wash"),
            ("comment", "raised"),
            ("id", "panel raised error-wash warning-wash"),
            ("variable", "panel raised error-wash warning-wash"),
            ("term", "raised error-wash warning-wash"),
            ("function", "raised error-wash warning-wash"),
            ("string", "raised error-wash warning-wash"),
            ("key", "panel raised accent-wash error-wash warning-wash"),
            ("brace", "raised error-wash warning-wash"),
        ]
        for name, colours in themes().items():
            self.assertGreater(len(colours), 20)
            for text, grounds in texts:
                for ground in grounds.split():
                    self.assertGreaterEqual(contrast(colours[text], colours[ground]), 4.5, (name, text, ground))
            # The edges of fields, and what shows the focus.
            for line, ground in [
                ("edge", "panel"),
                ("edge", "page"),
                ("accent", "panel"),
                ("accent", "page"),
                ("accent", "raised"),
            ]:
                self.assertGreaterEqual(contrast(colours[line], colours[ground]), 3, (name, line, ground))

    def test_the_script_writes_no_html(self):
        script = "".join((PAGES / name).read_text(encoding="utf-8") for name in ("page.js", "assist.js"))
        for word in ("innerHTML", "outerHTML", "insertAdjacentHTML", "document.write", "eval(", "new Function"):
            self.assertNotIn(word, script)
        for name in ("page.html", "page.css", "page.js", "assist.js"):
            self.assertNotRegex((PAGES / name).read_text(encoding="utf-8"), r"https?://")


if __name__ == "__main__":
    unittest.main()
