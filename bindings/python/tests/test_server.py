"""The language server, as a client sees it."""

import os
import random
import unittest
from datetime import datetime

from .fuzz_server import flat, flooded
from .language_client import Client, at, edited, framed
from .workspace_case import WorkspaceCase

ENGLISH = "welcome = Welcome, { $name }.\nunread = { $count ->\n    [one] One message.\n   *[other] { $count } messages.\n}\nbye = Bye\n"
POLISH = "# Zażółć \U0001f44d\nwelcome = Witaj \U0001f44d, { $nmae }.\nunread = { $count ->\n    [one] Jedna.\n    [few] { $count } nie.\n   *[other] { $count } inne.\n}\n"


class LifeTest(unittest.TestCase):
    def test_errors_of_the_protocol(self):
        with Client() as client:
            self.assertEqual(client.ask("textDocument/hover")["code"], -32002)
            client.tell("textDocument/didOpen", textDocument={})
            self.assertEqual(client.ask("initialize")["code"], -32602)
            self.assertIn("capabilities", client.start())
            self.assertEqual(client.ask("initialize", capabilities={})["code"], -32600)
            self.assertEqual(client.ask("no/such")["code"], -32601)
            self.assertEqual(client.ask("$/no/such")["code"], -32601)
            for wrong in (
                {},
                {"textDocument": 1},
                {"textDocument": {"uri": 2}},
                {"textDocument": {"uri": "file:///a"}, "position": []},
            ):
                reply = client.ask("textDocument/hover", **wrong)
                self.assertTrue(reply is None or reply["code"] == -32602, wrong)
            uri = client.open("file:///a.ftl", "a = b\n")
            for wrong in (
                {"line": -1, "character": 0},
                {"line": 0.5, "character": 0},
                {"line": True, "character": 0},
                {"line": 0},
                None,
            ):
                self.assertEqual(
                    client.ask("textDocument/hover", textDocument={"uri": uri}, position=wrong)["code"], -32602
                )
            client.tell("no/such")
            client.tell(
                "textDocument/didChange", textDocument={"uri": uri}, contentChanges=[{"range": {}, "text": "x"}]
            )
            client.tell(
                "textDocument/didChange", textDocument={"uri": "file:///not-open.ftl"}, contentChanges=[{"text": "x"}]
            )
            self.assertIsNone(client.ask("shutdown"))
            self.assertEqual(client.ask("textDocument/hover")["code"], -32600)
            self.assertEqual(client.ask("shutdown")["code"], -32600)
            client.tell("exit")
            self.assertEqual(client.process.wait(120), 0)

    def test_the_end_of_its_input_and_exit_end_it(self):
        for end in ("exit", None):
            with Client() as client:
                client.start()
                if end:
                    client.tell(end)
                else:
                    client.process.stdin.close()
                self.assertEqual(client.process.wait(120), 1)

    def test_what_is_no_message_gets_an_error(self):
        with Client() as client:
            for data, code in [
                (framed(b"{"), -32700),
                (framed(b"\xff"), -32700),
                (framed(b"[" * 100_000), -32700),
                (framed([]), -32600),
                (framed(None), -32600),
                (framed({}), -32600),
                (framed({"id": 1}), -32600),
                (framed({"id": 1, "method": 2}), -32600),
                (framed({"id": None, "method": "x"}), -32600),
                (framed({"id": {}, "method": "x"}), -32600),
                (framed({"id": True, "method": "x"}), -32600),
                (framed(b""), -32700),
                (b"garbage\r\n" + framed(b"1"), -32700),
                (b"Content-Length: 99999999999\r\n\r\n", -32700),
                (b'Content-Length: 500\r\n\r\n{"cut": 1' + framed(b"2"), -32700),
                (b"Content-Length: 8\r\n\r\n{}", -32700),
                (b"Content-Length: 19\r\n\r\n{}", -32700),
                (b"Content-Length: 5\r\n", -32700),
                (b"Content-Length: 1", -32700),
                (b"Content-Length: 7\r\n\r\n" + framed({}), -32700),
            ]:
                # The next request shows the server that the one before it is cut.
                asked = {"jsonrpc": "2.0", "id": "next", "method": "a"}
                client.send(data + framed(asked))
                self.assertEqual(client.read()["error"]["code"], code, data[:40])
                self.assertEqual(client.reply("next")["error"]["code"], -32002, data[:40])
            client.told.clear()
            client.send(
                b"content-type: x\r\nCONTENT-LENGTH:  44 \r\nX-Other: y\r\n\r\n"
                + b'{"id":"seven","method":"initialize"}'.ljust(44)
            )
            self.assertEqual(client.read()["id"], "seven")

    def test_a_request_that_is_cancelled(self):
        with Client() as client:
            client.start()
            uri = client.open("file:///a.ftl", "a = { -b }\n" * 20_000)
            slow = {"jsonrpc": "2.0", "id": "slow", "method": "textDocument/codeAction"}
            place = {"line": 0, "character": 0}
            slow["params"] = {
                "textDocument": {"uri": uri},
                "range": {"start": place, "end": place},
                "context": {"diagnostics": []},
            }
            quick = {"jsonrpc": "2.0", "id": "quick", "method": "shutdown"}
            cancel = {"jsonrpc": "2.0", "method": "$/cancelRequest", "params": {"id": "quick"}}
            unknown = {"jsonrpc": "2.0", "method": "$/cancelRequest", "params": {"id": 77}}
            client.send(framed(slow) + framed(unknown) + framed(quick) + framed(cancel))
            self.assertIn("result", client.reply("slow"))
            self.assertEqual(client.reply("quick")["error"]["code"], -32800)
            self.assertEqual(client.reply(client.request("shutdown"))["result"], None)

    def test_whatever_is_sent_it_goes_on(self):
        flooded(2_000, seed=1)

    def test_memory_is_flat(self):
        self.assertLess(flat(400), 4_000)


class WorkspaceTest(WorkspaceCase):
    def setUp(self):
        super().setUp()
        self.english = self.file("l10n/en-US/main.ftl", ENGLISH)
        self.polish = self.file("l10n/pl/main.ftl", POLISH)

    def test_findings_while_typing(self):
        self.client.start(self.root, reference="l10n/en-US")
        uri = self.client.open(self.polish)
        found = self.client.diagnostics(uri)
        # The thumb is two code units of UTF-16.
        self.assertEqual(
            self.found(found),
            [("unknown-variable", 1, 1, 22), ("missing-category", 2, 2, 11), ("missing-message", 2, 6, 0)],
        )
        self.assertEqual(found[0]["range"]["end"], {"line": 1, "character": 27})
        self.client.change(uri, POLISH.replace("nmae", "name"), 2)
        self.assertEqual(
            self.found(self.client.diagnostics(uri, 2)), [("missing-category", 2, 2, 11), ("missing-message", 2, 6, 0)]
        )
        self.client.change(uri, "x = { $n ->\n", 3)
        self.assertEqual(self.found(self.client.diagnostics(uri, 3))[0][:2], ("syntax", 1))
        self.client.tell("textDocument/didClose", textDocument={"uri": uri})
        self.assertEqual(self.client.diagnostics(uri), [])

    def test_a_change_of_the_reference_is_seen(self):
        self.client.start(self.root, reference="l10n/en-US")
        polish = self.client.open(self.polish)
        self.client.diagnostics(polish)
        english = self.client.open(self.english)
        self.assertEqual(self.client.diagnostics(english), [])
        self.client.diagnostics(polish)
        self.client.change(english, ENGLISH.replace("$name", "$nmae"))
        self.assertEqual(self.found(self.client.diagnostics(polish))[0][0], "missing-category")

    def test_files_that_change_elsewhere(self):
        watching = {"workspace": {"didChangeWatchedFiles": {"dynamicRegistration": True}}}
        self.client.start(self.root, capabilities={"textDocument": {}, **watching})
        self.assertEqual(self.client.read()["method"], "client/registerCapability")
        self.client.send(framed({"jsonrpc": "2.0", "id": "watch", "result": None}))
        uri = self.client.open(self.root / "l10n/pl/new.ftl", "a = { -brand }\n")
        self.assertEqual(self.codes(uri), ["unknown-term"])
        terms = self.file("l10n/pl/terms.ftl", "-brand = B\n")
        self.client.tell("workspace/didChangeWatchedFiles", changes=[{"uri": terms.as_uri(), "type": 1}])
        self.assertEqual(self.codes(uri), [])

    def test_files_of_one_language_are_one_catalog(self):
        self.file("l10n/pl/sub/terms.ftl", "-brand = B\n")
        self.file("l10n/pl/near.ftl", "-near = N\n")
        self.file("l10n/pl/other.de.ftl", "welcome = x\n")
        self.client.start(self.root)
        uri = self.client.open(self.root / "l10n/pl/new.ftl", "a = { -brand } { -near } { welcome }\nunread = x\n")
        self.assertEqual(self.found(self.client.diagnostics(uri)), [("duplicate-id", 1, 1, 0)])
        for catalog, codes in [
            ("folder", ["unknown-term", "duplicate-id"]),
            ("file", ["unknown-term", "unknown-term", "unknown-message"]),
            ("language", ["duplicate-id"]),
        ]:
            self.client.tell("workspace/didChangeConfiguration", settings={"kozhvadi": {"catalog": catalog}})
            self.assertEqual(sorted(self.codes(uri)), sorted(codes))

    def test_the_reference_may_be_anywhere(self):
        self.file("en/x/main.ftl", "one = 1\ntwo = 2\n")
        self.file("en/main.ftl", "three = 3\n")
        for name in ("translations/pl/x/main.ftl", "pl/x/main.ftl"):
            self.file(name, "one = 1\n")
        for catalog in ("language", "folder", "file"):
            client = self.entered(Client())
            client.start(self.root, reference="en", catalog=catalog)
            for name in ("translations/pl/x/main.ftl", "pl/x/main.ftl"):
                uri = client.open(self.root / name)
                *_, found = client.diagnostics(uri)
                self.assertIn("no translation: `two`", found["message"])
            client.told.clear()
            reference = client.open(self.root / "en/x/main.ftl")
            self.assertEqual(client.diagnostics(reference), [])

    def test_languages_of_files(self):
        source = "a = { $n ->\n    [one] { $n } x\n   *[other] { $n } y\n}\n"
        self.client.start(self.root)
        # Polish lacks two categories, Czech one that whole numbers have, English none.
        for name, count in [
            ("l10n/pl/a.ftl", 2),
            ("l10n/cs/deep/er/a.ftl", 1),
            ("pl.ftl", 2),
            ("main.pl.ftl", 2),
            ("l10n/pl/cs.ftl", 1),
            ("pt-br/a.ftl", 0),
            ("in-app/a.ftl", 0),
            ("pl_PL/a.ftl", 2),
            ("no-results.ftl", 0),
            ("src/a.ftl", 0),
        ]:
            uri = self.client.open(self.root / "languages" / name, source)
            self.assertEqual(self.codes(uri), ["missing-category"] * count, name)

    def test_what_is_no_file_is_passed_over(self):
        os.mkfifo(self.root / "l10n/pl/pipe.ftl")
        (self.root / "l10n/pl/folder.ftl").mkdir()
        (self.root / "l10n/pl/away.ftl").symlink_to("nowhere")
        (self.root / "l10n/pl/loop").symlink_to(self.root)
        (self.root / "l10n/pl/itself.ftl").symlink_to("itself.ftl")
        self.client.start(self.root)
        uri = self.client.open(self.root / "l10n/pl/new.ftl", "a = { -b }\n")
        self.assertEqual(self.codes(uri), ["unknown-term"])
        self.assertEqual(len(self.client.ask("workspace/symbol", query="welcome")), 2)

    def test_settings(self):
        self.client.start(self.root, functions=["DATE"], locale="pl", notes=1)
        self.assertIn("notes", self.client.told.pop(0)["params"]["message"])
        uri = self.client.open("untitled:1", "a = { DATE() } { F() }\nb = { $n ->\n    [one] { $n } x\n   *[other] { $n } y\n}\n")
        self.assertEqual(
            [each[0] for each in self.found(self.client.diagnostics(uri))],
            ["unknown-function"] + ["missing-category"] * 2,
        )

    def test_definitions_and_references(self):
        other = self.file("l10n/pl/other.ftl", "-brand = B\n    .kind = x\n")
        source = POLISH + "a = { -brand } { -brand.kind ->\n   *[x] { welcome }\n}\nb = { bye }\n"
        self.client.start(self.root, reference="l10n/en-US")
        uri = self.client.open(self.polish, source)
        place = lambda path, line, start, end: {
            "uri": path.as_uri(),
            "range": {"start": {"line": line, "character": start}, "end": {"line": line, "character": end}},
        }
        for words, inside, expected in [
            ("-brand }", 0, place(other, 0, 1, 6)),
            ("-brand }", 6, place(other, 0, 1, 6)),
            (".kind", 1, place(other, 1, 5, 9)),
            ("welcome }", 3, place(self.polish, 1, 0, 7)),
            ("bye }", 0, place(self.english, 5, 0, 3)),
            ("$count", 2, place(self.english, 1, 12, 17)),
        ]:
            self.assertEqual(
                self.client.ask("textDocument/definition", **at(uri, source, words, inside)), [expected], words
            )
        told = self.client.ask(
            "textDocument/references", context={"includeDeclaration": False}, **at(uri, source, "welcome =")
        )
        self.assertEqual([(each["uri"], each["range"]["start"]["line"]) for each in told], [(uri, 8)])
        told = self.client.ask(
            "textDocument/references", context={"includeDeclaration": True}, **at(uri, source, "welcome =")
        )
        self.assertEqual(len(told), 3)
        marks = self.client.ask("textDocument/documentHighlight", **at(uri, source, "$count ->", 1))
        self.assertEqual(len(marks), 3)
        self.assertEqual(self.client.ask("textDocument/definition", **at(uri, source, "Jedna")), [])

    def test_hover_shows_each_category(self):
        self.client.start(self.root, reference="l10n/en-US")
        uri = self.client.open(self.polish)
        told = self.client.ask("textDocument/hover", **at(uri, POLISH, "unread"))["contents"]["value"]
        for line in (
            "$count = 1    one    Jedna.",
            "$count = 2    few    2 nie.",
            "$count = 5    many   5 inne.",
            "$count = 1.5  other  1,5 inne.",
        ):
            self.assertIn(line, told)
        self.assertIn("$count = 2  other  2 messages.", told)
        told = self.client.ask("textDocument/hover", **at(uri, POLISH, "$count"))["contents"]["value"]
        self.assertIn("one: 1, few: 2, many: 5, other: 1.5", told)
        self.assertIsNone(self.client.ask("textDocument/hover", **at(uri, POLISH, "Jedna")))

    def test_hover_shows_a_date_of_today(self):
        self.client.start()
        source = 'a = { DATETIME($day, year: "numeric") }\n'
        uri = self.client.open("file:///a.ftl", source)
        told = self.client.ask("textDocument/hover", **at(uri, source, "a ="))["contents"]["value"]
        self.assertIn(str(datetime.now().year), told)
        told = self.client.ask("textDocument/hover", **at(uri, source, "DATETIME"))["contents"]["value"]
        self.assertIn("`DATETIME` takes a date", told)

    def test_hover_shows_what_a_function_takes(self):
        self.client.start()
        source = "a = { NUMBER($n, type: \"ordinal\") } { DATE($n) }\n"
        uri = self.client.open("file:///a.ftl", source)
        told = self.client.ask("textDocument/hover", **at(uri, source, "NUMBER"))["contents"]["value"]
        self.assertIn("`NUMBER` takes a number, and these options", told)
        self.assertIn('\ntype: "ordinal" or "cardinal"\nminimumFractionDigits: a number\n', told)
        self.assertIn("\ncurrency: any text\n", told)
        self.assertIsNone(self.client.ask("textDocument/hover", **at(uri, source, "DATE")))

    def test_hover_shows_comments_as_they_are(self):
        source = "# 1. See [a](http://b) **c** <img> &amp; `d`\n# - e_f\n# 2. g\na = A\n"
        self.client.start()
        uri = self.client.open("file:///x/de.ftl", source)
        told = self.client.ask("textDocument/hover", **at(uri, source, "a = A"))["contents"]["value"]
        shown = "1. See \\[a\\](http://b) \\*\\*c\\*\\* \\<img\\> \\&amp; \\`d\\`\n\\- e\\_f\n2\\. g"
        self.assertIn(f"`a` in `de`: {shown}\n", told)

    def test_hover_shows_terms(self):
        source = "-t = { $case ->\n    [gen] Gen\n   *[nom] Nom\n}\na = { -t }\n"
        self.client.start()
        uri = self.client.open("file:///x/de.ftl", source)
        told = self.client.ask("textDocument/hover", **at(uri, source, "-t }"))["contents"]["value"]
        self.assertIn("$case = gen  Gen\n$case = nom  Nom", told)

    def labels(self, uri, source):
        """What may follow at the sign | of a source."""
        before, _, after = source.partition("|")
        self.client.change(uri, before + after)
        return [each["label"] for each in self.client.ask("textDocument/completion", **at(uri, source, "|"))]

    def test_completion(self):
        self.client.start(self.root, reference="l10n/en-US", functions=["DATE"])
        uri = self.client.open(self.polish)
        rest = "-brand = B\n    .kind = { $case ->\n   *[x] y\n }\nmore = x\n    .title = y\n"
        for source, there, missing in [
            ("welcome = { |", ["more", "-brand", "$name", "NUMBER", "DATE"], ["$count"]),
            ("welcome = { mo|", ["more"], []),
            ("welcome = { $|", ["$name"], ["more", "-brand"]),
            ("unread = { $| }", ["$count", "$count ->"], ["$name"]),
            ("welcome = { -|", ["-brand"], ["more", "$name"]),
            ("welcome = { -brand.| ->", ["-brand.kind"], ["more.title"]),
            ("welcome = { more.|", ["more.title"], ["-brand.kind"]),
            ("welcome = { NUMBER($name, |", ["minimumFractionDigits", "type", "$name"], []),
            ("welcome = { NUMBER($name, type: |", ['"ordinal"', '"cardinal"'], ["type"]),
            ("unread = { $count ->\n    [|", ["one", "few", "many", "other"], []),
            ("wel|", ["welcome", "unread", "bye"], ["more"]),
        ]:
            found = self.labels(uri, f"{source}\n{rest}")
            self.assertLessEqual(set(there), set(found), source)
            self.assertFalse(set(missing) & set(found), source)
        for source in (
            "welcome = text|\n",
            "welcome = { $name |\n",
            'welcome = { "|\n',
            "# |\n",
            "welcome = { $name }|\n",
        ):
            self.assertEqual(self.labels(uri, source), [], source)
        items = self.client.ask(
            "textDocument/completion", textDocument={"uri": uri}, position={"line": 1, "character": 0}
        )
        bye = next(each for each in items if each["label"] == "bye")
        self.assertEqual(bye["textEdit"]["newText"], "bye = Bye")

    def test_symbols(self):
        self.client.start(self.root)
        source = "-t = T\n    .a = x\nm =\n    .b = y\n"
        uri = self.client.open(self.root / "new.ftl", source)
        told = self.client.ask("textDocument/documentSymbol", textDocument={"uri": uri})
        self.assertEqual(
            [(each["name"], [inner["name"] for inner in each["children"]]) for each in told],
            [("-t", [".a"]), ("m", [".b"])],
        )
        self.assertEqual(told[1]["range"]["end"], {"line": 3, "character": 10})
        told = self.client.ask("workspace/symbol", query="UNR")
        self.assertEqual({each["name"] for each in told}, {"unread"})
        self.assertEqual(len(told), 2)

    def test_rename_in_all_files(self):
        source = POLISH + "a = { welcome } é { welcome } { -brand }\n"
        self.client.start(self.root)
        uri = self.client.open(self.polish, source)
        self.file("l10n/de/main.ftl", "\U0001f44d\nwelcome = Hallo\nb = { welcome }\r\n")
        place = at(uri, source, "welcome }", 2)
        self.assertEqual(self.client.ask("textDocument/prepareRename", **place)["placeholder"], "welcome")
        told = self.client.ask("textDocument/rename", newName="greeting", **place)["changes"]
        self.assertEqual(set(told), {uri, self.english.as_uri(), (self.root / "l10n/de/main.ftl").as_uri()})
        self.assertEqual(edited(source, told[uri]), source.replace("welcome", "greeting"))
        for wrong, code in [
            ("1x", -32602),
            ("", -32602),
            ("a b", -32602),
            ("é", -32602),
            ("unread", -32803),
            ("a", -32803),
        ]:
            self.assertEqual(self.client.ask("textDocument/rename", newName=wrong, **place)["code"], code, wrong)
        self.assertEqual(
            self.client.ask("textDocument/rename", newName="x", **at(uri, source, "Jedna"))["code"], -32803
        )
        told = self.client.ask("textDocument/rename", newName="$number", **at(uri, source, "$count", 1))["changes"]
        self.assertEqual(edited(source, told[uri]), source.replace("$count", "$number"))
        self.assertEqual(edited(ENGLISH, told[self.english.as_uri()]), ENGLISH.replace("$count", "$number"))

    def test_rename_names_versions_if_the_client_knows_them(self):
        self.client.start(self.root, capabilities={"workspace": {"workspaceEdit": {"documentChanges": True}}})
        uri = self.client.open(self.polish)
        told = self.client.ask("textDocument/rename", newName="x", **at(uri, POLISH, "welcome"))["documentChanges"]
        versions = {each["textDocument"]["uri"]: each["textDocument"]["version"] for each in told}
        self.assertEqual(versions, {uri: 1, self.english.as_uri(): None})

    def test_formatting(self):
        self.client.start(self.root)
        source = "a = b\nc   =    d\n\n\n\ne={$x}\nf = g\n"
        uri = self.client.open(self.polish, source)
        edits = self.client.ask("textDocument/formatting", textDocument={"uri": uri}, options={})
        self.assertEqual(edited(source, edits), "a = b\nc = d\n\ne = { $x }\nf = g\n")
        self.assertEqual(edits[0]["range"]["start"]["line"], 1)
        self.client.change(uri, edited(source, edits))
        self.assertEqual(self.client.ask("textDocument/formatting", textDocument={"uri": uri}, options={}), [])
        self.client.change(uri, "a = b\nc = {\n")
        told = self.client.ask("textDocument/formatting", textDocument={"uri": uri}, options={})
        self.assertEqual(told["code"], -32803)

    def actions(self, uri, line, character, **context):
        place = {"line": line, "character": character}
        asked = {"range": {"start": place, "end": place}, "context": {"diagnostics": [], **context}}
        return self.client.ask("textDocument/codeAction", textDocument={"uri": uri}, **asked)

    def test_fixes(self):
        self.client.start(self.root, reference="l10n/en-US")
        uri = self.client.open(self.polish)
        fixes = [*self.actions(uri, 1, 24)[:1], *self.actions(uri, 2, 12)[:1], *self.actions(uri, 6, 1)[:1]]
        edits = [edit for each in fixes for edit in each["edit"]["changes"][uri]]
        self.assertEqual(
            edited(POLISH, edits),
            POLISH.replace("nmae", "name").replace("   *[other]", "    [many] { $count } inne.\n   *[other]")
            + "bye = Bye\n",
        )
        # What mends a complete file is offered at each place.
        self.assertEqual(
            [each["kind"] for each in self.actions(uri, 0, 0)],
            ["source.fixAll.kozhvadi", "source.addMissing.kozhvadi"],
        )
        (every,) = self.actions(uri, 0, 0, only=["source.fixAll"])
        self.assertEqual(edited(POLISH, every["edit"]["changes"][uri]), edited(POLISH, edits[:2]))

    def test_changes_by_chance(self):
        """After whatever edits the findings are those of the text that is there."""
        self.client.start()
        uri = self.client.open("file:///en.ftl", "")
        chance, text = random.Random(5), ""
        for version in range(2, 60):
            place = chance.randrange(len(text) + 1)
            text = (
                text[:place]
                + chance.choice(["a = b\n", "{ ", "}", "-t = { x }\n", "é\U0001f44d", "\r\n", "[one]", "$n ->", '"'])
                + text[place + chance.randrange(3) :]
            )
            self.client.change(uri, text, version)
            found = self.client.diagnostics(uri, version)
            lines = text.replace("\r\n", "\n").replace("\r", "\n").split("\n")
            for each in found:
                line = lines[each["range"]["start"]["line"]]
                self.assertLessEqual(each["range"]["start"]["character"], len(line.encode("utf-16-le")) // 2)
                self.assertLessEqual((0, 0), (each["range"]["end"]["line"] - each["range"]["start"]["line"], 0))


if __name__ == "__main__":
    unittest.main()
