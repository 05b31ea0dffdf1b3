"""What users of other language servers expect of one, over the protocol."""

import re
import subprocess
import time
import unittest
from pathlib import Path

from .language_client import CAPABILITIES, Client, at, framed
from .workspace_case import WorkspaceCase

ENGLISH = "# Of a.\na = A { $x }\n    .t = T\nb = B { a }\n-brand = Fox\n"
POLISH = "a = Ą { $x } { -brand }\n    .t = Ť\nb = Ḃ { a }\n-brand = Lis\n"


def with_text(**given):
    """Capabilities with some of text documents."""
    return {**CAPABILITIES, "textDocument": {**CAPABILITIES["textDocument"], **given}}


class ExpectedCase(WorkspaceCase):
    def setUp(self):
        super().setUp()
        self.english = self.file("l10n/en-US/m.ftl", ENGLISH)
        self.polish = self.file("l10n/pl/m.ftl", POLISH)

    def asked(self, method, uri, **params):
        return self.client.ask(method, textDocument={"uri": uri}, **params)

    def test_what_it_says_that_it_can_do(self):
        can = self.client.start(self.root)["capabilities"]
        self.assertEqual(can["positionEncoding"], "utf-16")
        self.assertNotIn("diagnosticProvider", can)
        for name in ("foldingRange", "selectionRange", "inlayHint", "codeLens", "semanticTokens", "executeCommand"):
            self.assertTrue(can[f"{name}Provider"], name)


class FoldingTest(ExpectedCase):
    SOURCE = (
        "### File\n\n## One\n\n# Of a,\n# and more.\na = { $n ->\n    [one] x\n   *[other] y\n}\n"
        "    .t =\n        T\n\n"
        "b = B\n\n## Two\n\nc = { d\n"
    )

    def test_folds(self):
        self.client.start(self.root)
        uri = self.client.open(self.root / "x.ftl", self.SOURCE)
        told = self.asked("textDocument/foldingRange", uri)
        self.assertEqual(
            [(each["startLine"], each["endLine"], each.get("kind")) for each in told],
            [(2, 13, "region"), (4, 5, "comment"), (6, 8, None), (6, 11, None), (10, 11, None), (15, 17, "region")],
        )

    def test_a_selection_grows(self):
        self.client.start(self.root)
        source = "# Of a.\na = x { $n ->\n    [one] One { -t(k: \"v\") }.\n   *[other] y\n} z\n    .t = T\n"
        uri = self.client.open(self.root / "x.ftl", source)
        place = at(uri, source, "k: ")["position"]
        (told,) = self.asked("textDocument/selectionRange", uri, positions=[place])
        lines, grown = source.split("\n"), []
        while told:
            start, end = told["range"]["start"], told["range"]["end"]
            one_line = start["line"] == end["line"]
            grown.append(lines[start["line"]][start["character"] : end["character"]] if one_line else start["line"])
            told = told.get("parent")
        self.assertEqual(
            grown,
            ["k", 'k: "v"', '(k: "v")', '-t(k: "v")', '{ -t(k: "v") }', 'One { -t(k: "v") }.']
            + ['[one] One { -t(k: "v") }.', 1, 1, 1, 1, 1, 0, 0],
        )
        nowhere = {"line": 99, "character": 9}
        (told,) = self.asked("textDocument/selectionRange", uri, positions=[nowhere])
        self.assertEqual(told["range"]["start"], {"line": 0, "character": 0})


class HintsTest(ExpectedCase):
    def test_hints_have_the_text_of_the_reference_and_of_terms(self):
        self.client.start(self.root, reference="l10n/en-US")
        uri = self.client.open(self.polish)
        everything = {"start": {"line": 0, "character": 0}, "end": {"line": 99, "character": 0}}
        told = self.asked("textDocument/inlayHint", uri, range=everything)
        self.assertEqual(
            sorted((each["position"]["line"], each["position"]["character"], each["label"]) for each in told),
            [(0, 21, "= Lis"), (0, 23, "A { $x }"), (2, 11, "B { a }")],
        )
        line = {"start": {"line": 2, "character": 0}, "end": {"line": 2, "character": 9}}
        self.assertEqual(len(self.asked("textDocument/inlayHint", uri, range=line)), 1)
        self.client.change(uri, "a = x\n" + "b = y\n")
        self.english.write_text(f"a = {'long ' * 30}\n")
        (told,) = self.asked("textDocument/inlayHint", uri, range=everything)
        self.assertEqual((len(told["label"]), told["label"][-1], len(told["tooltip"])), (60, "…", 149))

    def test_lenses_count_references(self):
        self.client.start(self.root)
        uri = self.client.open(self.polish)
        told = self.asked("textDocument/codeLens", uri)
        self.assertEqual(
            [(each["range"]["start"]["line"], each["command"]["title"]) for each in told],
            [(0, "2 references"), (3, "1 reference")],
        )
        self.client.change(uri, POLISH + "c = { -brand } { -brand }\n-t = T\n")
        told = self.asked("textDocument/codeLens", uri)
        self.assertEqual([each["command"]["title"] for each in told][1:], ["3 references", "0 references"])


class PullTest(ExpectedCase):
    PULLING = {**with_text(diagnostic={}), "workspace": {"diagnostics": {"refreshSupport": True}}}

    def test_findings_of_each_file(self):
        self.file("l10n/pl/other.ftl", "c = { -none }\n")
        self.file("l10n/de/m.ftl", "a = Ä { $y }\n    .t = Ť\nb = B { a }\n")
        can = self.client.start(self.root, reference="l10n/en-US", capabilities=self.PULLING)["capabilities"]
        self.assertTrue(can["diagnosticProvider"]["workspaceDiagnostics"])
        ask = lambda before: self.client.ask("workspace/diagnostic", previousResultIds=before)["items"]
        told = ask([])
        found = {Path(each["uri"]).parts[-2:]: [one["code"] for one in each["items"]] for each in told}
        self.assertEqual(
            found,
            {
                ("en-US", "m.ftl"): [],
                ("pl", "m.ftl"): [],
                ("pl", "other.ftl"): ["unknown-term"],
                ("de", "m.ftl"): ["unknown-variable", "unknown-variable", "untranslated"],
            },
        )
        self.assertEqual({each["version"] for each in told}, {None})
        before = [{"uri": each["uri"], "value": each["resultId"]} for each in told]
        self.assertEqual({each["kind"] for each in ask(before)}, {"unchanged"})
        self.file("l10n/pl/terms.ftl", "-none = N\n")
        kinds = {Path(each["uri"]).name: each["kind"] for each in ask(before)}
        self.assertEqual(kinds["other.ftl"], "full")

    def test_a_document_is_asked_for(self):
        self.client.start(self.root, reference="l10n/en-US", capabilities=self.PULLING)
        uri = self.client.open(self.polish, POLISH.replace("$x", "$y"))
        told = self.asked("textDocument/diagnostic", uri)
        self.assertEqual((told["kind"], [each["code"] for each in told["items"]]), ("full", ["unknown-variable"] * 2))
        # Nothing is sent unasked, but that it is time to ask.
        self.client.change(uri, POLISH)
        while not any(each.get("method") == "workspace/diagnostic/refresh" for each in self.client.told):
            self.client.told.append(self.client.read())
        self.assertNotIn("textDocument/publishDiagnostics", [each.get("method") for each in self.client.told])
        self.assertEqual(self.asked("textDocument/diagnostic", uri)["items"], [])
        self.assertEqual(self.asked("textDocument/diagnostic", "file:///none.ftl")["items"], [])

    def test_a_client_that_cant_ask_again_gets_them(self):
        can = self.client.start(self.root, capabilities=with_text(diagnostic={}))["capabilities"]
        self.assertNotIn("diagnosticProvider", can)
        self.assertEqual(self.codes(self.client.open(self.polish)), [])


class RelatedTest(ExpectedCase):
    def test_the_message_of_the_reference(self):
        related = with_text(publishDiagnostics={"relatedInformation": True})
        self.client.start(self.root, reference="l10n/en-US", capabilities=related)
        found = self.client.diagnostics(self.client.open(self.polish, POLISH.replace("$x", "$y")))[0]
        (told,) = found["relatedInformation"]
        place = {"start": {"line": 1, "character": 0}, "end": {"line": 1, "character": 1}}
        self.assertEqual(told["location"], {"uri": self.english.as_uri(), "range": place})

    def test_each_code_has_a_link(self):
        linking = with_text(publishDiagnostics={"codeDescriptionSupport": True})
        self.client.start(self.root, reference="l10n/en-USS", capabilities=linking)
        source = POLISH + "a = { FUN() }\nx\n"
        found = self.client.diagnostics(self.client.open(self.polish, source))
        codes = ["missing-reference", "duplicate-id", "unknown-function", "syntax"]
        self.assertEqual(sorted(each["code"] for each in found), sorted(codes))
        for each in found:
            path, _, line = each["codeDescription"]["href"].removeprefix("file://").partition("#L")
            self.assertIn(f"`{each['code']}`", Path(path).read_text(encoding="utf-8").split("\n")[int(line) - 1])

    def test_each_code_of_lint_has_a_section(self):
        top = Path(__file__).resolve().parents[3]
        source = (top / "crates/ftl_arguments/src/linting.rt").read_text("utf-8")
        listed = re.search(r"const CODES: .*?\];", source, re.DOTALL)
        sections = re.findall(r"^### `(.*)`$", (top / "docs/reference/codes.md").read_text("utf-8"), re.MULTILINE)
        self.assertEqual(sorted(sections), sorted(re.findall(r'"([a-z0-9-]+)"', listed[0])))


class RenamedFilesTest(ExpectedCase):
    RENAMING = {"workspace": {"workspaceEdit": {"documentChanges": True, "resourceOperations": ["rename"]}}}

    def moved(self, old, new):
        pair = {"oldUri": (self.root / old).as_uri(), "newUri": (self.root / new).as_uri()}
        told = self.client.ask("workspace/willRenameFiles", files=[pair])
        name = lambda uri: str(Path(uri).parent.name + "/" + Path(uri).name)
        return [(each["kind"], name(each["oldUri"]), name(each["newUri"])) for each in (told or {})["documentChanges"]]

    def test_a_file_of_the_reference_takes_its_translations_along(self):
        self.file("l10n/de/m.ftl", "a = Ä\n")
        self.file("l10n/de/n.ftl", "")
        self.file("l10n/fr/other.ftl", "")
        self.file("l10n/cs/m.ftl", "")
        self.client.start(self.root, reference="l10n/en-US", capabilities=self.RENAMING)
        self.assertEqual(
            self.moved("l10n/en-US/m.ftl", "l10n/en-US/n.ftl"),
            [("rename", "cs/m.ftl", "cs/n.ftl"), ("rename", "pl/m.ftl", "pl/n.ftl")],
        )

    def test_a_folder_too(self):
        self.file("l10n/en-US/sub/x.ftl", "")
        self.file("l10n/pl/sub/x.ftl", "")
        self.client.start(self.root, reference="l10n/en-US", capabilities=self.RENAMING)
        self.assertEqual(self.moved("l10n/en-US/sub", "l10n/en-US/new"), [("rename", "pl/sub", "pl/new")])

    def test_other_files_take_nothing_along(self):
        for capabilities, old in ((self.RENAMING, "pl"), (CAPABILITIES, "en-US")):
            client = self.entered(Client())
            client.start(self.root, reference="l10n/en-US", capabilities=capabilities)
            pair = {"oldUri": (self.root / f"l10n/{old}/m.ftl").as_uri(), "newUri": (self.root / "n.ftl").as_uri()}
            self.assertIsNone(client.ask("workspace/willRenameFiles", files=[pair]))


class CancelTest(ExpectedCase):
    def test_a_running_request(self):
        self.client.start()
        uri = self.client.open("file:///x/de.ftl", "".join(f"m{number} = {{ $x }}\n" for number in range(300_000)))
        self.assertEqual(self.codes(uri), [])
        id = self.client.request("textDocument/semanticTokens/full", {"textDocument": {"uri": uri}})
        time.sleep(0.3)
        self.client.tell("$/cancelRequest", id=id)
        self.assertEqual(self.client.reply(id)["error"]["code"], -32800)
        # A request that is over can't be cancelled, and the next one can have its id.
        self.client.tell("$/cancelRequest", id=id)
        asked = {"jsonrpc": "2.0", "id": id, "method": "workspace/executeCommand", "params": {"command": ""}}
        self.client.send(framed(asked))
        self.assertEqual(self.client.reply(id)["error"]["code"], -32602)


class EncodingTest(ExpectedCase):
    SOURCE = "a = ż\U0001f44d { b }\nb = x\n"

    def place_of_b(self, encodings, *words):
        client = self.client = self.entered(Client(*words))
        can = client.start(self.root, capabilities={"general": {"positionEncodings": encodings}})["capabilities"]
        uri = client.open(self.root / "pl.ftl", self.SOURCE)
        places = client.ask(
            "textDocument/references", textDocument={"uri": uri}, position={"line": 1, "character": 0}, context={}
        )
        start = places[0]["range"]["start"]
        told = client.ask("textDocument/hover", textDocument={"uri": uri}, position=start)
        self.assertIn("`b`", told["contents"]["value"])
        return can["positionEncoding"], start["character"]

    def test_positions_are_as_the_client_likes_them(self):
        self.assertEqual(self.place_of_b(["utf-8", "utf-16"]), ("utf-8", 13))
        self.assertEqual(self.place_of_b(["utf-16", "utf-8"]), ("utf-16", 10))
        self.assertEqual(self.place_of_b(["utf-32"]), ("utf-16", 10))

    def test_a_client_that_counts_bytes_unasked(self):
        self.assertEqual(self.place_of_b([], "--utf-8"), ("utf-8", 13))


class ParentTest(ExpectedCase):
    def test_the_end_of_the_editor_ends_it(self):
        editor = subprocess.Popen(["sleep", "100"])
        self.addCleanup(editor.kill)
        self.client.ask("initialize", processId=editor.pid, capabilities={})
        self.assertIsNone(self.client.process.poll())
        editor.kill()
        editor.wait()
        self.assertEqual(self.client.process.wait(120), 1)

    def test_a_process_that_isnt_there_isnt_watched(self):
        for process in (None, 2**31 - 1, 2**40, -1, 0, True, "1"):
            client = self.entered(Client())
            client.ask("initialize", processId=process, capabilities={})
            self.assertEqual(client.ask("workspace/symbol", query=""), [])


class OtherVersionsTest(ExpectedCase):
    def test_they_have_no_findings(self):
        self.client.start(self.root)
        for scheme in ("git", "gitlens", "hg", "svn", "pr", "fugitive"):
            uri = self.client.open(f"{scheme}:/x/pl/m.ftl?ref", "a = { -none }\n")
            self.assertEqual(self.codes(uri), [], scheme)
        uri = self.client.open("untitled:1", "a = { -none }\n")
        self.assertEqual(self.codes(uri), ["unknown-term"])

    def test_a_rename_leaves_them_alone(self):
        self.client.start(self.root)
        self.client.open("git:/x/pl/m.ftl?ref", POLISH)
        uri = self.client.open(self.polish)
        told = self.client.ask("textDocument/rename", newName="zz", **at(uri, POLISH, "a }"))["changes"]
        self.assertEqual(set(told), {uri, self.english.as_uri()})


if __name__ == "__main__":
    unittest.main()
