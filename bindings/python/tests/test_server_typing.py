"""The language server while somebody types: changes of places, what a call takes, and tidying what is selected."""

import random

from .language_client import CAPABILITIES, at, edited
from .workspace_case import WorkspaceCase


def place(source, offset):
    """The position of an offset in characters, in units of UTF-16."""
    before = source[:offset]
    line = before.count("\n")
    return {"line": line, "character": len(before[before.rfind("\n") + 1 :].encode("utf-16-le")) // 2}


class ChangesTest(WorkspaceCase):
    def changed(self, uri, version, changes):
        self.client.tell(
            "textDocument/didChange", textDocument={"uri": uri, "version": version}, contentChanges=changes
        )

    def test_a_change_names_its_place(self):
        can = self.client.start(self.root)["capabilities"]
        self.assertEqual(can["textDocumentSync"]["change"], 2)
        uri = self.client.open(self.file("a.ftl", "a = \U0001f44d { b }\r\nb = B\r\n"))
        self.assertEqual(self.codes(uri), [])
        # `b` of the reference becomes `c`, and then the other `b` does, too.
        range = {"start": {"line": 0, "character": 9}, "end": {"line": 0, "character": 10}}
        self.changed(uri, 2, [{"range": range, "text": "c"}])
        self.assertEqual(self.codes(uri, 2), ["unknown-message"])
        range = {"start": {"line": 1, "character": 0}, "end": {"line": 1, "character": 1}}
        self.changed(uri, 3, [{"range": range, "rangeLength": 1, "text": "c"}])
        self.assertEqual(self.codes(uri, 3), [])
        # after the end of a line and of the text
        range = {"start": {"line": 1, "character": 99}, "end": {"line": 7, "character": 3}}
        self.changed(uri, 4, [{"range": range, "text": "\nd = { e }"}])
        found = self.client.diagnostics(uri, 4)
        self.assertEqual(found[0]["range"]["start"], {"line": 2, "character": 6})

    def test_changes_at_many_places_in_any_order(self):
        chance = random.Random(7)
        self.client.start(self.root)
        source = "".join(f"m{number} = zażółć \U0001f44d {number}\n" for number in range(30))
        uri = self.client.open(self.file("a.ftl", source))
        for version in range(2, 40):
            changes = []
            for _ in range(chance.randrange(1, 8)):
                first, last = sorted(chance.randrange(len(source) + 1) for _ in range(2))
                last = min(last, first + 20)
                text = chance.choice(["", "x", "\n", "\U0001f44d", "é\nk = K\n"])
                changes.append({"range": {"start": place(source, first), "end": place(source, last)}, "text": text})
                source = source[:first] + text + source[last:]
            if version % 10 == 0:
                source = "a = b\n" * 9
                changes.append({"text": source})
            self.changed(uri, version, changes)
        # The server has the same text: a message at its end is where it is here.
        source += "\nq = { nowhere }"
        end = place(source, len(source) - len("\nq = { nowhere }"))
        self.changed(uri, 99, [{"range": {"start": end, "end": end}, "text": "\nq = { nowhere }"}])
        ask = at(uri, source, "nowhere")
        found = [each for each in self.client.diagnostics(uri, 99) if each["code"] == "unknown-message"]
        self.assertEqual(found[-1]["range"]["start"], ask["position"])
        self.client.tell("textDocument/didSave", textDocument={"uri": uri})
        symbols = self.client.ask("textDocument/documentSymbol", textDocument={"uri": uri})
        self.assertEqual(symbols[-1]["name"], "q")

    def test_positions_that_count_bytes(self):
        capabilities = {**CAPABILITIES, "general": {"positionEncodings": ["utf-8"]}}
        self.client.start(self.root, capabilities=capabilities)
        uri = self.client.open(self.file("a.ftl", "a = ż { b }\n"))
        self.assertEqual(self.codes(uri), ["unknown-message"])
        range = {"start": {"line": 0, "character": 7}, "end": {"line": 0, "character": 12}}
        self.changed(uri, 2, [{"range": range, "text": "x"}])
        self.assertEqual(self.codes(uri, 2), [])

    def test_a_wrong_change_changes_nothing(self):
        self.client.start(self.root)
        uri = self.client.open(self.file("a.ftl", "a = { b }\n"))
        self.assertEqual(self.codes(uri), ["unknown-message"])
        for wrong in ({"range": {}, "text": "x"}, {"range": 3, "text": "x"}, {"text": 3}, {}):
            self.changed(uri, 2, [{"text": "a = b\n"}, wrong])
        self.client.tell("textDocument/didSave", textDocument={"uri": uri})
        self.assertEqual(self.codes(uri, 1), ["unknown-message"])


class SignaturesTest(WorkspaceCase):
    def help(self, uri, source, words):
        return self.client.ask("textDocument/signatureHelp", **at(uri, source, words, len(words)))

    def active(self, uri, source, words):
        told = self.help(uri, source, words)
        shown = told["signatures"][0]["parameters"]
        number = told["activeParameter"]
        return shown[number]["label"].partition(":")[0] if number < len(shown) else None

    def test_what_a_function_takes(self):
        self.client.start(self.root)
        source = 'a = { NUMBER($n, type: "ordinal", minimumFractionDigits: 2) }\nb = { NUMBER( }\nc = { NUMBER($n, mini\n'
        uri = self.client.open(self.file("a.ftl", source))
        told = self.help(uri, source, "NUMBER(")
        label = told["signatures"][0]["label"]
        self.assertTrue(label.startswith('NUMBER(a number, type: "ordinal" or "cardinal", '), label)
        for each in told["signatures"][0]["parameters"]:
            self.assertIn(each["label"], label)
        self.assertEqual(self.active(uri, source, "NUMBER($n"), "a number")
        self.assertEqual(self.active(uri, source, 'type: "ord'), "type")
        self.assertEqual(self.active(uri, source, "minimumFractionDigits:"), "minimumFractionDigits")
        self.assertEqual(self.active(uri, source, "b = { NUMBER("), "a number")
        self.assertEqual(self.active(uri, source, "c = { NUMBER($n, mini"), "minimumFractionDigits")
        self.assertIsNone(self.active(uri, source, "a = { NUMBER($n, "))

    def test_what_a_term_takes(self):
        self.client.start(self.root)
        source = '-brand = { $case ->\n   *[nom] B\n    [gen] { $x }\n}\nb = { -brand(case: "gen") }\n'
        uri = self.client.open(self.file("a.ftl", source))
        told = self.help(uri, source, "-brand(")
        self.assertEqual(told["signatures"][0]["label"], "-brand(case: , x: )")
        self.assertEqual(self.active(uri, source, 'case: "g'), "case")

    def test_what_dates_take(self):
        self.client.start(self.root)
        source = 'a = { DATETIME($d, dateStyle: "full", hour12: "true") }\n'
        uri = self.client.open(self.file("a.ftl", source))
        label = self.help(uri, source, "DATETIME(")["signatures"][0]["label"]
        self.assertTrue(label.startswith('DATETIME(a date, dateStyle: "full" or "long" or "medium" or "short", '), label)
        self.assertEqual(self.active(uri, source, "DATETIME($d"), "a date")
        self.assertEqual(self.active(uri, source, 'dateStyle: "f'), "dateStyle")
        self.assertEqual(self.active(uri, source, "hour12: "), "hour12")

    def test_what_a_function_of_the_program_is_called_with(self):
        """Its arguments are those of its calls, first of all in the reference."""
        self.client.start(self.root, functions=["OWN", "LONE"], reference="l10n/en-US")
        self.file("l10n/en-US/b.ftl", 'q = { OWN($x, style: "a", of: NUMBER($n, minimumFractionDigits: 1)) }\n')
        source = 'a = { OWN($x, size: 1) }\nb = { OWN($x, st }\nc = { LONE($x) }\n'
        uri = self.client.open(self.file("l10n/pl/a.ftl", source))
        told = self.help(uri, source, "a = { OWN(")
        self.assertEqual(told["signatures"][0]["label"], "OWN(a value, style: , of: , size: )")
        self.assertEqual(self.active(uri, source, "{ OWN($x, st"), "style")
        self.assertEqual(self.help(uri, source, "LONE(")["signatures"][0]["label"], "LONE(a value)")

    def test_there_is_none_elsewhere(self):
        self.client.start(self.root)
        source = "a = text ( { NUMBER($n) } )\nb = { OWN($x) }\nc = { -none(x: 1) }\n"
        uri = self.client.open(self.file("a.ftl", source))
        for words in ("text (", "NUMBER($n)", "{ OWN(", "-none(x", "a"):
            self.assertIsNone(self.help(uri, source, words), words)


class SelectionTest(WorkspaceCase):
    def tidied(self, uri, source, first, last):
        range = {"start": {"line": first, "character": 0}, "end": {"line": last, "character": 1}}
        edits = self.client.ask("textDocument/rangeFormatting", textDocument={"uri": uri}, range=range, options={})
        return edited(source, edits) if isinstance(edits, list) else edits["code"]

    def test_the_entries_that_are_selected_are_tidied(self):
        self.client.start(self.root)
        source = "a   = A\n\n\n# of b\nb={$x}\n  .c   =   C  \n\n\nd   = D\nbroken = {\n"
        uri = self.client.open(self.file("a.ftl", source))
        self.assertEqual(self.tidied(uri, source, 0, 0), source.replace("a   = A", "a = A"))
        whole = source.replace("b={$x}\n  .c   =   C  ", "b = { $x }\n    .c = C")
        for line in (3, 4, 5):
            self.assertEqual(self.tidied(uri, source, line, line), whole)
        self.assertEqual(self.tidied(uri, source, 1, 1), source)
        # What can't be read stays, and refuses only if nothing else is selected.
        self.assertEqual(self.tidied(uri, source, 8, 9), source.replace("d   = D", "d = D"))
        self.assertEqual(self.tidied(uri, source, 9, 9), -32803)
        self.client.change(uri, whole)
        self.assertEqual(self.tidied(uri, whole, 3, 5), whole)

    def test_a_selection_keeps_the_line_ends(self):
        self.client.start(self.root)
        uri = self.client.open(self.file("a.ftl", "x =  X\r\na =\r\n   one\r\n   two\r\nb   =  B\r\n"))
        range = {"start": {"line": 1, "character": 0}, "end": {"line": 2, "character": 1}}
        edits = self.client.ask("textDocument/rangeFormatting", textDocument={"uri": uri}, range=range, options={})
        self.assertEqual([each["newText"] for each in edits], ["a =\r\n    one\r\n    two"])
        self.assertEqual(edits[0]["range"]["end"], {"line": 3, "character": 6})
