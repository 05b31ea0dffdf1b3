"""What the language server says of a reference, and what it adds from it."""

import unittest
from pathlib import Path

from .language_client import CAPABILITIES, Client, edited
from .workspace_case import WorkspaceCase

CREATING = {
    **CAPABILITIES,
    "workspace": {"applyEdit": True, "workspaceEdit": {"documentChanges": True, "resourceOperations": ["create"]}},
}


class ReferenceCase(WorkspaceCase):
    def actions(self, uri, line, **context):
        place = {"line": line, "character": 0}
        asked = {"range": {"start": place, "end": place}, "context": {"diagnostics": [], **context}}
        return self.client.ask("textDocument/codeAction", textDocument={"uri": uri}, **asked)


class MissingReferenceTest(ReferenceCase):
    def test_it_is_a_finding_of_the_first_line(self):
        path = self.file("l10n/pl/m.ftl", "# x\na = A\n")
        self.client.start(self.root, reference="l10n/en-USS")
        (found,) = self.client.diagnostics(self.client.open(path))
        self.assertEqual(self.found([found]), [("missing-reference", 2, 0, 0)])
        self.assertEqual(found["range"]["end"], {"line": 0, "character": 3})
        self.assertEqual(
            found["message"], f"the reference l10n/en-USS isn't in {self.root}: nothing is compared"
        )


class MissingFilesTest(ReferenceCase):
    NEW = "# License\n\n# Of one.\none = One\ntwo = Two\n# Brand.\n-brand = B\n"

    def setUp(self):
        super().setUp()
        self.file("l10n/en-US/main.ftl", "a = A\n")
        self.file("l10n/en-US/sub/new.ftl", self.NEW)
        self.file("l10n/pl/main.ftl", "a = Ą\ntwo = Dwa\n")
        self.new = self.root / "l10n/pl/sub/new.ftl"

    def test_they_are_found(self):
        self.client.start(self.root, reference="l10n/en-US")
        uri = self.client.open(self.root / "l10n/pl/main.ftl")
        (found,) = self.client.diagnostics(uri)
        self.assertEqual(self.found([found]), [("missing-file", 2, 0, 0)])
        words = "there is no l10n/pl/sub/new.ftl: 1 message of the reference has no translation"
        self.assertEqual(found["message"], words)
        self.file("l10n/en-US/other.ftl", "b = B\nc = C\n")
        self.client.tell("workspace/didChangeWatchedFiles", changes=[])
        (found,) = self.client.diagnostics(uri)
        words = "there are no l10n/pl/other.ftl, l10n/pl/sub/new.ftl: 3 messages of the reference have no translation"
        self.assertEqual(found["message"], words)
        # An empty file is one that lacks its messages.
        self.client.open(self.new, "")
        self.client.open(self.root / "l10n/pl/other.ftl", "b = b\nc = c\n")
        self.client.change(uri, "a = ą\ntwo = Dwa\n", 2)
        self.assertEqual(self.codes(uri, 2), [])

    def assert_creates(self, changes):
        """An edit creates the file, without what the language has."""
        created, edit = changes
        self.assertEqual((created["kind"], created["uri"]), ("create", self.new.as_uri()))
        self.assertEqual(edit["textDocument"], {"uri": self.new.as_uri(), "version": None})
        expected = "# License\n\n# Of one.\none = One\n# Brand.\n-brand = B\n"
        self.assertEqual(edited("", edit["edits"]), expected)

    def test_a_fix_creates_them(self):
        self.client.start(self.root, reference="l10n/en-US", capabilities=CREATING)
        uri = self.client.open(self.root / "l10n/pl/main.ftl")
        (fix,) = self.actions(uri, 0)
        self.assertEqual(fix["title"], "Create l10n/pl/sub/new.ftl")
        self.assert_creates(fix["edit"]["documentChanges"])
        self.assertEqual(self.actions(uri, 1), [])

    def test_a_client_that_creates_no_files_gets_a_text(self):
        self.client.start(self.root, reference="l10n/en-US")
        (fix,) = self.actions(self.client.open(self.root / "l10n/pl/main.ftl"), 0)
        self.assertEqual(list(fix["edit"]["changes"]), [self.new.as_uri()])

    def test_a_command_creates_them(self):
        self.client.start(self.root, reference="l10n/en-US", capabilities=CREATING)
        uri = self.client.open(self.root / "l10n/pl/main.ftl")
        ask = lambda **asked: self.client.ask("workspace/executeCommand", **asked)
        self.assertIsNone(ask(command="kozhvadi.createMissingFiles", arguments=[uri]))
        (applied,) = [each for each in self.client.told if each["method"] == "workspace/applyEdit"]
        self.assert_creates(applied["params"]["edit"]["documentChanges"])
        self.assertEqual(ask(command="kozhvadi.other", arguments=[uri])["code"], -32602)
        for wrong in ([], ["file:///none.ftl"]):
            self.assertEqual(ask(command="kozhvadi.createMissingFiles", arguments=wrong)["code"], -32803)
        self.assertEqual(ask(command="kozhvadi.createMissingFiles", arguments=[1])["code"], -32602)

    def test_a_client_that_takes_no_edits(self):
        self.client.start(self.root, reference="l10n/en-US")
        uri = self.client.open(self.root / "l10n/pl/main.ftl")
        told = self.client.ask("workspace/executeCommand", command="kozhvadi.createMissingFiles", arguments=[uri])
        self.assertEqual(told["code"], -32803)


class LanguagesTest(ReferenceCase):
    SOURCE = "a = { -brand }\nb = { $n ->\n    [one] { $n } x\n   *[other] { $n } y\n}\n"

    def test_the_folder_beside_the_reference_is_the_language(self):
        """Names that are tags of other languages, below it, are no languages."""
        self.file("l10n/pl/terms.ftl", "-brand = B\n")
        names = ["os/a", "id/a", "my/a", "so/a", "sh/deep/a", "no", "id", "se", "main.de", "x-x/a"]
        for name in names:
            self.file(f"l10n/en-US/{name}.ftl", self.SOURCE)
        self.client.start(self.root, reference="l10n/en-US", catalog="language")
        for name in names:
            uri = self.client.open(self.root / f"l10n/pl/{name}.ftl", self.SOURCE.replace("x", "ż"))
            codes = [each for each in self.codes(uri) if each not in ("missing-file", "untranslated")]
            self.assertEqual(codes, ["missing-category"] * 2, name)
            self.client.tell("textDocument/didClose", textDocument={"uri": uri})

    def test_without_a_reference_names_are_guessed(self):
        self.file("l10n/pl/terms.ftl", "-brand = B\n")
        self.client.start(self.root)
        uri = self.client.open(self.root / "l10n/pl/id.ftl", self.SOURCE)
        self.assertEqual(self.codes(uri), ["unknown-term"])


class AdditionsTest(ReferenceCase):
    ENGLISH = "# First.\na = A\n\n## Group\n\nb = B\n# Of c.\nc = C\n    .x = X\nd = D\n\n-t = T\ne = E\n"

    def added(self, polish, english=ENGLISH):
        """A translation after what is missing was added."""
        self.file("l10n/en-US/m.ftl", english)
        client = self.entered(Client())
        client.start(self.root, reference="l10n/en-US")
        self.client = client
        uri = client.open(self.root / "l10n/pl/m.ftl", polish)
        (every,) = self.actions(uri, 0, only=["source.addMissing"])
        text = edited(polish, every["edit"]["changes"][uri])
        client.change(uri, text)
        codes = self.codes(uri, 2)
        self.assertNotIn("missing-message", codes)
        return text, codes

    def test_they_are_where_the_reference_has_them(self):
        for polish, expected in [
            (
                "a = Ą\nd = Đ\n",
                "a = Ą\n\nb = B\n# Of c.\nc = C\n    .x = X\nd = Đ\ne = E\n",
            ),
            ("# C\nc = Ć\n", "# First.\na = A\nb = B\n# C\nc = Ć\nd = D\ne = E\n"),
            ("e = Ę\na = Ą\n", "e = Ę\na = Ą\n\nb = B\n# Of c.\nc = C\n    .x = X\nd = D\n"),
            ("# only\n", "# only\n# First.\na = A\nb = B\n# Of c.\nc = C\n    .x = X\nd = D\ne = E\n"),
            ("x = y", "x = y\n# First.\na = A\nb = B\n# Of c.\nc = C\n    .x = X\nd = D\ne = E\n"),
            ("a = Ą\r\ne = Ę\r\n", "a = Ą\r\n\r\nb = B\r\n# Of c.\r\nc = C\r\n    .x = X\r\nd = D\r\ne = Ę\r\n"),
        ]:
            with self.subTest(polish):
                self.assertEqual(self.added(polish)[0], expected)

    def test_they_are_untranslated_until_their_text_differs(self):
        polish = "a = Ą\nb = Ḃ\nc = Ć\n    .x = Ẋ\n"
        text, codes = self.added(polish)
        self.assertEqual(codes, ["untranslated", "untranslated"])
        uri = (self.root / "l10n/pl/m.ftl").as_uri()
        self.client.change(uri, text.replace("d = D", "d = Đ"), 3)
        (found,) = self.client.diagnostics(uri, 3)
        self.assertEqual(self.found([found])[0][:2], ("untranslated", 4))


class FixAllTest(ReferenceCase):
    def test_it_mends_what_needs_no_choice(self):
        self.file("l10n/en-US/m.ftl", "a = { $name } { $other }\nb = { $n }\n")
        source = (
            "-brand = B\na = { $nmae } { -brnad } { $zzz }\nb = { $n ->\n    [one] { $n } x\n   *[other] { $n } y\n} { NUMBR($n) }\n"
        )
        self.client.start(self.root, reference="l10n/en-US")
        uri = self.client.open(self.root / "l10n/pl/m.ftl", source)
        (fix,) = self.actions(uri, 0, only=["source.fixAll.kozhvadi"])
        self.assertEqual(
            edited(source, fix["edit"]["changes"][uri]),
            source.replace("nmae", "name")
            .replace("brnad", "brand")
            .replace("   *[other]", "    [few] { $n } y\n    [many] { $n } y\n   *[other]"),
        )
        self.assertEqual(self.actions(uri, 0, only=["refactor"]), [])
        self.assertEqual([each["kind"] for each in self.actions(uri, 1, only=["source"])], ["source.fixAll.kozhvadi"])


if __name__ == "__main__":
    unittest.main()
