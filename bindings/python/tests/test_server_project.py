"""The language server in a project: which file is in which language, and what it is compared with."""

from .language_client import CAPABILITIES, at
from .workspace_case import WorkspaceCase

FILE = """\
locales = ["pl", "id"]
[[paths]]
    reference = "source/**"
    l10n = "text/no/{locale}/**"
[kozhvadi]
    functions = ["OWN"]
    ignore = ["unused-term"]
"""


class ProjectTest(WorkspaceCase):
    def project(self, written=FILE):
        """A project whose folders are named like other languages."""
        self.file("l10n.toml", written)
        self.file("source/main.ftl", "a = A { $x } { -brand }\nb = B\n")
        self.file("source/os/more.ftl", "-brand = B\n")
        self.file("text/no/pl/os/more.ftl", "-brand = Lis\n")
        return self.file("text/no/pl/main.ftl", "a = { $y } { -brand }\n")

    def start(self, **settings):
        self.client.start(self.root, **settings)

    def test_a_language_is_that_of_the_pattern(self):
        path = self.project()
        self.start()
        found = self.client.diagnostics(self.client.open(path))
        self.assertEqual([each["code"] for each in found], ["unknown-variable", "missing-message"])
        # The rules of Polish, though the folder above is named like Norwegian, and the one below like Ossetic.
        source = "n = { $n ->\n    [one] { $n } y\n   *[other] { $n } x\n}\nm = { $n ->\n    [\n"
        uri = self.client.open(self.file("text/no/pl/os/new.ftl", source))
        self.assertIn("missing-category", self.codes(uri))
        ask = at(uri, source, "    [\n", 5)
        told = self.client.ask("textDocument/completion", **ask)
        names = [each["label"] for each in (told["items"] if isinstance(told, dict) else told)]
        self.assertEqual(names, ["one", "few", "many", "other"])

    def test_it_is_read_before_the_settings(self):
        """Settings count for files that no pattern matches."""
        path = self.project()
        self.file("l10n/en-US/m.ftl", "q = Q\nr = R\n")
        self.start(reference="l10n/en-US", locale="ja")
        self.assertEqual(self.codes(self.client.open(path)), ["unknown-variable", "missing-message"])
        source = "n = { $n ->\n    [one] { $n } y\n   *[other] { $n } x\n}\n"
        self.assertIn("missing-category", self.codes(self.client.open(self.file("text/no/pl/x.ftl", source))))
        found = self.client.diagnostics(self.client.open(self.file("l10n/pl/m.ftl", "q = x\n" + source)))
        self.assertEqual([each["code"] for each in found], ["missing-message"])

    def test_a_folder_of_a_language_alone_is_open(self):
        path = self.project()
        self.client.start(path.parent)
        self.assertEqual(self.codes(self.client.open(path)), ["unknown-variable", "missing-message"])

    def test_what_the_program_has(self):
        self.project()
        self.start()
        source = "c = { OWN($x) } { OTHER($x) }\n"
        found = self.client.diagnostics(self.client.open(self.file("text/no/pl/c.ftl", source)))
        self.assertIn("OTHER", [each["message"] for each in found if each["code"] == "unknown-function"][0])
        self.assertEqual(len([each for each in found if each["code"] == "unknown-function"]), 1)

    def test_a_wrong_file_is_named_with_its_line(self):
        path = self.project(FILE.replace("reference =", "refrence ="))
        self.start()
        uri = self.client.open(path)
        words = "the project's file isn't used: l10n.toml:3: [[paths]] has no key `refrence`"
        (found,) = [each for each in self.client.diagnostics(uri) if each["code"] == "project-file"]
        self.assertEqual((found["message"], found["severity"], found["range"]["start"]["line"]), (words, 2, 0))
        self.assertEqual(self.shown(), [f"kozhvadi: {words}"])
        # It is read again once it changes.
        self.file("l10n.toml", FILE)
        self.client.tell("workspace/didChangeWatchedFiles", changes=[])
        self.assertEqual(self.codes(uri), ["unknown-variable", "missing-message"])

    def test_a_reference_without_files(self):
        path = self.project(FILE.replace("source/", "sources/"))
        self.start()
        found = self.client.diagnostics(self.client.open(path))
        words = "l10n.toml:3: no file matches `reference`: nothing is compared"
        self.assertEqual([each["message"] for each in found], [words])
        self.assertEqual(found[0]["code"], "missing-reference")

    def test_files_that_a_language_lacks(self):
        self.project()
        path = self.file("text/no/id/os/more.ftl", "-brand = Rubah\n")
        self.start()
        uri = self.client.open(path)
        (found,) = self.client.diagnostics(uri)
        self.assertEqual(found["code"], "missing-file")
        self.assertIn("text/no/id/main.ftl", found["message"])
        start = {"line": 0, "character": 0}
        asked = {"range": {"start": start, "end": start}, "context": {"diagnostics": []}}
        told = self.client.ask("textDocument/codeAction", textDocument={"uri": uri}, **asked)
        (made,) = [each for each in told if each["title"] == "Create text/no/id/main.ftl"]
        (edits,) = made["edit"]["changes"].values()
        self.assertEqual(edits[0]["newText"], "a = A { $x } { -brand }\nb = B\n")

    def test_what_a_filter_leaves_out(self):
        rule = '[[filters]]\npath = "text/no/{locale}/main.ftl"\n%saction = "ignore"\n'
        path = self.project(FILE + rule % 'key = "b"\n')
        self.start()
        uri = self.client.open(path)
        self.assertEqual(self.codes(uri), ["unknown-variable"])
        self.file("l10n.toml", FILE + rule % "")
        self.client.tell("workspace/didChangeWatchedFiles", changes=[])
        # A filter of files is about files that are missing.
        self.assertEqual(self.codes(uri), ["unknown-variable", "missing-message"])
        self.assertEqual(self.codes(self.client.open(self.file("text/no/id/os/more.ftl", "-brand = Rubah\n"))), [])

    def test_files_that_are_loaded_together(self):
        path = self.project()
        main = "a = { $x } { -brand }\nb = B\n"
        self.file("l10n.toml", f'{FILE}catalog = "file"\n')
        self.start()
        uri = self.client.open(path, main)
        self.assertEqual(self.codes(uri), ["unknown-term", "untranslated"])
        self.client.tell("workspace/didChangeConfiguration", settings={"kozhvadi": {"catalog": "language"}})
        self.assertEqual(self.codes(uri), ["untranslated"])

    def test_a_file_of_the_reference_takes_its_translations_along(self):
        self.project()
        workspace = {"workspaceEdit": {"documentChanges": True, "resourceOperations": ["create", "rename"]}}
        self.start(capabilities={**CAPABILITIES, "workspace": workspace})
        source = self.root / "source"

        def moved(old, new):
            files = [{"oldUri": (source / old).as_uri(), "newUri": (source / new).as_uri()}]
            told = self.client.ask("workspace/willRenameFiles", files=files)
            pairs = [(each["oldUri"], each["newUri"]) for each in told["documentChanges"]] if told else []
            root = self.root.as_uri()
            return [tuple(uri.removeprefix(f"{root}/") for uri in pair) for pair in pairs]

        self.assertEqual(moved("main.ftl", "x/first.ftl"), [("text/no/pl/main.ftl", "text/no/pl/x/first.ftl")])
        self.assertEqual(moved("os", "far"), [("text/no/pl/os/more.ftl", "text/no/pl/far/more.ftl")])
        self.assertEqual(moved("main.ftl", "../away.ftl"), [])

    def test_hover_and_completion_have_the_text_of_the_reference(self):
        path = self.project()
        self.start()
        uri = self.client.open(path)
        ask = at(uri, path.read_text(), "a =")
        self.assertIn("A x B", self.client.ask("textDocument/hover", **ask)["contents"]["value"])
        hints = self.client.ask(
            "textDocument/inlayHint",
            textDocument={"uri": uri},
            range={"start": {"line": 0, "character": 0}, "end": {"line": 9, "character": 0}},
        )
        self.assertEqual(hints[0]["label"], "A { $x } { -brand }")
        where = self.client.ask("textDocument/definition", **at(uri, path.read_text(), "-brand"))
        self.assertEqual([each["uri"] for each in where], [(self.root / "text/no/pl/os/more.ftl").as_uri()])
