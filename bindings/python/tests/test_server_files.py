"""Which files are one for the language server, which belong together, and what it says of those that it can't read."""

import os
import unittest

from .language_client import CAPABILITIES, at, edited
from .workspace_case import WorkspaceCase

MARK = "\ufeff"


class LinksTest(WorkspaceCase):
    SOURCE = "a = x\nb = { a }\n"

    def renamed(self, uri, source=SOURCE):
        return self.client.ask("textDocument/rename", newName="zz", **at(uri, source, "a }"))["changes"]

    def assert_one_file(self, uri):
        """It has no duplicate ids, two occurrences of `a`, and a rename changes it once, by this URI."""
        self.assertEqual(self.codes(uri), [])
        asked = at(uri, self.SOURCE, "a }")
        self.assertEqual([each["uri"] for each in self.client.ask("textDocument/references", **asked)], [uri] * 2)
        changes = self.renamed(uri)
        self.assertEqual(list(changes), [uri])
        self.assertEqual(edited(self.SOURCE, changes[uri]), "zz = x\nb = { zz }\n")

    def test_a_link_beside_its_file(self):
        for opened in ("main.ftl", "link.ftl"):
            with self.subTest(opened):
                self.setUp()
                self.file("l10n/pl/main.ftl", self.SOURCE)
                (self.root / "l10n/pl/link.ftl").symlink_to("main.ftl")
                self.client.start(self.root)
                self.assert_one_file(self.client.open(self.root / "l10n/pl" / opened))

    def test_a_link_is_another_name_of_a_closed_file(self):
        self.file("l10n/pl/main.ftl", "a = x\n")
        (self.root / "l10n/pl/link.ftl").symlink_to("main.ftl")
        self.client.start(self.root)
        uri = self.client.open(self.root / "l10n/pl/use.ftl", "b = { a }\n")
        self.assertEqual(self.codes(uri), [])
        self.assertEqual(set(self.renamed(uri, "b = { a }\n")), {uri, (self.root / "l10n/pl/main.ftl").as_uri()})

    def test_a_workspace_that_is_a_link(self):
        for through_link in (False, True):
            with self.subTest(through_link):
                self.setUp()
                path = self.file("real/l10n/pl/main.ftl", self.SOURCE)
                self.file("real/l10n/en-US/main.ftl", "b = x\nc = y\n")
                link = self.root / "link"
                link.symlink_to("real")
                self.client.start(link, reference="l10n/en-US")
                uri = self.client.open(link / "l10n/pl/main.ftl" if through_link else path)
                (found,) = self.client.diagnostics(uri)
                self.assertIn("no translation: `c`", found["message"])
                self.assertEqual(list(self.renamed(uri)), [uri])
                # What isn't open has a path below the folder that the client named.
                (place,) = self.client.ask("workspace/symbol", query="c")
                self.assertEqual(place["location"]["uri"], (link / "l10n/en-US/main.ftl").as_uri())

    def test_a_link_into_another_language(self):
        self.file("shared/brand.ftl", "-brand = { -none }\n")
        for language in ("de", "pl"):
            self.file(f"l10n/{language}/main.ftl", "a = { -brand }\n")
            (self.root / f"l10n/{language}/brand.ftl").symlink_to("../../shared/brand.ftl")
        self.client.start(self.root)
        shared = self.client.open(self.root / "shared/brand.ftl")
        self.assertEqual(self.codes(shared), ["unknown-term"])
        polish = self.client.open(self.root / "l10n/pl/main.ftl")
        self.assertEqual(self.codes(polish), [])
        self.client.ask("workspace/symbol", query="")
        told = [each for each in self.client.told if each["params"].get("uri") == shared]
        self.assertEqual(told, [])

    def test_two_spellings_of_a_uri(self):
        path = self.file("l10n/pl/ż.ftl", self.SOURCE)
        self.client.start(self.root)
        for uri in (path.as_uri(), path.as_uri().replace("%C5%BC", "ż"), path.as_uri().replace("/pl/", "/./pl//")):
            self.client.open(uri, self.SOURCE)
            self.assert_one_file(uri)

    def test_names_with_signs(self):
        self.client.start(self.root)
        for name in ("a b", "a%b", "a%25b", "a#b", "a?b", "\U0001f44d", "a:b", "a+b", "a&b"):
            with self.subTest(name):
                path = self.file(f"{name}/pl/{name}.ftl", self.SOURCE)
                uri = self.client.open(path)
                self.assert_one_file(uri)
                self.client.tell("textDocument/didClose", textDocument={"uri": uri})
                path.unlink()

    def test_names_that_arent_utf8(self):
        self.client.start(self.root)
        paths = [self.file(os.fsdecode(name), self.SOURCE) for name in (b"\xfe/de.ftl", b"\xff/de.ftl")]
        for opened in (paths[:1], paths):
            uris = [self.client.open(path) for path in opened]
            changes = self.renamed(uris[-1])
            self.assertEqual(set(changes), {path.as_uri() for path in paths})
            for edits in changes.values():
                self.assertEqual(edited(self.SOURCE, edits), "zz = x\nb = { zz }\n")

    def test_two_names_of_a_file(self):
        path = self.file("pl.ftl", self.SOURCE)
        os.link(path, self.root / "de.ftl")
        self.client.start(self.root)
        self.assert_one_file(self.client.open(path))


class MarksTest(WorkspaceCase):
    def test_a_closed_file_with_a_mark(self):
        text = "q = { a } { -t }\nq2 = { a }\n"
        path = self.file("l10n/pl/mark.ftl", MARK + text)
        source = "a = x\n-t = y\nb = { a } { -t }\n"
        self.client.start(self.root)
        uri = self.client.open(self.root / "l10n/pl/main.ftl", source)
        for name, words in (("a", "a }"), ("-t", "-t }")):
            changes = self.client.ask("textDocument/rename", newName="zz", **at(uri, source, words))["changes"]
            expected = text.replace(f"{{ {name} }}", f"{{ {'-' if name[0] == '-' else ''}zz }}")
            self.assertEqual(edited(text, changes[path.as_uri()]), expected)

    def test_an_open_file_with_a_mark(self):
        """An editor doesn't send the mark, and keeps it."""
        text = "q = x\nq2 = { -none }\n"
        path = self.file("l10n/pl/mark.ftl", MARK + text)
        self.client.start(self.root)
        uri = self.client.open(path, text)
        found = self.found(self.client.diagnostics(uri))
        self.assertEqual((found[0][2:], found[-1]), ((0, 0), ("unknown-term", 1, 1, 7)))
        path.write_text(text)
        self.client.tell("textDocument/didSave", textDocument={"uri": uri})
        self.assertEqual(self.found(self.client.diagnostics(uri)), [("unknown-term", 1, 1, 7)])

    def test_a_client_that_sends_the_mark(self):
        """The mark is a character of its text, so its positions count it."""
        text = MARK + "a = { b } { b }\nb = y\n"
        self.client.start(self.root)
        uri = self.client.open(self.file("pl.ftl", text), text)
        changes = self.client.ask("textDocument/rename", newName="zz", **at(uri, text, "b }"))["changes"]
        self.assertEqual(edited(text, changes[uri]), MARK + "a = { zz } { zz }\nzz = y\n")
        edits = self.client.ask("textDocument/formatting", textDocument={"uri": uri}, options={})
        self.assertEqual(edited(text, edits), text[1:])


class RootsTest(WorkspaceCase):
    def start(self, *folders, **settings):
        folders = [{"uri": (self.root / name).as_uri(), "name": name} for name in folders]
        given = {"capabilities": CAPABILITIES, "workspaceFolders": folders, "initializationOptions": settings}
        return self.client.ask("initialize", **given)["capabilities"]

    def setUp(self):
        super().setUp()
        for name in ("one", "two", "two/inner"):
            only = name.replace("/", "-")
            self.file(f"{name}/l10n/en-US/m.ftl", f"a = A {{ ${only} }}\n{only} = x\n")
            self.file(f"{name}/l10n/pl/m.ftl", "a = { $none }\n")

    def told(self, name):
        uri = self.client.open(self.root / name / "l10n/pl/m.ftl")
        return [each["message"] for each in self.client.diagnostics(uri)]

    def test_each_folder_has_its_reference(self):
        folders = ("one", "two", "two/inner")
        self.start(*folders, reference="l10n/en-US")
        for name in folders:
            variable, missing = self.told(name)
            self.assertIn("the reference has no variable `$none`", variable)
            self.assertEqual(missing, f"1 message of the reference has no translation: `{name.replace('/', '-')}`")

    def test_a_folder_without_a_reference_has_none(self):
        self.file("three/l10n/pl/m.ftl", "a = { $none }\n")
        self.start("one", "three", reference="l10n/en-US")
        words = f"the reference l10n/en-US isn't in {self.root / 'three'}"
        self.assertEqual(self.told("three"), [f"{words}: nothing is compared"])
        self.assertEqual(self.told("two"), [])
        self.assertEqual(self.shown(), [f"kozhvadi: {words}"])

    def test_folders_that_change(self):
        can = self.start("one", reference="l10n/en-US")
        self.assertEqual(can["workspace"]["workspaceFolders"], {"supported": True, "changeNotifications": True})
        self.assertEqual(self.told("two"), [])
        added = {"uri": (self.root / "two").as_uri(), "name": "two"}
        removed = {"uri": f"{(self.root / 'one').as_uri()}/", "name": "one"}
        self.client.tell("workspace/didChangeWorkspaceFolders", event={"added": [added], "removed": [removed]})
        self.assertEqual(len(self.client.diagnostics((self.root / "two/l10n/pl/m.ftl").as_uri())), 2)
        self.assertEqual(self.told("one"), [])


class SettingsTest(WorkspaceCase):
    SOURCE = "a = { $y } { F() }\n"

    def setUp(self):
        super().setUp()
        self.file("l10n/en-US/m.ftl", "a = { $x }\nb = B\n")
        self.uri, self.version = (self.root / "l10n/pl/m.ftl").as_uri(), 1

    def started(self, **settings):
        self.client.start(self.root, **settings)
        self.client.open(self.uri, self.SOURCE)
        return self.codes(self.uri)

    def after(self, settings):
        """What is found after these settings are sent."""
        self.client.tell("workspace/didChangeConfiguration", settings=settings)
        self.version += 1
        self.client.change(self.uri, self.SOURCE, self.version)
        return self.codes(self.uri, self.version)

    def test_what_sets_nothing_changes_nothing(self):
        before = ["unknown-variable", "missing-message"]
        self.assertEqual(self.started(reference="l10n/en-US", functions=["F"]), before)
        for settings in (
            {"other": {}},
            {"pylsp": {"plugins": {}}},
            {"kozhvadi": None},
            {"kozhvadi": {}},
            {"kozhvadi": {"refrence": "l10n/en-US"}},
            {"kozhvadi": {"catalog": "folders"}},
            {"kozhvadi": []},
            {"reference": None},
            {},
            None,
            [],
        ):
            self.assertEqual(self.after(settings), before, settings)

    def test_settings_are_merged_over_those_of_the_start(self):
        self.started(reference="l10n/en-US", functions=["F"])
        for settings, codes in [
            ({"kozhvadi": {"functions": []}}, ["unknown-variable", "unknown-function", "missing-message"]),
            ({"notes": True, "pylsp": {}}, ["unknown-variable", "unused-variable", "missing-message"]),
            ({"kozhvadi": {"reference": "", "catalog": 1, "locale": "xx-none"}}, []),
        ]:
            self.assertEqual(sorted(self.after(settings)), sorted(codes), settings)

    def test_what_is_no_setting_is_named_once(self):
        self.started(refrence="l10n/en-US", functions="F", locale="pl")
        for settings in (
            {"kozhvadi": {"refrence": 1, "catalog": "folders"}},
            {"kozhvadi": {"catalog": "folders"}},
            {"kozhvadi": 1},
        ):
            self.after(settings)
        self.assertEqual(
            self.shown(),
            [
                "kozhvadi: there is no setting 'refrence': did you mean 'reference'?",
                "kozhvadi: the setting 'functions' has a value that it doesn't take: 'F'",
                "kozhvadi: the setting 'catalog' has a value that it doesn't take: 'folders'",
                "kozhvadi: the settings aren't an object",
            ],
        )

    def test_a_reference_that_is_missing_is_named_once(self):
        self.assertEqual(self.started(reference="l10n/en-USS"), ["missing-reference", "unknown-function"])
        self.after({})
        words = f"isn't in {self.root}"
        self.assertEqual(self.shown(), [f"kozhvadi: the reference l10n/en-USS {words}"])
        self.after({"kozhvadi": {"reference": "en.ftl"}})
        self.after({"kozhvadi": {"reference": "l10n/en-US"}})
        self.assertEqual(self.shown(), [f"kozhvadi: the reference en.ftl {words}"])


class UnreadTest(WorkspaceCase):
    SOURCE = "a = { -brand } { other }\nc = { $x }\n"

    def test_a_file_of_the_catalog(self):
        self.file("l10n/en-US/main.ftl", "a = x\nc = y\nd = z\n")
        for text, why in (
            (b"-brand = \xb3\n", "isn't UTF-8"),
            ("-brand = B\ndeep = " + "{" * 3000, "nests too deep"),
            (None, "is larger than 64 MiB"),
        ):
            with self.subTest(why):
                path = self.file("l10n/pl/terms.ftl", text or b"")
                if text is None:
                    os.truncate(path, 64 * 2**20 + 1)
                self.client.start(self.root, reference="l10n/en-US", notes=True)
                uri = self.client.open(self.root / "l10n/pl/main.ftl", self.SOURCE)
                unread, variable = self.client.diagnostics(uri)
                self.assertEqual(self.found([unread]), [("unread-file", 2, 0, 0)])
                words = f"l10n/pl/terms.ftl {why}, so its entries are unknown"
                self.assertEqual(unread["message"], words)
                self.client.tell("textDocument/didSave", textDocument={"uri": uri})
                self.client.diagnostics(uri)
                self.assertEqual(self.shown(), [f"kozhvadi: {words}"])
                self.assertEqual(variable["code"], "unknown-variable")
                told = self.client.ask("textDocument/rename", newName="x", **at(uri, self.SOURCE, "a ="))
                self.assertEqual(told["code"], -32803)
                self.assertIn(f"l10n/pl/terms.ftl {why}", told["message"])
                path.write_text("-brand = B\nother = x\nd = z\n")
                self.client.tell("workspace/didChangeWatchedFiles", changes=[])
                self.assertEqual(self.codes(uri), ["unknown-variable"])
                told = self.client.ask("textDocument/rename", newName="x", **at(uri, self.SOURCE, "a ="))
                self.assertEqual(len(told["changes"]), 2)
                self.client = self.entered(type(self.client)())

    def test_a_file_of_the_reference(self):
        self.file("l10n/en-US/other.ftl", b"c = { $x } \xff\n")
        self.file("l10n/en-US/main.ftl", "a = { c }\nb = { DATE() }\n")
        self.client.start(self.root, reference="l10n/en-US", notes=True)
        uri = self.client.open(self.root / "l10n/pl/main.ftl", "a = { $x } { F() }\nc = x\n")
        self.assertEqual(self.codes(uri), ["unread-file", "missing-message"])

    def test_many_files(self):
        for number in range(7):
            self.file(f"{number}.ftl", b"\xff")
        self.client.start(self.root)
        uri = self.client.open(self.root / "main.ftl", self.SOURCE)
        told = [each["message"] for each in self.client.diagnostics(uri)]
        self.assertEqual((len(told), told[-1]), (6, "2 more files can't be read, so their entries are unknown"))

    def test_an_open_document_that_nests_too_deep(self):
        self.client.start(self.root)
        uri = self.client.open(self.root / "main.ftl", self.SOURCE)
        self.assertEqual(self.codes(uri), ["unknown-term", "unknown-message"])
        deep = self.client.open(self.root / "deep.ftl", "deep = " + "{" * 3000)
        self.assertEqual(self.codes(deep), ["memory"])
        self.assertEqual(self.codes(uri), ["unread-file"])


class PlacesOfOthersTest(WorkspaceCase):
    def test_a_duplicate_id_names_a_path_and_its_place(self):
        self.file("l10n/pl/a.ftl", "x = 1\n\n-y = 2\n")
        related = {"publishDiagnostics": {"relatedInformation": True}}
        for capabilities in ({"textDocument": {}}, {"textDocument": related}):
            with self.subTest(capabilities):
                self.client.start(self.root, capabilities=capabilities)
                uri = self.client.open(self.root / "l10n/pl/b.ftl", "-y = 1\n")
                (found,) = self.client.diagnostics(uri)
                words = "the entry at l10n/pl/a.ftl:3:1 has the same id, so this one is never shown"
                self.assertEqual(found["message"], f"-y: {words}")
                places = [each["location"] for each in found.get("relatedInformation", [])]
                line = {"start": {"line": 2, "character": 1}, "end": {"line": 2, "character": 2}}
                expected = {"uri": (self.root / "l10n/pl/a.ftl").as_uri(), "range": line}
                self.assertEqual(places, [expected] if "publishDiagnostics" in capabilities["textDocument"] else [])
                self.client = self.entered(type(self.client)())


if __name__ == "__main__":
    unittest.main()
