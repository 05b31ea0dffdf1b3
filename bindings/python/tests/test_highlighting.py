"""Highlighting: the server's tokens, and the files for editors that are compared with them."""

import itertools
import json
import os
import shutil
import subprocess
import tempfile
import unittest
from pathlib import Path

from kozhvadi import occurrences
from kozhvadi._tokens import Tokens

from .highlighted import sources, tokens
from .test_places import ROOT
from .textmate import Grammar
from .workspace_case import WorkspaceCase

EDITORS = ROOT / "editors"

SOURCE = (
    '# Of a.\na = One { $n ->\n    [one] { NUMBER($n, type: "x") }\n   *[0.5] { -t.k } \U0001f44d { b.c }\n}\n'
    "    .at = T\n-t = \"x\" { junk\n## Group\n"
)
EXPECTED = [
    (0, 0, "# Of a.", "comment", []),
    (1, 0, "a", "function", ["declaration"]),
    (1, 2, "=", "operator", []),
    (1, 10, "$n", "variable", []),
    (1, 13, "->", "operator", []),
    (2, 5, "one", "enumMember", []),
    (2, 12, "NUMBER", "macro", []),
    (2, 19, "$n", "variable", []),
    (2, 23, "type", "parameter", []),
    (2, 29, '"x"', "string", []),
    (3, 3, "*", "operator", []),
    (3, 5, "0.5", "number", []),
    (3, 12, "-t", "type", []),
    (3, 14, ".k", "property", []),
    (3, 24, "b", "function", []),
    (3, 25, ".c", "property", []),
    (5, 4, ".at", "property", ["declaration"]),
    (5, 8, "=", "operator", []),
    (6, 0, "-t", "type", ["declaration"]),
    (6, 3, "=", "operator", []),
    (6, 11, "junk", "function", []),
    (7, 0, "## Group", "comment", []),
]


class ServerTest(WorkspaceCase):
    def decoded(self, data, legend):
        lines, told = SOURCE.split("\n"), []
        line = character = 0
        for down, right, length, kind, modifiers in zip(*[iter(data)] * 5):
            line, character = line + down, right if down else character + right
            units = lines[line].encode("utf-16-le")[2 * character : 2 * (character + length)]
            named = [name for bit, name in enumerate(legend["tokenModifiers"]) if modifiers >> bit & 1]
            told.append((line, character, units.decode("utf-16-le"), legend["tokenTypes"][kind], named))
        return told

    def test_tokens(self):
        legend = self.client.start(self.root)["capabilities"]["semanticTokensProvider"]["legend"]
        uri = self.client.open(self.root / "x.ftl", SOURCE)
        asked = lambda method, **params: self.client.ask(method, textDocument={"uri": uri}, **params)["data"]
        self.assertEqual(self.decoded(asked("textDocument/semanticTokens/full"), legend), EXPECTED)
        lines = {"start": {"line": 3, "character": 12}, "end": {"line": 5, "character": 7}}
        told = self.decoded(asked("textDocument/semanticTokens/range", range=lines), legend)
        self.assertEqual(told, [each for each in EXPECTED if (3, 12) <= each[:2] <= (5, 4)])


class TokensTest(unittest.TestCase):
    def test_names_are_those_of_the_library(self):
        """Each name that the library finds is a token of its kind, and each token of names is one that it finds."""
        kinds = {"message", "term", "attribute", "variable", "function"}
        tried = 0
        for source in sources():
            own = {(each.kind, each.end, each.is_definition) for each in Tokens(source.encode()).tokens}
            named = {(each.symbol.kind, each.end, each.is_definition) for each in occurrences(source)}
            arguments = {each.end for each in occurrences(source) if each.symbol.kind == "variable"}
            missing = {each for each in named - own if ("argument", each[1], False) not in own}
            self.assertEqual(missing, set(), source)
            self.assertEqual({each for each in own if each[0] in kinds} - named, set(), source)
            tried += bool(arguments)
        self.assertGreater(tried, 50)

    def test_tokens_are_in_order_and_on_one_line(self):
        for source in sources():
            data, before = source.encode(), 0
            for each in Tokens(data).tokens:
                self.assertLessEqual(before, each.start)
                self.assertNotIn(b"\n", data[each.start : each.end])
                before = each.end


# Each kind of token in the names of the highlighters.
SCOPES = {
    "comment": "comment.line",
    "message": "entity.name.function.message",
    "term": "entity.name.type.term",
    "attribute": "entity.other.attribute-name",
    "variable": "variable.other.readwrite",
    "function": "support.function",
    "argument": "variable.parameter",
    "key": "variable.other.enummember",
    "string": ("string.quoted", "constant.character.escape", "invalid.illegal"),
    "number": "constant.numeric",
    "sign": "keyword.operator",
}


class TextMateTest(unittest.TestCase):
    def test_scopes_are_the_tokens_of_the_server(self):
        grammar, tried = Grammar(EDITORS / "fluent.tmLanguage.json"), 0
        for source in sources():
            scopes, expected = grammar.scopes(source), {}
            for each in tokens(source):
                start, end = (len(source.encode()[:at].decode()) for at in (each.start, each.end))
                # A line at a time is looked at: the sign that makes a name a function may be on the next one.
                if source[end:].split("\n")[0].strip(" ") or each.kind not in ("function", "argument"):
                    expected |= dict.fromkeys((start, end - 1), each.kind)
            for place, kind in expected.items():
                self.assertTrue((scopes[place] or "").startswith(SCOPES[kind]), (source, place, kind, scopes[place]))
                tried += 1
            found = {at for at, scope in enumerate(scopes) if scope and not scope.startswith("punctuation")}
            inside = set(itertools.chain(*(self.characters(source, each) for each in tokens(source))))
            self.assertEqual(found - inside, set(), source)
        self.assertGreater(tried, 1_000)

    @staticmethod
    def characters(source, token):
        data = source.encode()
        return range(len(data[: token.start].decode()), len(data[: token.end].decode()))

    def test_a_broken_entry_ends_at_the_next_one(self):
        grammar = Grammar(EDITORS / "fluent.tmLanguage.json")
        for broken in ("a = { $n ->\n", "a = { F(\n", 'a = { "x\n', "a = {\n", "a = { $n ->\n   *[\n", "junk {\n"):
            scopes = grammar.scopes(f"{broken}b = x\n")
            self.assertEqual(scopes[len(broken)], "entity.name.function.message.fluent", broken)
            scopes = grammar.scopes(f"{broken}# c\n")
            self.assertEqual(scopes[len(broken)], "comment.line.number-sign.fluent", broken)


class EditorCase:
    """Tests of a highlighter in its editor. `names(folder, files)` asks the editor for the names at places of files, and
    `kinds` has those that it may give to each kind of token, and to texts, one word each."""

    program = ""
    kinds: dict[str, str] = {}
    texts = ("",)

    def setUp(self):
        if not shutil.which(self.program):
            self.skipTest(f"there is no {self.program}")
        if os.environ.get("KOZHVADI_CTYPES"):
            self.skipTest("the editor has been asked over the extension")

    def test_names_are_the_tokens_of_the_server(self):
        with tempfile.TemporaryDirectory() as made:
            asked, written = [], list(sources())
            for number, source in enumerate(written):
                path = Path(made, f"{number}.ftl")
                path.write_bytes(source.encode())
                asked.append((str(path), self.places(source)))
            told = self.names(Path(made), [(path, [place[:2] for place in places]) for path, places in asked])
        tried = 0
        for source, (_, places), names in zip(written, asked, told, strict=True):
            for place, name in zip(places, names, strict=True):
                allowed = self.texts if place[2] == "text" else self.kinds[place[2]].split()
                self.assertIn(name, allowed, (source, place))
                tried += 1
        self.assertGreater(tried, 1_000)

    @staticmethod
    def places(source):
        """The first and last bytes of tokens as lines and columns from 1, and their kinds. Some places in texts follow."""
        data, places = source.encode(), []
        spans = [(each.start, each.end - 1, each.kind) for each in tokens(source)]
        inside = {at for start, end, _ in spans for at in range(start, end + 1)}
        signs = b"{}[](),:"
        plain = (at for at, byte in enumerate(data) if byte not in signs and not chr(byte).isspace())
        texts = [at for at in plain if at not in inside][::5]
        for place, kind in [each for start, end, kind in spans for each in ((start, kind), (end, kind))] + [
            (at, "text") for at in texts
        ]:
            if data[place] & 0xC0 != 0x80:
                line = data.rfind(b"\n", 0, place) + 1
                places.append((data.count(b"\n", 0, place) + 1, place - line + 1, kind))
        return places


VIM = """
set nocompatible encoding=utf-8 nomore
exe 'set runtimepath^=' . fnameescape($EDITORS . '/vim')
filetype plugin on
syntax on
let told = []
for [path, places] in json_decode(join(readfile($ASKED), ''))
  exe 'edit! ++ff=unix ' . fnameescape(path)
  syntax sync fromstart
  call add(told, map(places, 'synIDattr(synID(v:val[0], v:val[1], 1), "name")'))
endfor
call writefile([json_encode([told, &filetype, &commentstring])], $TOLD)
qa!
"""


class VimTest(EditorCase, unittest.TestCase):
    program, words = "vim", ["-es", "-N"]
    # A text is in no group, or in that of the braces around it.
    texts = ("", "fluentSelect", "fluentPlaceable")
    kinds = {
        "comment": "fluentComment fluentTodo",
        "message": "fluentMessage fluentReference",
        "term": "fluentTerm fluentTermReference",
        "attribute": "fluentAttribute fluentAccessor",
        "variable": "fluentVariable",
        "function": "fluentFunction",
        "argument": "fluentArgument",
        "key": "fluentKey",
        "string": "fluentString fluentEscape",
        "number": "fluentNumber",
        "sign": "fluentEquals fluentArrow fluentDefault",
    }

    def names(self, folder, asked):
        script, told = folder / "script.vim", folder / "told"
        script.write_text(VIM, encoding="utf-8")
        (folder / "asked").write_text(json.dumps(asked), encoding="utf-8")
        env = {**os.environ, "EDITORS": str(EDITORS), "ASKED": str(folder / "asked"), "TOLD": str(told)}
        ran = subprocess.run(
            [self.program, *self.words, "-u", "NONE", "-i", "NONE", "-n", "-S", str(script)],
            env={**env, "HOME": str(folder)},
            stdin=subprocess.DEVNULL,
            capture_output=True,
            timeout=900,
            check=False,
        )
        self.assertTrue(told.exists(), ran.stderr[-2000:])
        names, filetype, commentstring = json.loads(told.read_text(encoding="utf-8"))
        self.assertEqual((filetype, commentstring), ("fluent", "# %s"))
        return names


class NeovimTest(VimTest):
    program, words = "nvim", ["--headless"]


EMACS = """
(progn
  (load (expand-file-name "emacs/fluent-mode.el" (getenv "EDITORS")) nil t)
  (require 'json)
  (let* ((json-array-type 'list) (coding-system-for-read 'utf-8-unix) (coding-system-for-write 'utf-8-unix) told)
    (dolist (each (json-read-file (getenv "ASKED")))
      (with-temp-buffer
        (insert-file-contents (car each))
        (setq buffer-file-name (car each))
        (set-auto-mode)
        (unless (eq major-mode 'fluent-mode) (error "the mode is %s" major-mode))
        (font-lock-ensure)
        (push (vconcat (mapcar (lambda (place)
                        (goto-char (point-min))
                        (forward-line (1- (car place)))
                        (let ((face (get-text-property
                                     (byte-to-position (+ (position-bytes (point)) (1- (cadr place)))) 'face)))
                          (if face (symbol-name face) "")))
                      (cadr each)))
              told)
        (set-buffer-modified-p nil)
        (setq buffer-file-name nil)))
    (with-temp-file (getenv "TOLD") (insert (json-encode (vconcat (nreverse told)))))))
"""


class EmacsTest(EditorCase, unittest.TestCase):
    program = "emacs"
    kinds = {**{kind: f"fluent-{kind}" for kind in SCOPES}, "comment": "font-lock-comment-face"}

    def names(self, folder, asked):
        (folder / "asked").write_text(json.dumps(asked), encoding="utf-8")
        (folder / "script.el").write_text(EMACS, encoding="utf-8")
        env = {**os.environ, "EDITORS": str(EDITORS), "ASKED": str(folder / "asked"), "TOLD": str(folder / "told")}
        ran = subprocess.run(
            ["emacs", "-Q", "--batch", "-l", str(folder / "script.el")],
            env={**env, "HOME": str(folder)},
            capture_output=True,
            text=True,
            timeout=900,
            check=False,
        )
        self.assertTrue((folder / "told").exists(), ran.stderr[-2000:])
        return json.loads((folder / "told").read_text(encoding="utf-8"))

    def test_the_mode_compiles_without_a_warning(self):
        with tempfile.TemporaryDirectory() as made:
            path = Path(made, "fluent-mode.el")
            shutil.copy(EDITORS / "emacs/fluent-mode.el", path)
            words = ["emacs", "-Q", "--batch", "--eval", "(setq byte-compile-error-on-warn t)"]
            ran = subprocess.run(
                [*words, "-f", "batch-byte-compile", str(path)], capture_output=True, text=True, check=False
            )
            self.assertEqual(ran.returncode, 0, ran.stderr)


if __name__ == "__main__":
    unittest.main()
