"""The tree of a source: what it has, where its nodes are, and what it is written as."""

import copy
import ctypes
import doctest
import itertools
import json
import os
import pickle
import unittest
from pathlib import Path

from kozhvadi import _library as c
from kozhvadi import occurrences, syntax
from kozhvadi.syntax.errors import CODES
from kozhvadi.syntax import FluentParser, FluentSerializer, Transformer, Visitor, ast, parse, serialize, visitor
from kozhvadi.syntax._written import written

ROWS = Path(__file__).resolve().parents[3] / "crates/all_rows/data/syntax"

# Sources of each kind of node, damaged ones too.
SOURCES = [
    "",
    "\n  \n",
    "a = b",
    "a = b\r\n    c\r\n\r\n    d { $x } e\r\n   f\r\n",
    "# c\n# d\n\n## g\n### r\n#\n\n# own\na = b\n# own\n-t = { 1.5 }\n    .gender = none\n",
    "a =\n    .b = c\n      .d =\n        e\n         f\n\n      g\n  \n",
    "a =\n     { $x }\n  b\n",
    "a =\n       x\n  b { $y }   \nb = { $x }   \n  .c = { $y }\n",
    'a = { "x\\"\\u00e9" } { -t(case: "of", n: 1) } { -t.gender } { F( $a , 2 , m.b , {{ "n" }} , k : 3 , ) } { m.c }\n',
    "a = { $x ->\n    [one] One\n        more\n   *[ other ]\n        Other { $y ->\n           *[1.0] in\n        }\n} after\n",
    "a = { \n $x\n -> \n\n *[o] é𝄞\n\n }\n",
    "a = {FOO()}{\"\"}text{$b}\n",
    "junk here\n\n  }\n# foo\na = 1\nb = }\n.x\n#e\n",
    "a = 1\n .b\nc = 2\n",
    "a = 1\n  }\n",
    "name",
    "a={1->\n*\n}\nb={F(1 2)}\nc={d .e}\nd=\t\ne={$x}\u2003\n .f=g\n  \u2003\nh=\n  i\n    \n  j\nk=\n  l\n    {1}\n  ",
    "a = b\n \u2003\n\n\t\nc",
    "a={{1->\n*[b]c\n}}\nb={F({1->\n*[b]c\n  d\n})}\nc=.b\n c\n# \t\n# x \nd=b\n\n c\ne={1->\n*[b]\n  c\n\n  .d\n}\n",
    "a={{{1->\n*[b]c\n}}}\nb={1->\n*[b]{F({1->\n*[b]{{1->\n*[b]c\n d}}\n})}\n}\nc=x\n {{1->\n*[b]c\n}}\n  .y={{1->\n*[b].c\n}}\n",
]


def write(source, with_junk=False):
    """What the library writes of a source."""
    call, text, made = c.library.fluent_write, source.encode(), c.FluentText()
    call.argtypes = [ctypes.c_char_p, ctypes.c_size_t, ctypes.c_bool, ctypes.POINTER(c.FluentText)]
    assert call(text, len(text), with_junk, made) == c.READ
    written = c.string_of(made)
    c.library.fluent_free_text(made)
    return written


def write_tree(json_text, with_junk=False):
    """What the library writes of a tree that is given as JSON, or the number by which it refuses it."""
    made, text = c.FluentText(), json_text.encode()
    status = c.library.fluent_write_tree(text, len(text), with_junk, made)
    found = c.string_of(made) if status == c.READ else status
    c.library.fluent_free_text(made)
    return found


def nodes(root):
    """The nodes of a tree, but for spans."""
    found = []

    class All(Visitor):
        def generic_visit(self, node):
            if not isinstance(node, ast.Span):
                found.append(node)
            super().generic_visit(node)

    All().visit(root)
    return found


def spelled(node, source):
    """What a node has to be in its source, as far as that is plain."""
    exact = {
        ast.Identifier: lambda: node.name,
        ast.NumberLiteral: lambda: node.value,
        ast.StringLiteral: lambda: f'"{node.value}"',
        ast.VariableReference: lambda: f"${node.id.name}",
        ast.Junk: lambda: node.content,
        ast.Resource: lambda: source,
    }
    return exact.get(type(node), lambda: None)()


def rows(*files):
    """The rows of some files of the proved program."""
    for file in files:
        with (ROWS / f"{file}.jsonl").open(encoding="utf-8") as lines:
            yield from map(json.loads, lines)


def in_python(value):
    """The tree of a row as these classes have it: the texts of a pattern's lines are one, and so are those of a comment."""
    if isinstance(value, list):
        return [in_python(each) for each in value]
    if not isinstance(value, dict):
        return value
    made = {key: in_python(each) for key, each in value.items() if key != "syntax"}
    if made["type"] == "Pattern":
        texts = itertools.groupby(made["elements"], lambda element: element["type"] == "TextElement")
        made["elements"] = [element for is_text, group in texts for element in (joined(group) if is_text else group)]
    if made["type"].endswith("Comment"):
        made["content"] = "\n".join(made["content"])
    return {**made, "type": "SelectExpression" if made["type"] == "Select" else made["type"]}


def joined(texts):
    return [{"type": "TextElement", "value": "".join(text["value"] for text in texts)}]


def plain(value):
    """A JSON value without spans and annotations."""
    if isinstance(value, list):
        return [plain(each) for each in value]
    if isinstance(value, dict):
        return {key: plain(each) for key, each in value.items() if key not in ("span", "annotations")}
    return value


def stripped(text):
    """The lines of a text without the indent, nor white space at its end, which is taken off a pattern."""
    return [line.lstrip(" ") for line in text.rstrip().split("\n")]


def names(tree):
    """Where the names of a tree are, but for those of variants and of named arguments."""
    found = nodes(tree)
    others = {id(node.key) for node in found if isinstance(node, ast.Variant)}
    others |= {id(node.name) for node in found if isinstance(node, ast.NamedArgument)}
    return [node.span for node in found if isinstance(node, ast.Identifier) and id(node) not in others]


# How nodes begin and end.
EDGES = {
    ast.Placeable: ("{", "}"),
    ast.CallArguments: ("(", ")"),
    ast.Attribute: (".", ""),
    ast.Variant: (("[", "*["), ""),
    ast.Term: (("-", "#"), ""),
    ast.TermReference: ("-", ""),
    ast.Comment: ("#", ""),
    ast.GroupComment: ("##", ""),
    ast.ResourceComment: ("###", ""),
}


class Syntax(unittest.TestCase):
    def check_places(self, source):
        """Each node is where its source has it, inside the node above it."""
        for node in nodes(parse(source)):
            here = source[node.span.start : node.span.end]
            exact = spelled(node, source)
            with self.subTest(source=source, node=type(node).__name__, here=here):
                if exact is not None:
                    self.assertEqual(here, exact)
                begin, end = EDGES.get(type(node), ("", ""))
                self.assertTrue(here.startswith(begin) and here.endswith(end))
                if isinstance(node, ast.TextElement):
                    self.assertEqual(stripped(here.replace("\r\n", "\n")), stripped(node.value))
                for below in vars(node).values():
                    for child in below if isinstance(below, list) else [below]:
                        if isinstance(child, ast.SyntaxNode) and not isinstance(child, ast.Annotation):
                            self.assertTrue(node.span.start <= child.span.start <= child.span.end <= node.span.end)

    def check_names(self, source):
        """The proved call for occurrences has the same names at the same places."""
        text = source.encode()
        found = [
            (each.start, each.end)
            for each in occurrences(source)
            # The library lists the arguments that a term is passed, too.
            if each.symbol.kind != "variable" or text[each.start - 1 : each.start] == b"$"
        ]
        offsets = [0]
        for character in source:
            offsets.append(offsets[-1] + len(character.encode()))
        placed = sorted((offsets[span.start], offsets[span.end]) for span in names(parse(source)))
        with self.subTest(source=source):
            self.assertEqual(placed, found)

    def test_nodes_are_where_they_are_written(self):
        for source in SOURCES:
            self.check_places(source)
            self.check_names(source)

    def test_rows_have_their_trees(self):
        """The rows of the proved program: what comes is from the rules."""
        for row in rows("rows", "parse"):
            source, tree = row["source"], parse(row["source"])
            with self.subTest(source=source):
                if "tree" in row:
                    self.assertEqual(plain(tree.to_json()), in_python(row["tree"]))
                junk = [entry for entry in tree.body if isinstance(entry, ast.Junk)]
                told = [(note.code, note.span.start) for stretch in junk for note in stretch.annotations]
                text = source.encode()
                if "errors" in row:
                    wanted = [(CODES[each["kind"]], len(text[: each["pos"][0]].decode())) for each in row["errors"]]
                    self.assertEqual(told, wanted)
            self.check_places(source)
            self.check_names(source)

    def test_rows_are_written(self):
        for row in rows("parse", "written"):
            if row["source"].endswith("#"):
                # A comment without lines, which is kept here.
                continue
            with self.subTest(source=row["source"]):
                self.assertEqual(serialize(parse(row["source"])), row["written"])
                self.assertEqual(serialize(parse(row["source"]), with_junk=True), row["written_with_junk"])

    def test_a_text_that_begins_with_blank_lines(self):
        """No blank is written at the end of a line."""
        blank = ast.Message(ast.Identifier("a"), ast.Pattern([ast.TextElement("\n\nb")]))
        self.assertEqual(serialize(ast.Resource([blank])), "a =\n\n\n    b\n")
        self.assertEqual(FluentSerializer()._written_here(ast.Resource([blank])), "a =\n\n\n    b\n")

    def test_trees_of_rows_are_written(self):
        """Trees as the rows have them, also such as no source has."""
        for row in rows("parse", "trees"):
            if "written" in row:
                tree = json.dumps(row["tree"])
                with self.subTest(tree=tree):
                    self.assertEqual(write_tree(tree), row["written"])
                    self.assertEqual(write_tree(tree, with_junk=True), row["written_with_junk"])
        self.assertEqual(write_tree("{"), c.NOT_JSON)
        self.assertEqual(write_tree("{}"), c.NOT_TREE)

    def test_the_library_writes_trees(self):
        """What is written here is the same as what the library writes."""
        for source in SOURCES:
            for with_junk in (False, True):
                with self.subTest(source=source, with_junk=with_junk):
                    text = written(parse(source), with_junk)
                    self.assertEqual(text, FluentSerializer(with_junk)._written_here(parse(source)))

    def test_trees_that_the_library_does_not_take(self):
        """Half a pair of surrogates, a select as an argument, a term without a value, a deep tree, classes of a program."""

        class Named(ast.Message):
            pass

        one = ast.SelectExpression(ast.NumberLiteral("1"), [])
        deep = ast.StringLiteral("x")
        for _ in range(126):
            deep = ast.Placeable(deep)
        for entry, text in (
            (ast.Message(ast.Identifier("a"), ast.Pattern([ast.TextElement("\ud800")])), "a = \ud800\n"),
            (self.showing(ast.FunctionReference(ast.Identifier("F"), ast.CallArguments([one]))), "a = { F(1 ->\n    ) }\n"),
            (ast.Term(ast.Identifier("a"), None), "-a =\n"),
            (self.showing(deep), "a = {{ " + "{" * 125 + '"x"' + "}" * 125 + " }}\n"),
            (Named(ast.Identifier("a"), ast.Pattern([ast.TextElement("b")])), "a = b\n"),
        ):
            resource = ast.Resource([entry])
            with self.subTest(text=text):
                self.assertIsNone(written(resource, False))
                self.assertEqual(serialize(resource), text)

    def showing(self, expression):
        """A message that shows an expression."""
        return ast.Message(ast.Identifier("a"), ast.Pattern([ast.Placeable(expression)]))

    def test_spans_are_visited(self):
        """By a visitor that does something with them; others pass them over."""

        class Places(Visitor):
            def __init__(self):
                self.found = []

            def visit_Span(self, node):
                self.found.append((node.start, node.end))

        class Kinds(Visitor):
            def __init__(self):
                self.found = []

            def generic_visit(self, node):
                self.found.append(type(node).__name__)
                super().generic_visit(node)

        class Visited(Kinds):
            generic_visit = Visitor.generic_visit

            def visit(self, node):
                self.found.append(type(node).__name__)
                super().visit(node)

        places, kinds, visited = Places(), Kinds(), Visited()
        for each in (places, kinds, visited):
            each.visit(parse("a = b\n"))
        self.assertEqual(places.found, [(0, 6), (0, 5), (0, 1), (4, 5), (4, 5)])
        below = ["Resource", "Span", "Message", "Span", "Identifier", "Span", "Pattern", "Span", "TextElement", "Span"]
        self.assertEqual(kinds.found, below)
        self.assertEqual([kind for kind in visited.found if kind != "list"], below)

    def test_a_serializer_of_a_program(self):
        class Short(FluentSerializer):
            def serialize_entry(self, entry, state=0):
                return f"{entry.id.name}\n"

        self.assertEqual(Short().serialize(parse("a = 1\nb = 2\n")), "a\nb\n")

    def test_spans_are_visited(self):
        """By a visitor that does something with them; others pass them over."""

        class Places(Visitor):
            def __init__(self):
                self.found = []

            def visit_Span(self, node):
                self.found.append((node.start, node.end))

        class Kinds(Visitor):
            def __init__(self):
                self.found = []

            def generic_visit(self, node):
                self.found.append(type(node).__name__)
                super().generic_visit(node)

        class Visited(Kinds):
            generic_visit = Visitor.generic_visit

            def visit(self, node):
                self.found.append(type(node).__name__)
                super().visit(node)

        places, kinds, visited = Places(), Kinds(), Visited()
        for each in (places, kinds, visited):
            each.visit(parse("a = b\n"))
        self.assertEqual(places.found, [(0, 6), (0, 5), (0, 1), (4, 5), (4, 5)])
        below = ["Resource", "Span", "Message", "Span", "Identifier", "Span", "Pattern", "Span", "TextElement", "Span"]
        self.assertEqual(kinds.found, below)
        self.assertEqual([kind for kind in visited.found if kind != "list"], below)

    def test_files_of_a_corpus(self):
        """Files of the folder that CORPUS names."""
        for path in Path(os.environ["CORPUS"]).rglob("*.ftl") if os.environ.get("CORPUS") else []:
            with path.open(encoding="utf-8", newline="") as file:
                source = file.read()
            self.check_places(source)
            self.check_names(source)
            self.assertEqual(serialize(parse(source)), write(source))
            self.assertEqual(FluentSerializer()._written_here(parse(source)), write(source))

    def test_documented_examples(self):
        """Programs in the manner of the documentation of `fluent.syntax`, with another import."""
        resource = parse("a-key = String to localize")
        resource.body[0].value.elements[0].value = "Localized string"
        self.assertEqual(serialize(resource), "a-key = Localized string\n")

        class Words(visitor.Visitor):
            count = 0

            def visit_TextElement(self, node):
                self.count += len(node.value.split())

        words = Words()
        words.visit(parse("one = Just one\ntwo = { $n ->\n   *[other] And two more { -brand }\n}\n"))
        self.assertEqual(words.count, 5)

        class Renamed(visitor.Transformer):
            def visit_TermReference(self, node):
                return ast.StringLiteral(node.id.name)

        changed = Renamed().visit(parse("two = { -brand } here\n"))
        self.assertEqual(serialize(changed), 'two = { "brand" } here\n')

        class Skeleton(visitor.Transformer):
            """A variant without texts for each category, made of the default one."""

            def visit_SelectExpression(self, node):
                template = self.visit(next(variant for variant in node.variants if variant.default))
                template.default = False
                node.variants[:] = []
                for name in ("one", "few", "other"):
                    variant = template.clone()
                    variant.key.name = name
                    node.variants.append(variant)
                node.variants[-1].default = True
                return node

            def visit_TextElement(self, node):
                return None

        skeleton = Skeleton().visit(parse("n = { $n ->\n    [one] One\n   *[other] { $n } files\n}\n"))
        variants = "\n        [one] { $n }\n        [few] { $n }\n       *[other] { $n }\n    }\n"
        self.assertEqual(serialize(skeleton), "n =\n    { $n ->" + variants)
        self.assertEqual(str(ast.Identifier("a")), '{"span": null, "name": "a", "type": "Identifier"}')

    def test_texts(self):
        message = parse("a = b\r\n    c\r\n\r\n     d { $x }\r\n   \r\n").body[0]
        self.assertEqual([element.value for element in message.value.elements[:1]], ["b\nc\n\n d "])
        self.assertEqual(message.to_json()["value"]["elements"][1]["expression"]["id"]["name"], "x")

    def test_comments(self):
        first, group, whole, empty, message, term = parse(SOURCES[4]).body
        self.assertEqual([node.content for node in (first, group, whole, empty)], ["c\nd", "g", "r", ""])
        self.assertEqual((message.comment.content, term.comment.content), ("own", "own"))
        self.assertEqual(message.span.start, message.comment.span.start)
        self.assertIs(type(whole), ast.ResourceComment)

    def test_writes_what_the_library_writes(self):
        for source in SOURCES:
            with self.subTest(source=source):
                self.assertEqual(serialize(parse(source)), write(source))
                self.assertEqual(serialize(parse(source), with_junk=True), write(source, with_junk=True))

    def test_junk(self):
        source = "a = 1\nb\n\nc = { foo() }\n-t =\n"
        message, *junk = parse(source).body
        self.assertEqual([stretch.content for stretch in junk], ["b\n\n", "c = { foo() }\n", "-t =\n"])
        told = [(note.code, note.span.start, note.message) for stretch in junk for note in stretch.annotations]
        self.assertEqual(told[0], ("E0003", 7, "expected `=` after `b`, found the end of the line"))
        self.assertEqual([code for code, _, _ in told], ["E0003", "E0008", "E0006"])
        self.assertEqual(message.id.name, "a")

    def test_one_entry(self):
        parser = FluentParser()
        entry = parser.parse_entry("\n# c\n\n# own\nkey = value\nother = 1\n")
        self.assertEqual((entry.id.name, entry.comment, entry.span.start), ("key", None, 12))
        self.assertEqual(parser.parse_entry("# c\n-t = 1\n").span.start, 4)
        self.assertIsInstance(parser.parse_entry("key\n"), ast.Junk)
        self.assertIsInstance(parser.parse_entry("# c\n"), ast.Junk)
        self.assertEqual(FluentSerializer().serialize_entry(entry), "key = value\n")

    def test_without_spans(self):
        for node in nodes(FluentParser(with_spans=False).parse(SOURCES[8])):
            self.assertIsNone(node.span)

    def test_nodes_compare_and_copy(self):
        for source in SOURCES:
            tree = parse(source)
            with self.subTest(source=source):
                self.assertTrue(tree.equals(parse(source)))
                self.assertTrue(tree.clone().equals(tree, ignored_fields=[]))
                self.assertTrue(ast.from_json(json.loads(str(tree))).equals(tree, ignored_fields=None))
                self.assertTrue(copy.deepcopy(parse(source)).equals(tree))
                self.assertTrue(pickle.loads(pickle.dumps(parse(source))).equals(tree))
        self.assertFalse(parse("a = 1").equals(parse("a = 2")))
        self.assertFalse(parse("a = 1").equals(parse("a = 1\nb = 2")))
        spaced = parse("a = { 1 }"), parse("a = {1}")
        self.assertTrue(spaced[0].equals(spaced[1]))
        self.assertFalse(spaced[0].equals(spaced[1], ignored_fields=[]))

    def test_made_by_hand(self):
        pattern = ast.Pattern([ast.TextElement("Hello, "), ast.Placeable(ast.VariableReference(ast.Identifier("name")))])
        message = ast.Message(ast.Identifier("hello"), pattern, comment=ast.Comment("Shown first"))
        self.assertEqual(serialize(ast.Resource([message])), "# Shown first\nhello = Hello, { $name }\n")
        with self.assertRaises(TypeError):
            serialize(message)

    def test_transformer_removes(self):
        class WithoutComments(Transformer):
            def visit_Comment(self, node):
                return None

            def visit_Message(self, node):
                node.comment = None
                return self.generic_visit(node)

        changed = WithoutComments().visit(parse("# c\n\n# own\na = 1\n"))
        self.assertEqual(serialize(changed), "a = 1\n")

    def test_literals(self):
        literal = parse('a = { "\\"\\\\\\u00e9\\U01F602\\uD800" }').body[0].value.elements[0].expression
        self.assertEqual(literal.parse(), {"value": '"\\é😂\ufffd'})
        self.assertEqual(ast.NumberLiteral("-1.50").parse(), {"value": -1.5, "precision": 2})

    def test_refused(self):
        with self.assertRaises(ValueError):
            parse("a = \ud800")
        with self.assertRaises(MemoryError):
            parse("a = " + "{" * 50_000 + "1" + "}" * 50_000)

    def test_sessions(self):
        for module in (syntax, visitor):
            self.assertEqual(doctest.testmod(module).failed, 0)


if __name__ == "__main__":
    unittest.main()
