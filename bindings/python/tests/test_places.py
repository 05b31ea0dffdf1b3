"""Places of names in sources, compared with those that the linter reports; and positions as editors count them."""

import os
import random
import unittest
from pathlib import Path

from kozhvadi import lint
from kozhvadi._fixes import extent, fixes
from kozhvadi._linting import Finding
from kozhvadi._occurrences import Symbol
from kozhvadi._places import Places
from kozhvadi._positions import Lines, utf16_length
from kozhvadi._samples import Catalog, categories
from kozhvadi._scan import inside

ROOT = Path(__file__).resolve().parents[3]


def sources_of_the_repository():
    """Each source of the examples, rows and tests that is UTF-8, and of the folder that CORPUS names."""
    paths = [*ROOT.glob("examples/**/*.ftl"), *ROOT.glob("crates/*/data/*.ftl"), *ROOT.glob("tests/rows/**/*.ftl")]
    paths += Path(os.environ["CORPUS"]).rglob("*.ftl") if os.environ.get("CORPUS") else []
    for path in sorted(paths):
        try:
            yield path.read_bytes().decode()
        except UnicodeDecodeError:
            continue


class Written:
    """Sources that can be read, made by chance, of all constructs."""

    def __init__(self, seed):
        self.chance = random.Random(seed)
        self.end = self.chance.choice(["\n", "\r\n"])

    def name(self):
        return self.chance.choice(["a", "b1", "long-name", "x_y", "Menu", "A", "one"]) + str(self.chance.randrange(9))

    def blank(self):
        return self.chance.choice(["", " ", "  ", f" {self.end} ", f"{self.end}", f"{self.end}{self.end}   "])

    def text(self):
        return self.chance.choice(
            ["word", "é ü", "日本", "\U0001f44d", "a.b = c", "# no", "[x", "-t", "$v", "*", '"q', "->", "x, y"]
        )

    def string(self):
        return self.chance.choice(['""', '"a { b } c"', '"\\" }"', '"\\\\"', '"\\u00e9"', '"# $x -t"'])

    def literal(self):
        return self.chance.choice([self.string(), "1", "-2.50"])

    def arguments(self, depth):
        named = [
            f"k{number}{self.chance.choice([':', ' : '])}{self.literal()}" for number in range(self.chance.randrange(3))
        ]
        plain = [self.inline(depth - 1) for _ in range(self.chance.randrange(3))]
        return self.blank() + "(" + self.blank() + f",{self.blank()} ".join([*plain, *named]) + self.blank() + ")"

    def inline(self, depth):
        kinds = ["string", "number", "variable", "message", "attribute", "term"] + (
            ["call", "called", "nested"] if depth > 0 else []
        )
        kind = self.chance.choice(kinds)
        return {
            "string": self.string,
            "number": lambda: self.chance.choice(["0", "12.5", "-3"]),
            "variable": lambda: f"${self.name()}",
            "message": self.name,
            "attribute": lambda: f"{self.name()}{self.chance.choice(['', ' '])}.{self.name()}",
            "term": lambda: f"-{self.name()}",
            "call": lambda: self.chance.choice(["F", "NUMBER", "X-Y"]) + self.arguments(depth),
            "called": lambda: f"-{self.name()}" + self.arguments(depth),
            "nested": lambda: self.placeable(depth - 1),
        }[kind]()

    def selector(self, depth):
        return self.chance.choice(
            [
                lambda: f"${self.name()}",
                lambda: f"-{self.name()}.{self.name()}",
                lambda: f"{self.name()}.{self.name()}",
                lambda: "F" + self.arguments(depth),
                self.string,
            ]
        )()

    def placeable(self, depth):
        if depth > 0 and self.chance.random() < 0.3:
            return self.select(depth)
        return "{" + self.blank() + self.inline(depth) + self.blank() + "}"

    def select(self, depth):
        variants = [
            f"[{self.chance.choice(['', ' '])}{key}{self.chance.choice(['', ' '])}]" for key in ("one", "2", "few")
        ]
        keys = [*variants[: self.chance.randrange(3)], "*[other]"]
        body = "".join(f"{self.end}  {key} {self.pattern(depth - 1)}" for key in keys)
        return "{" + self.blank() + self.selector(depth) + f" ->{body}{self.end}  }}"

    def pattern(self, depth):
        pieces = [
            self.placeable(depth) if self.chance.random() < 0.5 else self.text()
            for _ in range(self.chance.randrange(1, 4))
        ]
        if pieces[0][0] in "#[*.":
            pieces.insert(0, "x")
        lines = f"{self.end}    y " if self.chance.random() < 0.2 else " "
        return lines.join(pieces)

    def entry(self, number):
        head = self.chance.choice(["", "-"]) + f"e{number}"
        lead = self.chance.choice(["", f"{self.end}    "])
        attributes = "".join(
            f"{self.end}{' ' * self.chance.randrange(1, 5)}.at{index} = {self.pattern(2)}"
            for index in range(self.chance.randrange(3))
        )
        comment = self.chance.choice(["", f"# {self.text()} {{ $x }}{self.end}", f"## Group{self.end}{self.end}"])
        blanks = self.end * self.chance.randrange(1, 3)
        return f"{comment}{head} ={lead}{' ' if not lead else ''}{self.pattern(3)}{attributes}{blanks}"

    def source(self):
        return "".join(self.entry(number) for number in range(self.chance.randrange(1, 6)))


def is_read(source):
    try:
        return not any(each.code == "syntax" for each in lint({"a": source}).findings)
    except MemoryError:  # It nests too deep.
        return False


def references_by_lint(source):
    """The offsets of the references of a source, in which nothing is defined that it refers to."""
    codes = {"unknown-message", "unknown-term", "unknown-function", "unknown-attribute", "no-value"}
    return {each.offset for each in lint({"a": source}).findings if each.code in codes}


class PlacesTest(unittest.TestCase):
    def agree(self, source):
        data = source.encode()
        places = Places(data)
        for found in places.occurrences:
            self.assertEqual(data[found.start : found.end].decode(), found.symbol.name, source)
        # References that are known aren't reported. So each id is one that no reference has.
        renamed = bytearray(data)
        for entry in places.entries:
            renamed[entry.name_start : entry.name_start + len(entry.id)] = b"Z" * len(entry.id)
        offsets = {
            each.start
            for entry in places.entries
            for part in entry.parts
            for each in part.references
            if each.symbol.kind in ("message", "term")
            or (each.symbol.kind == "function" and each.symbol.name not in ("NUMBER", "DATETIME"))
        }
        names = {each.symbol.name for entry in places.entries for part in entry.parts for each in part.references}
        if not any(set(name) == {"Z"} for name in names):
            self.assertEqual(references_by_lint(renamed.decode()), offsets, source)
        doubled = lint([("a", source), ("b", source)]).findings
        starts = {each.offset for each in doubled if each.code == "duplicate-id" and each.file == "b"}
        self.assertEqual(starts, {entry.start for entry in places.entries}, source)

    def variables_agree(self, source):
        """In messages whose reference has no variable, each variable is reported where it first is."""
        places = Places(source.encode())
        ids = [entry.id for entry in places.entries if not entry.is_term]
        if len(set(ids)) < len(ids):
            return
        reference = "".join(f"{id} = x\n    .at0 = x\n    .at1 = x\n" for id in ids)
        found = lint({"a": source}, reference={"b": reference}).findings
        told = {(each.offset, each.text) for each in found if each.code == "unknown-variable"}
        for offset, text in told:
            near = places.at(offset)
            self.assertIsNotNone(near, source)
            if near.symbol.kind == "variable":
                self.assertIn(f"`{near.symbol}`", text)
                self.assertEqual(near.start, offset + 1)
            else:
                # It is shown by way of another message.
                self.assertEqual((near.symbol.kind, near.start), ("message", offset))
        own = {
            each.symbol.name
            for entry in places.entries
            if not entry.is_term
            for part in entry.parts
            for each in part.references
            if each.symbol.kind == "variable"
        }
        told_names = {text.partition("`$")[2].partition("`")[0] for _, text in told}
        self.assertLessEqual(own, told_names, source)

    def test_sources_of_the_repository(self):
        tried = 0
        for source in sources_of_the_repository():
            with self.subTest(source=source[:200]):
                if is_read(source):
                    self.agree(source)
                    self.variables_agree(source)
                    tried += 1
                else:
                    Places(source.encode())
        self.assertGreater(tried, 10)

    def test_sources_made_by_chance(self):
        tried = 0
        for seed in range(300):
            source = Written(seed).source()
            if is_read(source):
                self.agree(source)
                self.variables_agree(source)
                tried += 1
        self.assertGreater(tried, 200)

    def test_damaged_sources_have_places_too(self):
        for seed in range(500):
            chance = random.Random(seed)
            source = Written(seed).source().encode()
            cut = chance.randrange(len(source) + 1)
            damaged = (
                source[:cut]
                + chance.choice([b"", b"{", b"}", b'"', b"\n", b"[", b"\xff"])
                + source[cut + chance.randrange(4) :]
            )
            places = Places(damaged)
            ends = [entry.end for entry in places.entries]
            starts = [entry.start for entry in places.entries]
            self.assertTrue(all(end <= start for end, start in zip(ends, starts[1:])), damaged)
            for found in places.occurrences:
                self.assertEqual(damaged[found.start : found.end].decode(), found.symbol.name)
            inside(damaged, cut)

    def test_nesting_takes_no_stack(self):
        places = Places(b"a = " + b"{" * 100_000 + b" $x " + b"}" * 100_000 + b"\nb = c\n")
        self.assertEqual([entry.id for entry in places.entries], ["a", "b"])

    def test_names_of_all_kinds(self):
        source = '# About it.\n# More.\nhi = { -brand(case: "x") } { other.title } { NUMBER($n) }\n    .t = { $m }\n'
        places = Places(source.encode())
        self.assertEqual(places.entries[0].comment, "About it.\nMore.")
        self.assertEqual(
            [str(found.symbol) for found in places.occurrences],
            ["hi", "-brand", "$case", "other", "other.title", "NUMBER", "$n", "hi.t", "$m"],
        )
        at = {name: source.index(name) for name in ("-brand", "$n", "title")}
        self.assertEqual(places.at(at["-brand"]).symbol, Symbol("term", "brand"))
        self.assertEqual(places.at(at["$n"]).symbol, Symbol("variable", "n", "hi"))
        self.assertEqual(places.at(at["title"] + 5).symbol, Symbol("attribute", "title", "other"))
        self.assertIsNone(places.at(len(source) - 1))

    def test_what_is_open(self):
        for source, kind in [
            ("", ""),
            ("a", ""),
            ("a = ", "text"),
            ("a = x\n", ""),
            ("a = {", "placeable"),
            ("a = { ", "placeable"),
            ("a = { $n ->\n", "select"),
            ("a = { $n ->\n  [one] ", "variant"),
            ("a = { NUMBER($n, ", "call"),
            ("a = { $n ->\n  [one] x\n  }\n", ""),
            ("a = { b }", "text"),
            ("a = {\n", "placeable"),
            ('a = { "}', "placeable"),
            ("a = { b }\n    .c = {", "placeable"),
            ("a = {\nb = {(", "placeable"),
        ]:
            self.assertEqual(inside(source.encode(), len(source)).kind, kind, source)
        self.assertEqual(inside(b"a = { -t(", 9).callee, Symbol("term", "t"))
        self.assertTrue(inside(b"a = { $x ", 9).is_full)


class PositionsTest(unittest.TestCase):
    def test_lines_and_units(self):
        source = "a = é\U0001f44d{ x }\r\nb\rc\n\nd".encode()
        lines = Lines(source)
        for offset, position in [
            (0, (0, 0)),
            (4, (0, 4)),
            (6, (0, 5)),
            (10, (0, 7)),
            (11, (0, 8)),
            (17, (1, 0)),
            (19, (2, 0)),
            (21, (3, 0)),
            (22, (4, 0)),
            (23, (4, 1)),
            (99, (4, 1)),
        ]:
            self.assertEqual(lines.position(offset), position, offset)
            if offset <= len(source):
                self.assertEqual(lines.offset(*position), offset)
        # Inside of a character, after the end of a line, and after that of the source.
        for position, offset in [((0, 6), 6), ((0, 99), 15), ((1, 5), 18), ((9, 0), 23)]:
            self.assertEqual(lines.offset(*position), offset)

    def test_each_character_of_random_sources(self):
        chance = random.Random(1)
        for _ in range(200):
            text = "".join(chance.choice("a\n\ré日\U0001f44d\u0301 ") for _ in range(chance.randrange(40)))
            lines, units = Lines(text.encode()), 0
            for index in range(len(text)):
                offset = len(text[:index].encode())
                self.assertEqual(
                    lines.offset(*lines.position(offset)),
                    offset if text[index - 1 : index + 1] != "\r\n" else offset - 1,
                )
                units += utf16_length(text[index])
            self.assertEqual(units, utf16_length(text))


class FixesTest(unittest.TestCase):
    def fixed(self, source, reference="", locale=None):
        """The source after the first fix of each finding that has one, one after the other."""
        for _ in range(20):
            places, compared = Places(source.encode()), Places(reference.encode())
            found = lint({"a": source}, reference={"b": reference} if reference else {}, locale=locale).findings
            mended = [
                fix
                for each in found
                if each.file == "a"
                for fix in fixes(each, places, Catalog([places]), Catalog([compared]))[:1]
            ]
            if not mended:
                return source
            data = source.encode()
            source = (data[: mended[0].start] + mended[0].text.encode() + data[mended[0].end :]).decode()
        self.fail(source)

    def test_near_names(self):
        self.assertEqual(self.fixed("-brand = B\na = é { -brnad }\n"), "-brand = B\na = é { -brand }\n")
        self.assertEqual(self.fixed("save = S\na = { svae } { NUMBR(1) }\n"), "save = S\na = { save } { NUMBER(1) }\n")
        self.assertEqual(self.fixed("a = { $nmae }\n", "a = { $name }\n"), "a = { $name }\n")
        self.assertEqual(
            self.fixed("a = { $nmae }\nb = { a }\n", "a = { $nmae }\nb = { $name }\n"), "a = { $nmae }\nb = { a }\n"
        )
        self.assertEqual(
            self.fixed("b = x\n    .title = y\na = { b.titel }\n"), "b = x\n    .title = y\na = { b.title }\n"
        )
        self.assertEqual(self.fixed("a = { -quite-another }\n"), "a = { -quite-another }\n")

    def test_keys(self):
        self.assertEqual(
            self.fixed("a = { $n ->\n    [oen] x\n   *[otehr] { $n }\n}\n", locale="de"),
            "a = { $n ->\n    [one] x\n   *[other] { $n }\n}\n",
        )
        lacking = "a = { $n ->\n    [one] x\n    [few] y\n   *[other] { $n }\n}\n"
        self.assertEqual(self.fixed(lacking, locale="de"), lacking)

    def test_keys_of_attributes(self):
        source = b"-b = x\n    .genus = neuter\na = { -b.genus ->\n    [neutre] y\n   *[other] z\n}\n"
        at, key = source.index(b"-b.genus"), source.index(b"neutre")
        told = ("warning", "unknown-term-variant", "a", "`-b.genus` is never `neutre`")
        places = Places(source)
        found = fixes(Finding("a", 3, 7, at, *told, "did you mean `neuter`?"), places, Catalog([places]), Catalog([]))
        self.assertEqual([tuple(each) for each in found], [("Change to `neuter`", key, key + 6, "neuter")])
        self.assertEqual(fixes(Finding("a", 3, 7, at, *told, "it is `neuter`"), places, Catalog([places]), Catalog([])), [])

    def test_arguments_of_terms(self):
        term = "-b = { $case ->\n   *[nominative] x\n    [genitive] y\n}\n"
        self.assertEqual(
            self.fixed(f'{term}a = {{ -b(cas: "genitive") }}, {{ -b( case : "genitve") }}\n'),
            f'{term}a = {{ -b(case: "genitive") }}, {{ -b( case : "genitive") }}\n',
        )
        unknown = f'{term}a = {{ -b(x: "genitive") }}, {{ -b(case: "dative") }}\n'
        self.assertEqual(self.fixed(unknown), unknown)

    def test_placeables_in_quotes(self):
        self.assertEqual(self.fixed('a = { "{ $n } items" } { "of {-b}" }\n-b = B\n'), "a = { $n } items of {-b}\n-b = B\n")
        for kept in ['a = { " { $n }" }', 'a = { "{ $n } \\u00e9" }', 'a = { "{ $n } {" }', 'a = { F("{ $n }") }']:
            with self.subTest(kept):
                self.assertEqual(self.fixed(f"{kept}\n"), f"{kept}\n")

    def test_characters(self):
        self.assertEqual(self.fixed("a = b\u200bc\u0007\u2069\n"), "a = bc\n")
        kept = "a = b\ufffdc\u2066d\rx\n"
        self.assertEqual(self.fixed(kept), kept)

    def test_missing_categories(self):
        self.assertEqual(
            self.fixed("a = { $n ->\n    [one] jeden { $n }\n   *[other] wiele\n       tak\n}\n", locale="pl"),
            "a = { $n ->\n    [one] jeden { $n }\n    [few] wiele\n       tak\n    [many] wiele\n       tak\n   *[other] wiele\n"
            "       tak\n}\n",
        )

    def test_what_is_underlined(self):
        source = "a = { -brand.x } é\n".encode()
        for offset, span in [(6, (6, 14)), (0, (0, 1)), (17, (17, 19)), (19, (17, 19)), (4, (4, 5)), (20, (17, 19))]:
            self.assertEqual(extent(source, offset), span)


class SamplesTest(unittest.TestCase):
    def test_categories(self):
        # By the plural rules of Unicode CLDR 48.
        for locale, names in [
            ("en", "one other"),
            ("ja", "other"),
            ("pl", "one few many other"),
            ("ar", "zero one two few many other"),
            ("cs", "one few many other"),
            ("lv", "zero one other"),
            ("he", "one two other"),
            ("xx", "other"),
        ]:
            self.assertEqual(list(categories(locale)), names.split())
        self.assertEqual(list(categories("en", True)), ["one", "two", "few", "other"])

    def test_variables_of_messages_and_those_that_they_refer_to(self):
        source = b"a = { b } { -t } { $x }\nb = { NUMBER($n) } { c.d }\n-t = { $no }\nc = { $no }\n    .d = { $y ->\n   *[k] { a }\n }\n"
        found = Catalog([Places(source)]).variables("a", None)
        self.assertEqual(
            [(each.name, each.is_numeric, each.keys) for each in found],
            [("x", False, []), ("n", True, []), ("y", False, ["k"])],
        )


if __name__ == "__main__":
    unittest.main()
