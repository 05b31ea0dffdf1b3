"""Where the names of sources are, by rows; and compared with what the reader of broken entries finds."""

import random
import unittest

from kozhvadi import Occurrence, Symbol, occurrences
from kozhvadi._occurrences import occurrences_in
from kozhvadi._places import Places
from kozhvadi._scan import Scan
from tests.test_places import Written, is_read, sources_of_the_repository


def shown(found):
    return [f"{'=' if each.is_definition else ''}{each.symbol} {each.start}" for each in found]


class OccurrencesTest(unittest.TestCase):
    def test_rows(self):
        for source, wanted in [
            ("", ""),
            ("# { $a }\n", ""),
            ("a = b\n", "=a 0"),
            ("-a = é { $b }\n    .c = d\n", "=-a 1, $b 11, =-a.c 20"),
            ("a =\n    .b = { c.d }\n", "=a 0, =a.b 9, c 15, c.d 17"),
            ("a = { -b(c: 1) } { F(-d, $e, g: 1) }\n", "=a 0, -b 7, $c 9, F 19, -d 22, $e 26"),
            ("a = { -b.c ->\n   *[d] { e }\n}\n", "=a 0, -b 7, -b.c 9, e 24"),
            ("a = { { NUMBER($b) } }\r\nc = d\r\n", "=a 0, NUMBER 8, $b 16, =c 24"),
            ("a = b\nc\nd = e\n", "=a 0, =d 8"),
            ("a = b\n    .c = {\n", "=a 0"),
        ]:
            found = occurrences(source)
            self.assertEqual(", ".join(shown(found)), wanted, source)
            for each in found:
                self.assertEqual(source.encode()[each.start : each.end].decode(), each.symbol.name)

    def test_owners(self):
        found = occurrences("a = { -b(c: $d) }\na = { -b($d, c: 1) }\n    .e = x\n")
        self.assertEqual(
            found,
            [
                Occurrence(Symbol("message", "a"), 18, 19, True),
                Occurrence(Symbol("term", "b"), 25, 26, False),
                Occurrence(Symbol("variable", "d", "a"), 28, 29, False),
                Occurrence(Symbol("variable", "c", "-b"), 31, 32, False),
                Occurrence(Symbol("attribute", "e", "a"), 44, 45, True),
            ],
        )

    def test_refusals(self):
        with self.assertRaises(ValueError):
            occurrences("a = \ud800\n")
        with self.assertRaises(ValueError):
            occurrences_in(b"a = \xff\n")
        with self.assertRaises(MemoryError):
            occurrences("a = " + "{" * 1430 + "1" + "}" * 1430)

    def test_the_reader_of_broken_entries_finds_the_same(self):
        tried = 0
        for source in [*sources_of_the_repository(), *(Written(seed).source() for seed in range(400))]:
            data = source.encode()
            if is_read(source):
                self.assertEqual(occurrences(source), sorted(Scan(data).occurrences, key=lambda each: each.start), source)
                tried += 1
        self.assertGreater(tried, 300)

    def test_broken_entries_have_theirs_too(self):
        places = Places(b"a = { $b }\nc = { $d\n\ne = { -f }\n    .g = { h\n")
        wanted = ["=a 0", "$b 7", "=c 11", "$d 18", "=e 21", "-f 28", "=e.g 37", "h 43"]
        self.assertEqual(shown(places.occurrences), wanted)
        self.assertEqual(shown(occurrences("a = { $b }\nc = { $d\n\ne = { -f }\n    .g = { h\n")), ["=a 0", "$b 7", "=e 21", "-f 28"])

    def test_each_place_is_in_order(self):
        for seed in range(300):
            chance = random.Random(seed)
            source = Written(seed).source()
            cut = chance.randrange(len(source) + 1)
            found = occurrences(source[:cut] + chance.choice(["", "{", "}", '"', "\n"]) + source[cut + 1 :])
            starts = [each.start for each in found]
            self.assertEqual(starts, sorted(set(starts)))


if __name__ == "__main__":
    unittest.main()
