"""Sources whose calls the program answers: the same rows as in `rewriting.rs` of the package for Rust."""

import unittest

from kozhvadi._rewriting import rewritten

OWN = {"F", "NUMBER"}


class RewritingTest(unittest.TestCase):
    def test_calls_have_other_names(self):
        for source in ["# { NUMBER(1) }\n", "a = NUMBER(1)\n", 'a = { "NUMBER(" }\n', "a = { NUMBER }\n", "a = { $NUMBER }"]:
            self.assertEqual(rewritten(source, OWN, False), source)
        for source, expected in [
            ('a = { NUMBER($n, a: "}") }', 'a = { NUMBER-SHOWN($n, a: "}") }'),
            ('a = {F( NUMBER (1) ) ->\n[x] NUMBER(1) "\n*[y] { F() }\n}', 'a = {F( NUMBER-OWN (1) ) ->\n[x] NUMBER(1) "\n*[y] { F-SHOWN() }\n}'),
            ('a = { G(F(1)) }{F("\\"")}\nb = ä{ F(1)', 'a = { G(F(1)) }{F-SHOWN("\\"")}\nb = ä{ F(1)'),
            ('j = { "\nb = NUMBER(1) { NUMBER(1) }', 'j = { "\nb = NUMBER(1) { NUMBER-SHOWN(1) }'),
        ]:
            self.assertEqual(rewritten(source, OWN, False), expected)

    def test_values_are_shown_by_calls(self):
        for source, expected in [
            ("a = { $n } {-5.00}", 'a = { VALUE-SHOWN($n, "n") } {VALUE-SHOWN(-5.00)}'),
            ("a = { $n ->\n *[x] {$n}\n}", 'a = { $n ->\n *[x] {VALUE-SHOWN($n, "n")}\n}'),
            ('a = { -term } { -5x } { $ } { "$n" } { m }', 'a = { -term } { -5x } { $ } { "$n" } { m }'),
        ]:
            self.assertEqual(rewritten(source, OWN, True), expected)


if __name__ == "__main__":
    unittest.main()
