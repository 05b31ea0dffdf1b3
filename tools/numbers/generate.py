"""Writes the tables of a crate from the collected data: for the code, and the same as definitions.

    generate.py NUMBERS CRATE

NUMBERS is the file that `collect.py` wrote, and CRATE the folder of the crate. `rt fmt` has to format what is written; `update.sh`
runs both.
"""

import json
import sys
import unicodedata
from pathlib import Path

WIDTH = 118
NAMES = {
    "#,##0.###": "number", "#,##,##0.###": "indian_number", "#,#0.###": "paired_number", "0.######": "bare_number",
    "#,##0.00": "amount", "#,##,##0.00": "indian_amount", "#,#0.00": "paired_amount", "0.00": "bare_amount",
    "#,##0": "whole", "#,##,##0": "indian_whole", "#,#0": "paired_whole", "0": "bare_whole",
    "¤": "currency", "%": "percent", "-": "minus", "\xa0": "space", "\u202f": "thin", "\u200e": "ltr", "\u200f": "rtl", ";": "or",
}
PIECES = {"minus": "Minus", "percent": "PercentSign", "currency": "Currency",
          "currency before digits": "CurrencyBeforeDigits", "currency after digits": "CurrencyAfterDigits"}


def escaped(text):
    """Characters that can't be seen, and those of scripts that are written from right to left, as their numbers."""
    return "".join(
        char if (unicodedata.category(char)[0] in "LNPSM" or char == " ")
        and unicodedata.bidirectional(char) not in ("R", "AL", "AN")
        else f"\\u{{{ord(char):x}}}"
        for char in text
    )


def quoted(text):
    return f'"{escaped(text)}"'


def name_of(pattern):
    words, at = [], 0
    while at < len(pattern):
        part = max((key for key in NAMES if pattern.startswith(key, at)), key=len)
        words.append(NAMES[part])
        at += len(part)
    return "_".join(words)


def camel(name):
    return "".join(part.capitalize() for part in name.split("_"))


def wrapped(words, indent, end=""):
    lines, line = [], indent
    for word in words:
        if len(line) + len(word) + 1 > WIDTH and line.strip():
            lines.append(line.rstrip())
            line = indent
        line += word + " "
    if line.strip():
        lines.append(line.rstrip())
    return lines


class Writer:
    def __init__(self, path, crate):
        self.data = json.load(open(path, encoding="utf8"))
        self.crate = Path(crate).resolve()
        self.note = f"Written by tools/numbers from Unicode CLDR {self.data['version']}. Do not edit."
        self.currencies = self.data["currencies"]
        self.forms = dict(self.data["forms"])
        self.own = {}
        for code, row in self.currencies.items():
            for tag, form in row["own"].items():
                same = [name for name, forms in self.forms.items() if forms["currency"] == form]
                if not same:
                    name = f"{tag}-{code.lower()}"
                    self.forms[name] = {**self.forms[self.data["locales"][tag]], "currency": form}
                    same = [name]
                self.own[code, tag] = same[0]

    def write(self, path, lines):
        (self.crate / path).parent.mkdir(parents=True, exist_ok=True)
        (self.crate / path).write_text("\n".join(lines) + "\n", encoding="utf8")

    def by_length(self, tags):
        return sorted(tags, key=lambda tag: (tag.split("-") + ["~"]))

    def signs(self):
        edges = set()
        for row in self.currencies.values():
            for text in [row["symbol"], *row["symbols"].values()]:
                for char in (text[0], text[-1]):
                    assert unicodedata.category(char)[0] != "Z", text
                    if unicodedata.category(char)[0] == "S":
                        edges.add(char)
        return sorted(edges)

    def digits(self):
        rows = self.data["digits"].items()
        out = ["//! The digits of numbering systems, from 0 to 9.", f"// {self.note}", ""]
        for name, digits in rows:
            out.append(f"pub(crate) const {name.upper()}: [char; 10] = [")
            out.append("    " + ", ".join(f"'{escaped(char)}'" for char in digits) + ",")
            out += ["];", ""]
        self.write("src/digits.rt", out[:-1])
        out = [f"-- {self.note}", "-- The digits of numbering systems, from 0 to 9, as characters.",
               "use Rattle.std.specs.Prelude.{ℕ, List, codes}", ""]
        for name, digits in rows:
            out += [f"abbrev pub {name} : List ℕ", f"{name} = codes {quoted(digits)}", ""]
        self.write("specs/Digits.antt", out[:-1])

    def patterns(self):
        rust, antt = [], []
        for text, row in self.data["patterns"].items():
            name = name_of(text)

            def piece(item, path=""):
                if item in PIECES:
                    return path + PIECES[item]
                return f"{path}Literal('{escaped(item)}')" if path else f"Literal 0x{ord(item):x}"

            def three(key):
                assert len(row[key]) <= 3
                return [piece(item, "") for item in row[key]] + ["Nothing"] * (3 - len(row[key]))

            def rust_list(key):
                words = [piece(item, "Piece::") for item in row[key]] + ["Piece::Nothing"] * (3 - len(row[key]))
                return "[" + ", ".join(words) + "]"

            def antt_list(key):
                return " ∷ ".join(three(key) + ["[]"])

            rust += [f"/// `{escaped(text)}`", f"pub(crate) const {name.upper()}: Pattern = Pattern {{",
                     f"    prefix: {rust_list('prefix')},", f"    suffix: {rust_list('suffix')},",
                     f"    negative_prefix: {rust_list('negative_prefix')},", f"    negative_suffix: {rust_list('negative_suffix')},",
                     f"    primary: {row['primary']},", f"    secondary: {row['secondary']},", "};", ""]
            antt += [f"-- {escaped(text)}", f"abbrev pub {name} : Pattern", f"{name} =",
                     f"    pattern_of ({antt_list('prefix')}) ({antt_list('suffix')}) ({antt_list('negative_prefix')}) ({antt_list('negative_suffix')}) {row['primary']} {row['secondary']}", ""]
        names = [(camel(name_of(text)), name_of(text), text) for text in self.data["patterns"]]
        crate = self.crate.name
        self.write("src/patterns.rt", ["//! The patterns.", f"// {self.note}", "ghost use Rattle.std.specs.Prelude.{◌≡◌};",
            f"ghost use Rattle.{crate}.specs.PatternNames.{{pattern_named}};", f"ghost use Rattle.{crate}.specs.Views.{{pattern_view}};", "",
            "use crate::pattern::{Pattern, Piece};", "", "/// The names of the patterns.", "#[derive(Clone, Copy)]", "pub(crate) enum PatternName {",
            *[f"    /// `{escaped(text)}`\n    {name}," for name, _, text in names], "}", "",
            "impl PatternName {", "    /// The pattern of this name.", "    pub(crate) fn pattern(self) -> Pattern",
            "        ensures { pattern_view result ≡ pattern_named self }", "    {", "        match self {",
            *[f"            PatternName::{name} => {lower.upper()}," for name, lower, _ in names], "        }", "    }", "}", ""] + rust[:-1])
        self.write("specs/PatternNames.antt", [f"-- {self.note}", "-- The patterns by their names.",
            f"use Rattle.{crate}.specs.Forms.{{Pattern}}", f"use Rattle.{crate}.specs.Patterns as patterns",
            f"use Rattle.{crate}.specs.declared.patterns.PatternName.{{PatternName}}",
            f"use Rattle.{crate}.specs.declared.patterns.PatternName.TheVariants as name", "",
            "abbrev pub pattern_named : PatternName → Pattern",
            *[f"pattern_named name.{name} = patterns.{lower}" for name, lower, _ in names]])
        self.write("specs/Patterns.antt", [
            f"-- {self.note}", "-- The patterns.", "use Rattle.std.specs.Prelude.{[], ◌∷◌}",
            f"use Rattle.{self.crate.name}.specs.Forms.{{Pattern, pattern_of}}",
            f"use Rattle.{self.crate.name}.specs.declared.pattern.Piece.TheVariants.{{Nothing, Literal, Minus, PercentSign, Currency, CurrencyBeforeDigits, CurrencyAfterDigits}}", ""] + antt[:-1])

    def form_table(self):
        rust, antt = [], []
        for name, forms in self.forms.items():
            decimal, group = forms["number"][:2]
            assert forms["percent"][:2] == [decimal, group]
            money = forms["currency"]
            patterns = [name_of(forms[kind][2]) for kind in ("number", "percent", "currency")]
            assert all(len(text) == 1 for text in (decimal, group, *money[:2]))
            signs = [quoted(text) for text in (decimal, group, *money[:2], forms["minus"], forms["percent_sign"])]
            chars = [f"'{escaped(text)}'" if text != "'" else r"'\''" for text in (decimal, group, *money[:2])] + signs[4:]
            rust.append(f"    {quoted(name)} {forms['digits'].upper()} {' '.join(chars)} {forms['least_grouped']}"
                        f" {' '.join(camel(pattern) for pattern in patterns)};")
            antt.append(f"    forms_row {quoted(name)} {forms['digits']} {' '.join(signs)} {forms['least_grouped']} {' '.join(patterns)} ∷")
        used = sorted({name_of(forms[kind][2]) for forms in self.forms.values() for kind in ("number", "percent", "currency")})
        systems = sorted({forms["digits"] for forms in self.forms.values()})
        self.write("src/form_table.rt", [
            "//! What locales write numbers by, once for all that write alike.", f"// {self.note}", "",
            f"use crate::digits::{{{', '.join(name.upper() for name in systems)}}};", "use crate::forms::{Form, Forms};",
            "use crate::patterns::PatternName;", "",
            "/// A row: a name, the digits, the decimal and group signs of numbers and of amounts, minus and percent signs, how many digits",
            "/// there have to be before the last group, and the patterns of numbers, percentages and amounts.",
            "macro_rules! forms {",
            "    ($($name:literal $digits:ident $decimal:literal $group:literal $money_decimal:literal $money_group:literal",
            "        $minus:literal $percent_sign:literal $least:literal $number:ident $percent:ident $currency:ident;)*) => {",
            "        [$(Forms {", "            name: $name,", "            digits: $digits,", "            minus: $minus,",
            "            percent_sign: $percent_sign,", "            least_grouped: $least,",
            "            number: Form {", "                decimal: $decimal,", "                group: $group,", "                pattern: PatternName::$number,", "            },",
            "            percent: Form {", "                decimal: $decimal,", "                group: $group,", "                pattern: PatternName::$percent,", "            },",
            "            currency: Form {", "                decimal: $money_decimal,", "                group: $money_group,", "                pattern: PatternName::$currency,", "            },",
            "        }),*]", "    };", "}", "",
            f"pub(crate) static FORMS: [Forms; {len(self.forms)}] = forms! {{", *rust, "};"])
        crate = self.crate.name
        self.write("specs/FormTable.antt", [
            f"-- {self.note}", "-- What locales write numbers by, once for all that write alike.",
            "use Rattle.std.specs.Prelude.{List, [], ◌∷◌}",
            f"use Rattle.{crate}.specs.Forms.{{Forms, forms_row}}",
            f"use Rattle.{crate}.specs.Digits.{{{', '.join(systems)}}}",
            f"use Rattle.{crate}.specs.Patterns.{{{', '.join(used)}}}", "",
            "unfoldable pub form_table : List Forms", "form_table =", *antt, "    []"])

    def locales(self):
        pairs = [(tag, name) for tag, name in self.data["locales"].items()]
        rust, antt, parts = [], [], []
        for part, (first, chunk) in enumerate(self.chunks(pairs, lambda pair: 2), 1):
            parts.append(part)
            rust += ["", f"static LOCALES_{part}: [Tagged; {len(chunk)}] = texts![",
                     *wrapped([f"{quoted(tag)} {quoted(name)}," for tag, name in chunk], "    "), "];", "",
                     "/// The entry of the longest tag of the table above that a text begins with.",
                     f"fn entry_in_{part}(tag: &[u8]) -> Option<Tagged>",
                     f"    ensures {{ entry_found result ≡ first_of locales_{part} tag.now }}", "{", f"    first_fitting(&LOCALES_{part}, tag)", "}"]
            antt += ["", f"unfoldable pub locales_{part} : List Entry", f"locales_{part} =",
                     *wrapped([f"({quoted(tag)} ⇒ {quoted(name)}) ∷" for tag, name in chunk], "    "), "    []"]
            self.answer(f"locales/entry_in_{part}", "first_fitting", f"Locales.{{locales_{part}}}", f"locales_{part}")
        call = self.nested(parts, "entry_in_{}(tag)", "first_entry({}, {})")
        self.write("src/locales.rt", [
            "//! The locales: a tag, and the name of its forms. A longer tag stands before one that it begins with.", f"// {self.note}",
            "ghost use Rattle.std.specs.Prelude.{◌≡◌};",
            f"ghost use Rattle.{self.crate.name}.specs.Locales.{{{', '.join(f'locales_{part}' for part in parts)}, locale_entry}};",
            f"ghost use Rattle.{self.crate.name}.specs.Tagged.{{entry_found, first_of}};", "",
            "use crate::tagged::{Tagged, first_entry, first_fitting, texts};", "",
            "/// The entry of the longest tag that a text begins with.",
            "pub(crate) fn locale_entry(tag: &[u8]) -> Option<Tagged>", "    ensures { entry_found result ≡ locale_entry tag.now }", "{",
            f"    {call}", "}", *rust])
        self.write("specs/Locales.antt", [
            f"-- {self.note}", "-- The locales: a tag, and the name of its forms. A longer tag stands before one that it begins with.",
            "use Rattle.std.specs.Prelude.{List, [], ◌∷◌, Option}", f"use Rattle.{self.crate.name}.specs.Tagged.{{Text, Entry, ◌⇒◌, first_of, or_else}}", *antt, "",
            "-- the entry of the longest tag that a text begins with", "abbrev pub locale_entry : Text → Option Entry",
            "locale_entry tag = " + self.nested(parts, "(first_of locales_{} tag)", "or_else {} ({})")])

    def chunks(self, rows, weight, most=250):
        """Rows in parts of so many references: rattle's proof of a function that names a static takes the square of them."""
        part, size, first = [], 0, 0
        for row in rows:
            if part and size + weight(row) > most:
                yield first, part
                part, size = [], 0
            part.append(row)
            size += weight(row)
        yield first, part

    def nested(self, parts, one, two):
        text = one.format(parts[-1])
        for part in reversed(parts[:-1]):
            text = two.format(one.format(part), text)
        return text

    def answer(self, path, call, use, name):
        self.write(f"proofs/{path}/Answers.antt", [
            "use Rattle.std.specs.Char.{encode_utf8}", f"use Rattle.{self.crate.name}.specs.{use}",
            f"use Rattle.{self.crate.name}.proofs.{path.replace('/', '.')}.Goals as goal", "",
            "-- the code's table and the definition's are the same, by computing", "pub returns : goal.returns",
            f"unfolding {name} encode_utf8", f"returns c = c.{call}.ensures"])

    def currency_table(self):
        def rust_list(pairs):
            words = [f"{quoted(tag)} {quoted(text)}," for tag, text in pairs]
            return ["{" + words[0], *words[1:-1], words[-1][:-1] + "}"] if len(words) > 1 else ["{" + "".join(words).rstrip(",") + "}"]

        def antt_list(pairs):
            words = [f"({quoted(tag)} ⇒ {quoted(text)}) ∷" for tag, text in pairs]
            return ["(" + words[0], *words[1:], "[])"] if words else ["[]"]

        def row_of(code, row):
            symbols = [(tag, row["symbols"][tag]) for tag in self.by_length(row["symbols"])]
            own = [(tag, self.own[code, tag]) for tag in self.by_length(row["own"])]
            head = f"{quoted(code)} {row['digits']} {quoted(row['symbol'])}"
            rust = wrapped([head, *rust_list(symbols), *rust_list(own)], "        ")
            rust[0] = "    " + rust[0].strip()
            rust[-1] += ";"
            antt = wrapped([f"currency_row {head}", *antt_list(symbols), *antt_list(own), "∷"], "        ")
            antt[0] = "    " + antt[0].strip()
            return rust, antt

        rust, antt, parts = [], [], []
        weight = lambda item: 4 + 2 * (len(item[1]["symbols"]) + len(item[1]["own"]))
        for part, (first, chunk) in enumerate(self.chunks(list(self.currencies.items()), weight), 1):
            parts.append(part)
            rust += ["", f"static CURRENCIES_{part}: [Currency; {len(chunk)}] = currencies! {{"]
            antt += ["", f"unfoldable pub currencies_{part} : List Currency", f"currencies_{part} ="]
            for code, row in chunk:
                lines = row_of(code, row)
                rust += lines[0]
                antt += lines[1]
            rust += ["};", "", "/// The currency of this code, if the table above has it.", f"fn currency_in_{part}(code: &str) -> Option<&'static Currency>",
                     f"    ensures {{ found_currency result ≡ coded currencies_{part} code.now }}", "{", f"    first_coded(&CURRENCIES_{part}, code)", "}"]
            antt.append("    []")
            self.answer(f"currencies/currency_in_{part}", "first_coded", f"Currencies.{{currencies_{part}}}", f"currencies_{part}")
        signs = self.signs()
        crate = self.crate.name
        call = self.nested(parts, "currency_in_{}(code)", "first_found({}, {})")
        self.write("src/currencies.rt", [
            "//! The currencies.", f"// {self.note}", "ghost use Rattle.std.specs.Prelude.{◌≡◌};",
            f"ghost use Rattle.{crate}.specs.Currencies.{{{', '.join(f'currencies_{part}' for part in parts)}, currency_of}};",
            f"ghost use Rattle.{crate}.specs.Forms.{{coded}};",
            f"ghost use Rattle.{crate}.specs.Views.{{found_currency}};", "",
            "use crate::currency::{Currency, first_coded, first_found};", "use crate::tagged::{Tagged, texts};", "",
            "/// The currency signs that symbols begin or end with: characters of the categories S.",
            f"pub(crate) static SIGNS: [&str; {len(signs)}] = [", *wrapped([f"{quoted(sign)}," for sign in signs], "    "), "];", "",
            "/// A row: a code, how many digits are after the point, a symbol, the symbols of tags, and the forms of tags.",
            "macro_rules! currencies {", "    ($($code:literal $digits:literal $symbol:literal { $($symbols:tt)* } { $($own:tt)* };)*) => {",
            "        [$(Currency {", "            code: $code,", "            digits: $digits,", "            symbol: $symbol,",
            "            symbols: &texts![$($symbols)*],", "            own: &texts![$($own)*],", "        }),*]", "    };", "}", "",
            "/// The currency of this code, if it has a row.", "pub(crate) fn currency_named(code: &str) -> Option<&'static Currency>",
            "    ensures { found_currency result ≡ currency_of code.now }", "{", f"    {call}", "}", *rust])
        self.write("specs/Currencies.antt", [
            f"-- {self.note}", "-- The currencies.", "use Rattle.std.specs.Prelude.{List, [], ◌∷◌, Option}",
            f"use Rattle.{crate}.specs.Tagged.{{Text, utf8, ◌⇒◌, or_else}}", f"use Rattle.{crate}.specs.Forms.{{Currency, coded, currency_row}}", "",
            "-- the currency signs that symbols begin or end with: characters of the categories S",
            "unfoldable pub signs : List Text", "signs =", *wrapped([f"utf8 {quoted(sign)} ∷" for sign in signs], "    "), "    []", *antt, "",
            "-- the currency of this code, if it has a row", "abbrev pub currency_of : Text → Option Currency",
            "currency_of code = " + self.nested(parts, "(coded currencies_{} code)", "or_else {} ({})")])

def main(path, crate):
    writer = Writer(path, crate)
    writer.digits()
    writer.patterns()
    writer.form_table()
    writer.locales()
    writer.currency_table()


main(*sys.argv[1:])
