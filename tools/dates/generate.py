"""Writes the tables of the crate from `dates.json`: for the code, and the same as definitions.

    generate.py DATES CRATE

`rt fmt` has to format what is written. Texts stand in parts of 120: rattle's proof of a function that names a
static takes the square of its references (of 250 some 15 s of a processor, of 120 some 3.5 s, of 60 some 2.5 s).
"""
import json
import sys
import unicodedata
from pathlib import Path

from definition import FIELDS, fields_in, items_of, measure

WIDTH = 118
PART = 120


def escaped(text):
    return "".join(
        char if (unicodedata.category(char)[0] in "LNPS" or char == " ") and char not in '"\\'
        and unicodedata.bidirectional(char) not in ("R", "AL", "AN") else f"\\u{{{ord(char):x}}}"
        for char in text
    )


def quoted(text):
    return f'"{escaped(text)}"'


def wrapped(words, indent="    "):
    lines, line = [], indent
    for word in words:
        if len(line) + len(word) + 1 > WIDTH and line.strip():
            lines.append(line.rstrip())
            line = indent
        line += word + " "
    return lines + ([line.rstrip()] if line.strip() else [])


def parts(rows, size=PART):
    return [rows[k : k + size] for k in range(0, len(rows), size)]


class Writer:
    def __init__(self, path, crate):
        self.data = json.load(open(path, encoding="utf8"))
        self.crate = Path(crate).resolve()
        self.note = f"Written by tools/dates from Unicode CLDR {self.data['version']}. Do not edit."

    def write(self, path, lines):
        (self.crate / path).parent.mkdir(parents=True, exist_ok=True)
        (self.crate / path).write_text("\n".join(lines) + "\n", encoding="utf8")

    def by_part(self, count, index):
        """The `match` that finds a part."""
        return [f"        {k} => part_{k + 1}({index})," for k in range(count - 1)] + [f"        _ => part_{count}({index}),"]

    def answer(self, path, call, use, name):
        self.write(f"proofs/{path}/Answers.antt", [
            "use Rattle.std.specs.Char.{encode_utf8}", f"use Rattle.fluent_date_tables.specs.{use}",
            f"use Rattle.fluent_date_tables.proofs.{path.replace('/', '.')}.Goals as goal", "",
            "-- the code's table and the definition's are the same, by computing", "pub returns : goal.returns",
            f"unfolding {name} encode_utf8", f"returns c = c.{call}.ensures"])

    def texts(self):
        chunks = parts(self.data["texts"])
        names = [f"texts_{k + 1}" for k in range(len(chunks))]
        rust = ["//! The texts: patterns, and lists of names with `|` between them.", f"// {self.note}",
                "ghost use Rattle.std.specs.Prelude.{◌≡◌};",
                f"ghost use Rattle.fluent_date_tables.specs.Texts.{{{', '.join(names)}, text_numbered}};",
                "ghost use Rattle.fluent_date_tables.specs.Tables.{list_at};", "",
                "use crate::tables::text_at;", "",
                "/// The text of a number; the empty one if there is none.", "pub fn text_numbered(number: u16) -> &'static str",
                "    ensures { result.now ≡ text_numbered number }", "{", f"    let at = usize::from(number % {PART});", f"    match number / {PART} {{",
                *self.by_part(len(chunks), "at"), "    }", "}"]
        antt = [f"-- {self.note}", "-- The texts: patterns, and lists of names with `|` between them.",
                "use Rattle.std.specs.Prelude.{ℕ, List, [], ◌∷◌, ◌/◌, ◌%◌, ◌==◌, if◌then◌else◌}", "use Rattle.fluent_date_tables.specs.Tables.{Text, utf8, list_at}"]
        for k, chunk in enumerate(chunks):
            rust += ["", f"static TEXTS_{k + 1}: [&'static str; {len(chunk)}] = [", *wrapped([quoted(t) + "," for t in chunk]), "];", "",
                     "/// A text of the table above.", f"fn part_{k + 1}(at: usize) -> &'static str",
                     f"    ensures {{ result.now ≡ list_at texts_{k + 1} at }}", "{", f"    text_at(&TEXTS_{k + 1}, at)", "}"]
            antt += ["", f"unfoldable pub texts_{k + 1} : List Text", f"texts_{k + 1} =", *wrapped([f"utf8 {quoted(t)} ∷" for t in chunk]), "    []"]
            self.answer(f"texts/part_{k + 1}", "text_at", f"Texts.{{texts_{k + 1}}}", f"texts_{k + 1}")
        chain = f"list_at texts_{len(chunks)} (number % {PART})"
        for k in range(len(chunks) - 2, -1, -1):
            chain = f"if number / {PART} == {k} then list_at texts_{k + 1} (number % {PART}) else ({chain})"
        antt += ["", "-- the text of a number; the empty one if there is none", "abbrev pub text_numbered : ℕ → Text", f"text_numbered number = {chain}"]
        self.write("src/texts.rt", rust)
        self.write("specs/Texts.antt", antt)

    def skeletons(self):
        rows = []
        for text in self.data["skeletons"]:
            fields = fields_in(items_of(text.lstrip("!")))
            rows.append((text.lstrip("!"), text.startswith("!"), [fields.get(f) for f in FIELDS]))
        rust = ["//! The fields that patterns are for.", f"// {self.note}", "", "use crate::tables::Skeleton;", "",
                "/// A row: whether CLDR gives patterns for these very fields, how often the letter of each is",
                "/// repeated, and what the fields are compared by.",
                "macro_rules! skeletons {", "    ($($given:literal $counts:tt $measures:tt;)*) => {",
                "        [$(Skeleton { given: $given, counts: $counts, measures: $measures }),*]", "    };", "}", "",
                f"pub(crate) static SKELETONS: [Skeleton; {len(rows)}] = skeletons! {{"]
        antt = [f"-- {self.note}", "-- The fields that patterns are for.", "use Rattle.std.specs.Prelude.{true, false, List, [], ◌∷◌}",
                "use Rattle.fluent_date_tables.specs.Tables.{Skeleton, skeleton_row}", "", "unfoldable pub skeletons : List Skeleton", "skeletons ="]
        listed = lambda ns: "(" + " ∷ ".join(map(str, ns)) + " ∷ [])"
        for text, given, fields in rows:
            counts, sizes = [i[1] if i else 0 for i in fields], [measure(*i) if i else 0 for i in fields]
            rust.append(f"    {'true' if given else 'false'} {counts} {sizes}; // {text}")
            antt.append(f"    skeleton_row {'true' if given else 'false'} {listed(counts)} {listed(sizes)} ∷ -- {text}")
        self.write("src/skeletons.rt", rust + ["};"])
        self.write("specs/Skeletons.antt", antt + ["    []"])

    def lists(self):
        chunks = parts(self.data["lists"], 60)
        names = [f"lists_{k + 1}" for k in range(len(chunks))]
        rust = ["//! Which patterns locales have: pairs of a skeleton's number and a pattern's.", f"// {self.note}", "ghost use Rattle.std.specs.Prelude.{◌≡◌};",
                f"ghost use Rattle.fluent_date_tables.specs.Lists.{{{', '.join(names)}, list_numbered}};", "ghost use Rattle.fluent_date_tables.specs.Tables.{list_at};", "",
                "use crate::tables::{Pair, pairs_at};", "", "/// Pairs of numbers.", "macro_rules! pairs {", "    ($($skeleton:literal $pattern:literal,)*) => {",
                "        &[$(Pair { skeleton: $skeleton, pattern: $pattern }),*]", "    };", "}", "",
                "/// The list of a number; the empty one if there is none.", "pub fn list_numbered(number: u16) -> &'static [Pair]",
                "    ensures { result.now ≡ list_numbered number }", "{", "    let at = usize::from(number % 60);", "    match number / 60 {",
                *self.by_part(len(chunks), "at"), "    }", "}"]
        antt = [f"-- {self.note}", "-- Which patterns locales have: pairs of a skeleton's number and a pattern's.", "use Rattle.std.specs.Prelude.{ℕ, List, [], ◌∷◌, ◌/◌, ◌%◌, ◌==◌, if◌then◌else◌}",
                "use Rattle.fluent_date_tables.specs.Tables.{Pair, ◌∶◌, list_at}"]
        for k, chunk in enumerate(chunks):
            rust += ["", f"static LISTS_{k + 1}: [&'static [Pair]; {len(chunk)}] = ["]
            antt += ["", f"unfoldable pub lists_{k + 1} : List (List Pair)", f"lists_{k + 1} ="]
            for row in chunk:
                rust += ["    pairs![", *wrapped([f"{a} {b}," for a, b in row], "        "), "    ],"]
                antt += ["    (", *wrapped([f"({a} ∶ {b}) ∷" for a, b in row], "     "), "     []) ∷"]
            rust += ["];", "", "/// A list of the table above.", f"fn part_{k + 1}(at: usize) -> &'static [Pair]",
                     f"    ensures {{ result.now ≡ list_at lists_{k + 1} at }}", "{", f"    pairs_at(&LISTS_{k + 1}, at)", "}"]
            antt += ["    []"]
            self.answer(f"lists/part_{k + 1}", "pairs_at", f"Lists.{{lists_{k + 1}}}", f"lists_{k + 1}")
        chain = f"list_at lists_{len(chunks)} (number % 60)"
        for k in range(len(chunks) - 2, -1, -1):
            chain = f"if number / 60 == {k} then list_at lists_{k + 1} (number % 60) else ({chain})"
        antt += ["", "-- the list of a number; the empty one if there is none", "abbrev pub list_numbered : ℕ → List Pair", f"list_numbered number = {chain}"]
        self.write("src/lists.rt", rust)
        self.write("specs/Lists.antt", antt)

    def rows(self):
        def numbers(row):
            return ([row["decimal"], row["fields"], row["date_patterns"], row["time_patterns"], row["hours"], row["gmt"], row["utc"]], row["times"], row["dates"], row["glue"],
                    row["append"], row["names"][0:3], row["names"][3:6], row["names"][6:9], row["names"][9:12], row["names"][12:15], row["names"][15:18], row["periods"])
        systems = {row["digits"] for row in self.data["rows"]}
        names = dict(sorted((digits, self.system(digits)) for digits in systems))
        rust = ["//! What locales write dates by, once for all that write alike.", f"// {self.note}", "", "use crate::digits::{" + ", ".join(sorted(names.values())) + "};",
                "use fluent_date::HourCycle;", "use crate::tables::Row;", "", "/// A row: the digits, how the locale counts 24 and 12 hours, and numbers of texts and lists.",
                "macro_rules! rows {",
                "    ($($digits:ident $cycle:ident $twelve:ident $decimal:literal $fields:literal $date_patterns:literal $time_patterns:literal $hours:literal $gmt:literal $utc:literal",
                "        $times:tt $dates:tt $glue:tt $append:tt $month:tt $own_month:tt $day:tt $own_day:tt $eras:tt $halves:tt $parts:tt;)*) => {",
                "        [$(Row {", "            digits: $digits,", "            cycle: HourCycle::$cycle,", "            twelve: HourCycle::$twelve,",
                *[f"            {n}: ${n}," for n in "decimal fields date_patterns time_patterns hours gmt utc times dates glue append month own_month day own_day eras halves parts".split()],
                "        }),*]", "    };", "}", "", f"pub(crate) static ROWS: [Row; {len(self.data['rows'])}] = rows! {{"]
        for row in self.data["rows"]:
            single, *many = numbers(row)
            rust += [*wrapped([names[row["digits"]], row["cycle"].upper(), row["twelve"].upper(), *map(str, single), *(str(m) for m in many)], "        ")]
            rust[-1] += ";"
        self.write("src/rows.rt", rust + ["};"])
        antt = [f"-- {self.note}", "-- What locales write dates by, once for all that write alike.", "use Rattle.std.specs.Prelude.{List, [], ◌∷◌}",
                "use Rattle.fluent_date_tables.specs.Digits.{" + ", ".join(sorted(n.lower() for n in names.values())) + "}", "use Rattle.fluent_date_tables.specs.Tables.{Row, row}",
                "use Rattle.fluent_date.specs.declared.options.HourCycle.TheVariants.{H11, H12, H23}", "", "unfoldable pub rows : List Row", "rows ="]
        listed = lambda ns: "(" + " ∷ ".join(map(str, ns)) + " ∷ [])"
        for row in self.data["rows"]:
            single, *many = numbers(row)
            lines = wrapped(["row", names[row["digits"]].lower(), row["cycle"].upper(), row["twelve"].upper(), *map(str, single), *map(listed, many), "∷"], "        ")
            lines[0] = "    " + lines[0].strip()
            antt += lines
        self.write("specs/Rows.antt", antt + ["    []"])
        rust = ["//! The digits of numbering systems, from 0 to 9.", f"// {self.note}", ""]
        antt = [f"-- {self.note}", "-- The digits of numbering systems, from 0 to 9, as characters.", "use Rattle.std.specs.Prelude.{ℕ, List, codes}", ""]
        for digits, name in names.items():
            rust += [f"pub(crate) const {name}: [char; 10] = [", "    " + ", ".join(f"'{escaped(c)}'" for c in digits) + ",", "];", ""]
            antt += [f"abbrev pub {name.lower()} : List ℕ", f"{name.lower()} = codes {quoted(digits)}", ""]
        self.write("src/digits.rt", rust[:-1])
        self.write("specs/Digits.antt", antt[:-1])

    def system(self, digits):
        names = {"0": "LATN", "٠": "ARAB", "۰": "ARABEXT", "०": "DEVA", "০": "BENG", "༠": "TIBT", "၀": "MYMR", "߀": "NKOO", "᱐": "OLCK", "𑄶": "CAKM", "𞥐": "ADLM"}
        return names[digits[0]]

    def tags(self):
        letters = {}
        for tag, row in self.data["tags"].items():
            letters.setdefault(tag[0], []).append((tag, row))
        names = [f"tags_{letter}" for letter in letters]
        rust = ["//! The tags, and the numbers of their rows.", f"// {self.note}",
                "ghost use Rattle.std.specs.Prelude.{◌≡◌};", f"ghost use Rattle.fluent_date_tables.specs.Tags.{{{', '.join(names)}, row_for}};",
                "ghost use Rattle.fluent_date_tables.specs.Tables.{at_letter, first_of};", "ghost use Rattle.fluent_date_tables.specs.Letters.{lettered};", "",
                "use crate::tables::{Family, Tagged, first_folded, row_among};", "", "/// A language with its row, and what may follow it with the row of both.",
                "macro_rules! family {", "    ($language:literal $row:literal, $($more:literal $both:literal,)*) => {",
                "        Family {", "            language: $language,", "            row: $row,", "            more: &[$(Tagged { tag: $more, row: $both }),*],",
                "        }", "    };", "}", "",
                "/// The row of the longest tag that a text begins with.", "#[tactic(auto, using(crate::proofs::Letters::row_by_letter))]", "pub fn row_for(tag: &[u8]) -> Option<u16>", "    ensures { result ≡ row_for tag.now }", "{",
                "    row_by_letter(first_folded(tag), tag)", "}", "",
                "/// The row of the longest tag of this first letter that a text begins with.", "fn row_by_letter(letter: u8, tag: &[u8]) -> Option<u16>",
                "    ensures { result ≡ at_letter lettered letter tag.now }", "{", "    match letter {",
                *[f"        b'{letter}' => row_in_{letter}(tag)," for letter in letters], "        _ => None,", "    }", "}"]
        antt = [f"-- {self.note}", "-- The tags, and the numbers of their rows. A longer tag is before one that it begins with.",
                "use Rattle.std.specs.Prelude.{ℕ, List, [], ◌∷◌, Option}", "use Rattle.fluent_date_tables.specs.Tables.{Text, Tagged, ◌⇒◌, first_in}"]
        for letter, chunk in letters.items():
            rust += ["", f"static TAGS_{letter.upper()}: [Family; {sum('-' not in tag for tag, _ in chunk)}] = [", *self.families(chunk), "];", "",
                     "/// The row of the longest tag of the table above that a text begins with.", f"fn row_in_{letter}(tag: &[u8]) -> Option<u16>",
                     f"    ensures {{ result ≡ first_of tags_{letter} tag.now }}", "{", f"    row_among(&TAGS_{letter.upper()}, tag)", "}"]
            antt += ["", f"unfoldable pub tags_{letter} : List Tagged", f"tags_{letter} =", *wrapped([f"({quoted(t)} ⇒ {r}) ∷" for t, r in chunk]), "    []"]
            self.answer(f"tags/row_in_{letter}", "row_among", f"Tags.{{tags_{letter}}}", f"tags_{letter}")
        antt += ["", "abbrev pub tags : List (List Tagged)", "tags =", *wrapped([f"{name} ∷" for name in names]), "    []",
                 "", "-- the row of the longest tag that a text begins with", "abbrev pub row_for : Text → Option ℕ", "row_for tag = first_in tags tag"]
        self.write("src/tags.rt", rust)
        self.write("specs/Tags.antt", antt)
        self.write("specs/Letters.antt", [
            f"-- {self.note}", "-- The lists of tags, each with the letter that its tags begin with.", "use Rattle.std.specs.Prelude.{ℕ, List, [], ◌∷◌}",
            "use Rattle.fluent_date_tables.specs.Tables.{Tagged}", f"use Rattle.fluent_date_tables.specs.Tags.{{{', '.join(names)}}}", "",
            "abbrev pub lettered : List (ℕ × List Tagged)", "lettered =",
            *wrapped([f"({ord(letter)}, {name}) ∷" for letter, name in zip(letters, names)]), "    []"])

    def families(self, tags):
        """A line for each language: its row, and what may follow it. The tag of the language alone is the last of its tags."""
        families = {}
        for tag, row in tags:
            language, *more = tag.split("-", 1)
            families.setdefault(language, []).append((more, row))
        for language, ((_, row), *others) in ((language, reversed(tags)) for language, tags in families.items()):
            words = [f"{quoted(language)} {row},", *(f"{quoted(more)} {both}," for (more,), both in reversed(others))]
            lines = wrapped(words, "        ")
            if len(lines) == 1:
                yield f"    family![{lines[0].strip()}],"
            else:
                yield from ["    family![", *lines, "    ],"]

    def nested(self, form, calls):
        text = calls[-1]
        for call in reversed(calls[:-1]):
            text = form.format(call, text)
        return text


def main(path, crate):
    writer = Writer(path, crate)
    for part in (writer.texts, writer.skeletons, writer.lists, writer.rows, writer.tags):
        part()


main(*sys.argv[1:])
