#!/usr/bin/env python3
"""Writes what `ftl lint --explain CODE` shows: the sections of docs/reference/codes.md as text for a screen.

    tools/explanations.py [--check]

The result is crates/ftl_arguments/src/explanations.rt, in the order of the codes in linting.rt. With --check nothing is
written, the last line is 'N passed, M failed', and the status is 1 if the file is another one.
"""
import pathlib
import re
import sys
import textwrap

TOP = pathlib.Path(__file__).resolve().parent.parent
PAGE = TOP / "docs" / "reference" / "codes.md"
CODES = TOP / "crates" / "ftl_arguments" / "src" / "linting.rt"
RESULT = TOP / "crates" / "ftl_arguments" / "src" / "explanations.rt"
WIDTH = 80
# No comment leaves these out.
UNSILENCED = {"syntax", "byte-order-mark"}
# How many are in one table, since the checker reads a table in one piece.
PART = 6
HEAD = '''//! The explanation of each code of findings: its section of `docs/reference/codes.md`, as text for
//! a screen. `tools/explanations.py` writes this file.
ghost use Rattle.std.specs.Prelude.{◌≡◌, length};

/// A code with its explanation.
type Explanation = (&'static str, &'static str);

/// The text on a code, which is empty if it is none.
pub(crate) fn text_of(code: &str) -> &'static str {
    text_in(part_1(), code)
%s        .unwrap_or("")
}

/// The text on a code in one of the tables.
fn text_in(explanations: &'static [Explanation], code: &str) -> Option<&'static str> {
    for (known, text) in explanations {
        if *known == code {
            return Some(*text);
        }
    }
    None
}
'''
LATER = '''        .or_else(|| text_in(part_%d(), code))
'''
TABLE = '''
fn part_%(number)d() -> &'static [Explanation]
    ensures { length result.now ≡ %(length)d }
{
    &PART_%(number)d
}

static PART_%(number)d: [Explanation; %(length)d] = [%(rows)s];
'''


def codes() -> list[str]:
    """The codes, in their order."""
    stretch = re.search(r"const CODES: \[&str; \d+\] = \[(.*?)\]", CODES.read_text(), re.S)
    return re.findall(r'"([a-z0-9-]+)"', stretch[1])


def paragraph(text: str) -> str:
    """A paragraph without the targets of its links, in lines for a screen. No line ends within code."""
    plain = re.sub(r"\[([^\]]*)\]\([^)]*\)", r"\1", text, flags=re.S)
    held = re.sub(r"`[^`]*`", lambda code: code[0].replace(" ", "\0"), " ".join(plain.split()))
    return textwrap.fill(held, WIDTH, break_long_words=False, break_on_hyphens=False).replace("\0", " ")


def silence(code: str) -> str:
    """How findings of a code are left out."""
    if code in UNSILENCED:
        return f"`--ignore {code}` leaves such findings out."
    return f"`--ignore {code}` leaves such findings out, and so does a comment `# lint-ignore: {code}` before the entry."


def explanation(code: str, section: str) -> str:
    """A section of the page, which begins after its heading, with how to leave such findings out. The script of the
    repository becomes the program."""
    parts = [part.strip("\n") for part in re.split(r"\n\n+", section.strip("\n").replace("./ftl", "ftl"))]
    shown = [part if part.startswith("    ") else paragraph(part) for part in parts]
    return "\n\n".join([code, *shown, paragraph(silence(code))]) + "\n"


def literal(text: str) -> str:
    """A text as a string literal, a line each."""
    escaped = text.replace("\\", "\\\\").replace('"', '\\"')
    return f'"{escaped}"'


def row(code: str, section: str) -> tuple[str, str]:
    """A code with its explanation, as literals."""
    return literal(code), literal(explanation(code, section))


def laid(part: list[tuple[str, str]]) -> str:
    """Rows of a table, as `rt fmt` lays them: one alone stands on the line of its brackets."""
    if len(part) == 1:
        return "(\n    %s,\n    %s,\n)" % part[0]
    return "\n" + "".join("    (\n        %s,\n        %s,\n    ),\n" % one for one in part)


def table(number: int, part: list[tuple[str, str]]) -> str:
    """A table of these rows."""
    return TABLE % {"number": number, "length": len(part), "rows": laid(part)}


def written() -> str:
    """The file."""
    page = PAGE.read_text(encoding="utf-8")
    sections = dict(re.findall(r"^### `([a-z0-9-]+)`\n(.*?)(?=^##)", page + "\n## ", re.S | re.M))
    rows = [row(code, sections[code]) for code in codes()]
    parts = [rows[start : start + PART] for start in range(0, len(rows), PART)]
    head = HEAD % "".join(LATER % number for number in range(2, len(parts) + 1))
    return head + "".join(table(number, part) for number, part in enumerate(parts, 1))


def main(words: list[str]) -> int:
    if words == ["--check"]:
        same = RESULT.read_text(encoding="utf-8") == written()
        print(f"{int(same)} passed, {int(not same)} failed")
        return 0 if same else 1
    if words:
        print(__doc__, file=sys.stderr)
        return 2
    RESULT.write_text(written(), encoding="utf-8")
    return 0


if __name__ == "__main__":
    sys.exit(main(sys.argv[1:]))
