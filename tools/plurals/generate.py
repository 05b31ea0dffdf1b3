"""Writes the tables of the crate `fluent_plurals` from the plural rules of Unicode CLDR.

    generate.py FOLDER VERSION CRATE

FOLDER has CLDR's `plurals.xml` and `ordinals.xml`, and CRATE is the folder of the crate. `rt fmt` has to format what is written;
`update.sh` runs both.
"""

import sys
from pathlib import Path

import cldr
import definitions
import functions

# Sets whose conditions are functions of their own: all in one function, they are too many paths for the prover.
SPLIT = ["br", "hr", "lv"]


def rows(kinds: list[cldr.Kind]) -> list[tuple[str, str, str]]:
    """The tags in small letters, each with its two sets. A longer tag stands before one that it begins with.

    A language without rules of a kind has the set `Root`, and so has `und`, the tag of no language, which CLDR calls `root`.
    """
    cardinal, ordinal = (
        {
            locale: rules.name.capitalize() if rules.rules else "Root"
            for rules in kind.sets
            for locale in rules.locales
        }
        for kind in kinds
    )
    tags = sorted({*cardinal, *ordinal, "und"}, key=lambda tag: (tag.split("_")[0], -len(tag)))
    return [(tag.lower().replace("_", "-"), cardinal.get(tag, "Root"), ordinal.get(tag, "Root")) for tag in tags]


def write_tables(folder: str, version: str, crate: str) -> None:
    """Writes the eight files."""
    head = f"Written by tools/plurals from the plural rules of Unicode CLDR {version}. Do not edit."
    kinds = cldr.kinds(folder)
    files = {
        "specs/Sets.antt": definitions.sets_module(kinds, head),
        "specs/Languages.antt": definitions.table_module(rows(kinds), head),
        "src/sets.rt": functions.sets_module(kinds, head),
        "src/table.rt": functions.table_module(rows(kinds), head),
    }
    for kind in kinds:
        files[f"specs/{kind.name.capitalize()}.antt"] = definitions.rules_module(kind, head, SPLIT)
        files[f"src/{kind.name}.rt"] = functions.rules_module(kind, head, SPLIT)
    for path, text in files.items():
        Path(crate, path).write_text(text, encoding="utf-8")


if __name__ == "__main__":
    write_tables(*sys.argv[1:])
