"""Prints the samples of Unicode CLDR as rows: a number, a language with the kind of its rules, and the category.

    samples.py FOLDER

FOLDER has the two files of CLDR. Digits after the point are those shown, so `1.0` is not `1`. Numbers in compact notation, such
as `1c6` for "1M", are left out: Fluent has none.
"""

import sys

from cldr import kinds, numbers


def rows(folder: str) -> list[str]:
    """The rows, by language."""
    found = [
        (locale, kind.name, number, category)
        for kind in kinds(folder)
        for rules in kind.sets
        for locale in rules.locales
        for category, sample in rules.samples
        for number in numbers(sample)
        if "c" not in number and "e" not in number
    ]
    found.sort(key=lambda row: row[:2])
    return [f"{number}|{locale} {kind}|{category}" for locale, kind, number, category in found]


if __name__ == "__main__":
    print("\n".join(rows(sys.argv[1])))
