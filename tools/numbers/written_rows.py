"""Writes tests/numerals/rows.txt: numbers, as an argument has them, with options in locales, and their texts by Intl.

    written_rows.py NUMBERS PLURALS COUNT > rows.txt

NUMBERS is the file that `collect.py` wrote, and PLURALS the folder of CLDR's plural rules: without these a locale has no bundle. Each
tag gets three fixed rows and COUNT random ones, the same each time. Tags that share the random ones don't follow one another, so
that the tags of a language get different ones.
"""

import json
import random
import sys
import xml.etree.ElementTree as ElementTree
from pathlib import Path

from rows import FIXED, by_intl, codes_of, number, options
from written import Request, told_of

BLOCKS = 60


def tags_with_rules(data: dict, plurals: str) -> list[str]:
    """The tags that Intl knows and whose language has plural rules."""
    root = ElementTree.parse(Path(plurals, "plurals.xml")).getroot()
    languages = {name.split("_")[0] for node in root.iter("pluralRules") for name in node.attrib["locales"].split()}
    tags = [tag for tag in data["locales"] if tag.split("-")[0] in languages - {"und", "root"}]
    return [tag for tag, answer in zip(tags, by_intl([f"1|{tag} " for tag in tags])) if not answer.startswith("!")]


def main(path: str, plurals: str, count: str) -> None:
    data = json.loads(Path(path).read_text(encoding="utf-8"))
    pick = random.Random(402)
    codes = codes_of(data)
    tags = tags_with_rules(data, plurals)
    fixed = [Request(*row.split("|")) for row in FIXED]
    for first in range(BLOCKS):
        shared = tags[first::BLOCKS]
        requests = fixed + [Request(number(pick), options(pick, codes)) for _ in range(int(count))]
        asked = [f"{request.number}|{tag} {told_of(*request)}" for request in requests for tag in shared]
        texts = iter(by_intl(asked))
        print("", *shared, sep="\t")
        for request in requests:
            print(*request, *(next(texts) for _ in shared), sep="\t")


if __name__ == "__main__":
    main(*sys.argv[1:])
