"""Reads tests/numerals/rows.txt: numbers, as an argument has them, with options in locales, and their texts by Intl.

A block begins with a line of tags, each after a tab. The lines that follow are its rows: a number, its options, as `intl.js` takes
them, and the text in each of the tags, with tabs between them.

    written.py    prints them as rows of tests/more_rows/data/numerals.txt
"""

import re
from pathlib import Path
from typing import Iterator, NamedTuple

ROWS = Path(__file__).parents[2] / "tests" / "numerals" / "rows.txt"


class Request(NamedTuple):
    """A number and its options."""

    number: str
    options: str


class Block(NamedTuple):
    """Requests, and of each tag its texts in their order."""

    requests: list[Request]
    texts: dict[str, list[str]]


def blocks(path: Path = ROWS) -> Iterator[Block]:
    """The blocks of a file."""
    for part in re.split(r"^(?=\t)", path.read_text(encoding="utf-8"), flags=re.M)[1:]:
        head, *lines = part.removesuffix("\n").split("\n")
        rows = [line.split("\t") for line in lines]
        tags = head.split("\t")[1:]
        assert rows and all(len(row) == 2 + len(tags) for row in rows), f"a row of {tags} has too few texts, or too many"
        yield Block([Request(*row[:2]) for row in rows], {tag: [row[2 + k] for row in rows] for k, tag in enumerate(tags)})


def placeable(options: str) -> str:
    """A placeable that shows the argument `$n` with these options."""
    words = ["$n"]
    for option in filter(None, options.split(";")):
        name, kind, value = re.fullmatch(r"(\w+)([=#])(.*)", option).groups()
        words.append(f"{name}: {value}" if kind == "#" else f'{name}: "{value}"')
    return f"{{ NUMBER({', '.join(words)}) }}"


def source(requests: list[Request]) -> str:
    """A source whose messages `n0`, `n1` .. show the requests."""
    return "".join(f"n{k} = {placeable(request.options)}\n" for k, request in enumerate(requests))


def told_of(number: str, options: str) -> str:
    """The options that Intl has to be told of: a number that was written with digits after the point asks for as many.

    If it may have fewer, it asks for those.
    """
    digits = len(number.partition(".")[2])
    if not digits or "minimumFractionDigits" in options:
        return options
    most = re.search(r"maximumFractionDigits#(\d+)", options)
    least = f"minimumFractionDigits#{min(digits, int(most[1])) if most else digits}"
    return f"{options};{least}" if options else least


def main() -> None:
    for requests, texts in blocks():
        for tag, told in texts.items():
            for request, text in zip(requests, told):
                print(f"{request.number}|{tag} {told_of(*request)}|{text}")


if __name__ == "__main__":
    main()
