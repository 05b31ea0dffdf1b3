#!/usr/bin/env python3
"""Asks the built program for the numbers of tests/numerals/rows.txt: one run of `ftl run --locale` for each tag.

    tools/numbers/program.py [PROGRAM [FILE]]

Prints what differs from the texts of Intl, ends with 'N passed, M failed', a row each, and with 1 if one failed.
"""

import subprocess
import sys
import tempfile
from pathlib import Path
from typing import Iterator

from written import ROWS, Request, blocks, source

TOP = Path(__file__).resolve().parents[2]
SECONDS = 60


def answers(program: Path, file: Path, tag: str, requests: list[Request]) -> list[str]:
    """What the program answers in this locale to the requests of a source, a text each, or what it said instead."""
    asked = "".join(f"n{k}\tn={request.number}\n" for k, request in enumerate(requests))
    words = [program, "run", "--no-isolating", "--locale", tag, file]
    ran = subprocess.run(words, input=asked.encode(), capture_output=True, timeout=SECONDS)
    if ran.returncode:
        return [f"status {ran.returncode}, {ran.stderr.decode()}"] * len(requests)
    lines = ran.stdout.decode().split("\n")
    return [
        text if head == f"ok {len(text.encode())} 0" else f"{head}, {text}"
        for head, text in zip(lines[:-1:2], lines[1::2], strict=True)
    ]


def differences(program: Path, file: Path) -> Iterator[str | None]:
    """For each row what differs, or None."""
    with tempfile.TemporaryDirectory() as folder:
        sources = Path(folder, "numbers.ftl")
        for requests, texts in blocks(file):
            sources.write_text(source(requests), encoding="utf-8")
            for tag, wanted in texts.items():
                for request, text, came in zip(requests, wanted, answers(program, sources, tag, requests), strict=True):
                    yield None if came == text else f"{tag}, {' '.join(request)}: {came!r} for {text!r}"


def main(program: str = str(TOP / "crates/ftl/out/ftl"), file: str = str(ROWS)) -> None:
    found = list(differences(Path(program).resolve(), Path(file)))
    wrong = [result for result in found if result is not None]
    print(*wrong, sep="\n", end="\n" if wrong else "")
    print(f"{len(found) - len(wrong)} passed, {len(wrong)} failed")
    sys.exit(bool(wrong) or not found)


if __name__ == "__main__":
    main(*sys.argv[1:])
