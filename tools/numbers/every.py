#!/usr/bin/env python3
"""Asks Intl and the built program for numbers in all locales, and compares their texts. It takes some ten minutes.

    tools/numbers/every.py [PROGRAM [COUNT [TAG..]]]

In each locale of ICU it asks for an amount of each currency, and for eleven numbers in each style; in each tag of the tables, also for
COUNT random numbers (1000) with random options. Named tags are the only ones that are asked for. It needs `node` with the version of
CLDR that the tables have. Where a locale has no plural rules the program has no bundle: these are left out, and named.

Prints what differs, ends with 'N passed, M failed', a row each, and with 1 if one failed.
"""

import json
import random
import shutil
import subprocess
import sys
import tempfile
from pathlib import Path
from typing import Iterator

HERE = Path(__file__).parent
sys.path.insert(0, str(HERE.parent))

from lib.cldr import data as data_of
from locales import Locales
from program import TOP, answers
from rows import by_intl, codes_of, number, options
from written import Request, source, told_of

NUMBERS = ["0", "1", "-1", "999", "-1000", "9999", "10000", "99999.9999", "-0.5", "1234567.891", "18446744073709551615"]
STYLES = ["", "style=percent", "style=currency;currency=EUR;currencyDisplay=code"]
NO_RULES = "unknown locale"
# ICU has no file of currencies for this locale, and takes the text of sr-Latn-ME; its parent in CLDR is sr-Cyrl.
KNOWN = ("sr-Cyrl-ME", "BAM")


def locales_of_icu() -> list[str]:
    """The tags of all locales that `node` has data of."""
    with tempfile.TemporaryDirectory() as folder:
        subprocess.run([sys.executable, "-B", HERE / "unpack.py", shutil.which("node"), folder], check=True)
        names = Locales(folder).main.names()
    languages = [name for name in names if name.split("_")[0].islower() and len(name.split("_")[0]) in (2, 3)]
    return [name.replace("_", "-") for name in languages if "POSIX" not in name and name != "no_NO_NY"]


def requests_by_tag(data: dict, count: int) -> dict[str, list[Request]]:
    """What is asked for in each tag."""
    pick, codes = random.Random(717), codes_of(data)
    amounts = [Request("-1234567.895", f"style=currency;currency={code}") for code in [*data["currencies"], "XYZ"]]
    fixed = amounts + [Request(each, style) for each in NUMBERS for style in STYLES]
    asked = {tag: fixed for tag in locales_of_icu()}
    for tag in data["locales"].keys() - {"und", "root"}:
        asked[tag] = asked.get(tag, []) + [Request(number(pick), options(pick, codes)) for _ in range(count)]
    return dict(sorted(asked.items()))


def differences(program: Path, tag: str, requests: list[Request]) -> Iterator[str | None]:
    """For each request that Intl answers what differs, or None. Nothing if the program has no plural rules of the locale."""
    with tempfile.TemporaryDirectory() as folder:
        file = Path(folder, "numbers.ftl")
        file.write_text(source(requests), encoding="utf-8")
        came = answers(program, file, tag, requests)
    if came[0].endswith(f"{NO_RULES}\n"):
        return
    wanted = by_intl([f"{request.number}|{tag} {told_of(*request)}" for request in requests])
    for request, text, answer in zip(requests, wanted, came, strict=True):
        if not text.startswith("!"):
            yield None if answer == text else f"{tag}, {' '.join(request)}: {answer!r} for {text!r}"


def is_known(difference: str) -> bool:
    return difference.startswith(f"{KNOWN[0]},") and f"currency={KNOWN[1]}:" in difference


def main(program: str = str(TOP / "crates/ftl/out/ftl"), count: str = "1000", *tags: str) -> None:
    data = json.loads(data_of("numbers").joinpath("numbers.json").read_text(encoding="utf-8"))
    passed, failed, known, left_out = 0, 0, 0, []
    for tag, requests in requests_by_tag(data, int(count)).items():
        if tags and tag not in tags:
            continue
        found = list(differences(Path(program).resolve(), tag, requests))
        wrong = [result for result in found if result is not None]
        print(*wrong, sep="\n", end="\n" if wrong else "", flush=True)
        known += sum(map(is_known, wrong))
        failed += len(wrong)
        passed += len(found) - len(wrong)
        left_out += [] if found else [tag]
    failed -= known
    print(f"left out, {len(left_out)} locales without plural rules: {' '.join(left_out)}")
    print(f"{known} known to differ")
    print(f"{passed} passed, {failed} failed")
    sys.exit(bool(failed) or not passed)


if __name__ == "__main__":
    main(*sys.argv[1:])
