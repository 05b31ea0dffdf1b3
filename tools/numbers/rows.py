"""Writes rows of tests/more_rows/data/numerals.txt: numbers with options in locales, and their texts by Intl.

    rows.py NUMBERS COUNT

NUMBERS is the file that `collect.py` wrote. Each tag of it gets three fixed rows and COUNT random ones, the same each time. Only
options that ECMA-402 takes are asked for. `node` answers, with the data that it has: what it doesn't know is left out.
"""

import json
import random
import subprocess
import sys
from pathlib import Path

FIXED = ["1234567.891|", "-1234.5|style=currency;currency=EUR", "0.256|style=percent"]
KNOWN = ["0", "1", "9", "10", "99", "999", "1000", "9999", "10000", "99999", "999999", "1000000", "18446744073709551615",
         "18446744073709551615.999999999999999999", "0.000000000000000001", "9999.5", "0.5", "1.5", "2.5", "0.05", "0.005",
         "0.0005", "999.9995", "999.9994999", "0.045", "9.995"]
COUNTS = [0, 1, 2, 3, 4, 10, 18, 20]


def number(pick: random.Random) -> str:
    """A number of up to 20 digits before the point and 18 after it: ties, runs of nines, and others."""
    text = pick.choice([
        lambda: pick.choice(KNOWN),
        lambda: str(pick.randrange(10 ** pick.randrange(1, 8))),
        lambda: str(pick.randrange(1 << 64)),
        lambda: f"{pick.randrange(10 ** pick.randrange(1, 9))}.{pick.randrange(10 ** pick.randrange(1, 7))}",
        lambda: f"{pick.randrange(1 << 64)}.{pick.randrange(10**18):018}",
        lambda: f"0.{'0' * pick.randrange(17)}{pick.randrange(10)}",
        lambda: f"{pick.randrange(10 ** pick.randrange(1, 6))}.{'9' * pick.randrange(18)}{pick.choice('459')}",
    ])()
    # there is no negative zero as an argument
    return text if not text.strip("0.") or pick.randrange(3) else "-" + text


def digits(pick: random.Random) -> list[str]:
    """Counts of digits after the point, or of significant ones."""
    kind = pick.randrange(8)
    least = pick.randrange(0, 21)
    significant = pick.randrange(1, 22)
    return [
        [f"minimumFractionDigits#{pick.choice(COUNTS)}"],
        [f"maximumFractionDigits#{pick.choice(COUNTS)}"],
        [f"minimumFractionDigits#{least}", f"maximumFractionDigits#{pick.randrange(least, 21)}"],
        [f"minimumSignificantDigits#{significant}"],
        [f"maximumSignificantDigits#{significant}"],
        [f"minimumSignificantDigits#{significant}", f"maximumSignificantDigits#{pick.randrange(significant, 22)}"],
        [],
        [],
    ][kind]


def options(pick: random.Random, codes: list[str]) -> str:
    words = []
    style = pick.choice(["decimal", "percent", "currency", "currency"])
    if style != "decimal":
        words.append(f"style={style}")
    if style == "currency":
        code = pick.choice(codes)
        words.append(f"currency={code if pick.randrange(8) else code.lower()}")
        if not pick.randrange(3):
            words.append("currencyDisplay=code")
    if not pick.randrange(6):
        words.append("useGrouping=false")
    if not pick.randrange(4):
        words.append(f"minimumIntegerDigits#{pick.randrange(1, 22)}")
    return ";".join(words + digits(pick))


def codes_of(data: dict) -> list[str]:
    """The codes of currencies to choose from: all that have a row, and some that are common."""
    return [*data["currencies"], *["USD", "EUR", "JPY", "GBP", "CHF"] * 12]


def requests(path: str, count: int) -> list[str]:
    data = json.loads(Path(path).read_text(encoding="utf-8"))
    pick = random.Random(48)
    codes = codes_of(data)
    asked = []
    # `root` is the name of `und` here alone, and Intl has no locale for either
    for tag in data["locales"]:
        if tag not in ("und", "root"):
            random_rows = [f"{number(pick)}|{options(pick, codes)}" for _ in range(count)]
            asked += [row.replace("|", f"|{tag} ", 1) for row in FIXED + random_rows]
    return asked


def by_intl(asked: list[str]) -> list[str]:
    """What Intl answers to requests as `intl.js` takes them."""
    script = Path(__file__).with_name("intl.js")
    told = subprocess.run(["node", script], input="\n".join(asked) + "\n", capture_output=True, text=True, check=True).stdout
    return told.split("\n")[: len(asked)]


def main(path: str, count: str) -> None:
    asked = requests(path, int(count))
    for request, answer in zip(asked, by_intl(asked)):
        if not answer.startswith("!"):
            print(f"{request}|{answer}")


if __name__ == "__main__":
    main(*sys.argv[1:])
