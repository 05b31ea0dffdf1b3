"""Writes tests/rows/numerals.jsonl: what `ftl run --locale` answers in some locales, with the texts of Intl.

    program_rows.py > numerals.jsonl

An argument of a run that was written with digits after the point asks for as many, and Intl is told so.
"""

import json

from rows import by_intl
from written import placeable, told_of

LOCALES = """en de fr es it pt ru ja zh ar-EG hi bn pl nl sv tr uk cs el he fa id ko th vi ro hu fi da nb bg hr sr sk sl lt lv et ca
en-IN en-ZA de-AT de-CH fr-CH es-MX pt-PT sw mr ne my ur am ka""".split()
# A message, its options as `intl.js` takes them, and the number that it is asked with.
MESSAGES = [
    ("plain", "", "1234567.891"),
    ("least", "minimumFractionDigits#2", "1234"),
    ("written", "", "12345.50"),
    ("whole", "maximumFractionDigits#0", "98765"),
    ("bare", "useGrouping=false", "-1234567"),
    ("three", "maximumSignificantDigits#3", "1234567.891"),
    ("percent", "style=percent", "0.256"),
    ("euros", "style=currency;currency=EUR", "-1234.5"),
    ("dollars", "style=currency;currency=USD;minimumFractionDigits#1;maximumFractionDigits#1", "99.95"),
    ("yen", "style=currency;currency=jpy;currencyDisplay=code", "1234567.5"),
]


def source() -> str:
    return "".join(f"{name} = {placeable(options)}\n" for name, options, _ in MESSAGES)


def main() -> None:
    asked = [f"{number}|{tag} {told_of(number, options)}" for tag in LOCALES for _, options, number in MESSAGES]
    texts = iter(by_intl(asked))
    for tag in LOCALES:
        answers = [next(texts) for _ in MESSAGES]
        assert not any(answer.startswith("!") for answer in answers), (tag, answers)
        print(json.dumps({
            "what": f"numbers as they are written in {tag}",
            "words": ["run", "--no-isolating", "--locale", tag, "numbers.ftl"],
            "files": {"numbers.ftl": source()},
            "stdin": "".join(f"{name}\tn={number}\n" for name, _, number in MESSAGES),
            "status": 0,
            "stdout": "".join(f"ok {len(answer.encode())} 0\n{answer}\n" for answer in answers),
            "stderr": "",
        }, ensure_ascii=False))


main()
