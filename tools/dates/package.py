#!/usr/bin/env python3
"""Holds the package for Python against `Intl` of `node`: package.py TAGS COUNT SEED

TAGS is a regular expression on tags, and COUNT how many option sets are asked in each. Half of the sets are those of a message,
as `{ DATETIME($date, month: "long") }`, and half those of the program, by `fluent_date`. The package is that of
`bindings/python`, whose library has to be built. Prints how many texts differ, and some of them.
"""
import collections
import datetime
import json
import random
import re
import sys

from check import ROOT, TAGS, ZONES, ask, components, styles

sys.path.insert(0, str(ROOT / "bindings/python"))
from kozhvadi import Bundle
from kozhvadi.runtime import fluent_date

UTC = datetime.timezone.utc
MOMENTS = [datetime.datetime(2026, 11, 28, 20, 26, 5, 123_000, UTC), datetime.datetime(1999, 1, 3, tzinfo=UTC),
           datetime.datetime(987, 7, 4, 9, 5, 59, 999_000, UTC), datetime.datetime(2024, 2, 29, 12, 30, 0, 50_000, UTC)]


def millis(moment):
    return (moment - datetime.datetime(1970, 1, 1, tzinfo=UTC)) // datetime.timedelta(milliseconds=1)


def call(options):
    """A message that shows a date by options."""
    named = "".join(f', {name}: {value if isinstance(value, int) else json.dumps(value)}' for name, value in options.items())
    return f"{{ DATETIME($date{named}) }}"


def main(pattern, count, seed):
    rnd, texts, bad = random.Random(seed), 0, collections.defaultdict(list)
    tags = [tag for tag in TAGS if re.fullmatch(pattern, tag)]
    named = [*styles(), {}]
    for tag in tags:
        sets = [rnd.choice(named) if rnd.random() < 0.3 else components(rnd) for _ in range(count)]
        zones = [rnd.choice([("UTC", 0), *ZONES]) for _ in sets]
        asked = [(tag, options, zone, [millis(each) for each in MOMENTS]) for options, (zone, _) in zip(sets, zones)]
        source = "".join(f"m{number} = {call(options)}\n" for number, options in enumerate(sets)) + "plain = { $date }\n"
        with Bundle(source, locale=tag, isolating=False) as bundle:
            for number, (options, (_, offset), theirs) in enumerate(zip(sets, zones, ask(asked))):
                for moment, expected in zip(MOMENTS, theirs):
                    date = moment.astimezone(datetime.timezone(datetime.timedelta(seconds=offset)))
                    if number % 2:
                        answer = bundle.format("plain", date=fluent_date(date, **options))
                    else:
                        answer = bundle.format(f"m{number}", date=date)
                    texts += 1
                    if answer != (expected, []):
                        bad[tag].append((json.dumps(options), str(date), answer, expected))
    print(f"{len(tags)} tags, {texts} texts: {sum(map(len, bad.values()))} differ, in {len(bad)} tags")
    for tag, found in bad.items():
        for each in found[:3]:
            print(" ", tag, len(found), *each, sep="  ")


if __name__ == "__main__":
    main(sys.argv[1], int(sys.argv[2]), int(sys.argv[3]))
