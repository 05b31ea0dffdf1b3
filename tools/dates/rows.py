#!/usr/bin/env python3
"""Prints rows of dates as `Intl` of `node` writes them: two for each tag that `Intl` has.

A row is an ISO text, a tag with options, and the text: `2026-11-28T20:26:05Z|de dateStyle=long|28. November 2026`. The first row
of a tag has styles and the second components. All sets of styles are among them, and 300 random sets of components; each row has
a moment of its own, and some have another offset than that of UTC. Tags of the four classes in which the definition differs from
`Intl` on purpose, which docs/reference/dates.md names, are left out.
"""
import random

import check
from check import TAGS, ZONES, Moment, components, millis, styles

CLASSES = {"gd", "gd-GB", "ksh", "ksh-DE", "sc", "sc-IT", "de-CH", "sr-Cyrl-ME", "tok", "tok-001", "zh-MY", "kok-IN", "ku-IQ", "ff-GH",
           "ff-GM", "ff-LR", "ff-SL"}


def iso(moment, offset):
    text = f"{moment.year:04}-{moment.month:02}-{moment.day:02}T{moment.hour:02}:{moment.minute:02}:{moment.second:02}"
    return text + (f".{moment.nano:09}" if moment.nano else "") + (f"{offset // 3600:+03}:00" if offset else "Z")


def moment_of(rnd):
    return Moment(rnd.choice([rnd.randint(1, 9998), rnd.randint(1950, 2050)]), rnd.randint(1, 12), rnd.randint(1, 28),
                  rnd.choice([0, 12, rnd.randint(0, 23)]), rnd.choice([0, rnd.randint(0, 59)]), rnd.randint(0, 59), rnd.randint(0, 999) * 1_000_000)


def main():
    rnd = random.Random(81)
    named = [*styles()]
    shown = [components(rnd) for _ in range(300)]
    asked = []
    for number, tag in enumerate(tag for tag in TAGS if tag not in CLASSES):
        for options in (named[number % len(named)], shown[number % len(shown)]):
            asked.append((tag, options, moment_of(rnd), rnd.choice([("UTC", 0), ("UTC", 0), *ZONES])))
    answers = check.ask([(tag, options, zone, [millis(moment, offset)]) for tag, options, moment, (zone, offset) in asked])
    for (tag, options, moment, (_, offset)), answer in zip(asked, answers, strict=True):
        words = ";".join(f"{name}{'#' if isinstance(value, int) else '='}{value}" for name, value in options.items())
        print(iso(moment, offset), f"{tag.lower()} {words}", answer[0], sep="|")


main()
