#!/usr/bin/env python3
"""Holds the definition against Intl for every set of date options and every set of time options: check_all.py TAG..

A date and a time are joined from the pattern of each (but for a handful of patterns for both), so these two are all that
options can ask for: 864 sets of date options and 11,088 of time options, with every hour cycle. Each at two moments.
"""
import itertools, json, sys, time
import check
from check import CHOICES, DATES, LOCALES, MOMENTS, dates, millis

once = lambda name: list(dict.fromkeys(CHOICES[name]))


def sets():
    for values in itertools.product(*(once(n) for n in DATES)):
        yield {n: v for n, v in zip(DATES, values) if v}
    names = ("dayPeriod", "hour", "minute", "second", "fractionalSecondDigits", "timeZoneName")
    for values in itertools.product(*(once(n) for n in names)):
        found = {n: v for n, v in zip(names, values) if v}
        for cycle in check.CYCLES if "hour" in found else [None]:
            yield {**found, **({"hourCycle": cycle} if cycle else {})}


def main(*tags):
    every = list(sets())
    moments = [MOMENTS[0], MOMENTS[2]]
    for tag in tags:
        start, locale = time.time(), LOCALES.locale(tag)
        answers = check.ask([(tag, options, "UTC", [millis(m) for m in moments]) for options in every])
        bad = [(o, mine, a) for o, a in zip(every, answers) for mine in [[dates.text(locale, o, m) for m in moments]] if mine != a]
        print(f"{tag}: {len(every)} option sets, {2 * len(every)} texts, {len(bad)} differ; {time.time() - start:.0f} s", flush=True)
        for row in bad[:5]:
            print("  ", row)


main(*sys.argv[1:])
