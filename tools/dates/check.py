#!/usr/bin/env python3
"""Holds the definition against `Intl` of `node`: check.py TAGS COUNT SEED [SHARD/OF]

TAGS is a regular expression on tags, COUNT how many option sets (all styles are among them). Each is asked at five moments in
UTC, and every fifth set with a zone's name also in zones with another offset. Prints the count of differences, and some of them.
"""
import json, random, re, subprocess, sys, collections, time
from pathlib import Path

HERE = Path(__file__).resolve().parent
ROOT = HERE.parents[1]
sys.path.insert(0, str(HERE.parent))
import definition as dates
from definition import Moment
from lib.cldr import data as data_of

DATA = data_of("dates")
LOCALES = dates.Locales(DATA / "dates.json")
TAGS = (DATA / "tags.txt").read_text().split()
MOMENTS = [Moment(2026, 11, 28, 20, 26, 5, 123_000_000), Moment(1999, 1, 3), Moment(-43, 3, 15, 12, 0, 0, 7_000_000),
           Moment(987, 7, 4, 9, 5, 59, 999_000_000), Moment(2024, 2, 29, 12, 30, 0, 50_000_000)]
CHOICES = {
    "weekday": [None, "narrow", "short", "long"], "era": [None, None, "narrow", "short", "long"], "year": [None, "numeric", "2-digit"],
    "month": [None, "narrow", "short", "long", "numeric", "2-digit"], "day": [None, "numeric", "2-digit"],
    "dayPeriod": [None, None, "narrow", "short", "long"], "hour": [None, "numeric", "2-digit"], "minute": [None, "numeric", "2-digit"],
    "second": [None, "numeric", "2-digit"], "fractionalSecondDigits": [None, None, 1, 2, 3],
    "timeZoneName": [None, None, None, "short", "long", "shortOffset", "longOffset", "shortGeneric", "longGeneric"],
    "hourCycle": [None, None, "h11", "h12", "h23", "h24"],
}
STYLES = [None, "full", "long", "medium", "short"]
CYCLES = [None, "h11", "h12", "h23", "h24"]
TIMES = ("dayPeriod", "hour", "minute", "second", "fractionalSecondDigits", "timeZoneName", "hourCycle")
DATES = ("weekday", "era", "year", "month", "day")


def styles():
    for date in STYLES:
        for time_ in STYLES:
            for cycle in CYCLES:
                if (date or time_) and (time_ or not cycle):
                    yield {k: v for k, v in (("dateStyle", date), ("timeStyle", time_), ("hourCycle", cycle)) if v}


def components(rnd):
    kind, found = rnd.random(), {}
    for name, values in CHOICES.items():
        value = rnd.choice(values)
        if not (value is None or kind < 0.35 and name in TIMES or 0.35 <= kind < 0.6 and name in DATES):
            found[name] = value
    return found


def days(y, m, d):
    y -= m <= 2
    era, yoe = y // 400, y % 400
    doy = (153 * (m + (-3 if m > 2 else 9)) + 2) // 5 + d - 1
    return era * 146097 + yoe * 365 + yoe // 4 - yoe // 100 + doy - 719468


def millis(m, offset=0):
    return (days(m.year, m.month, m.day) * 86400 + m.hour * 3600 + m.minute * 60 + m.second - offset) * 1000 + m.nano // 10**6


ZONES = [("Etc/GMT-5", 18000), ("Etc/GMT+11", -39600), ("Etc/GMT-14", 50400)]
PART_ZONES = [("Asia/Kathmandu", 20700, 1)]  # its offset today; for names by offset alone


def ask(queries):
    lines = "\n".join(json.dumps({"tag": tag, "options": options, "zone": zone, "times": times}) for tag, options, zone, times in queries)
    ran = subprocess.run(["nice", "-n", "10", "node", str(HERE / "intl.js")], input=lines, capture_output=True, text=True)
    return [json.loads(line) for line in ran.stdout.splitlines()]


def main(pattern, count, seed, shard="0/1"):
    rnd = random.Random(seed)
    shard, of = map(int, shard.split("/"))
    tags = [tag for k, tag in enumerate(t for t in TAGS if re.fullmatch(pattern, t)) if k % of == shard]
    sets = list(styles()) + [{}]
    while len(sets) < count:
        sets.append(components(rnd))
    queries, mine, start = [], [], time.time()
    for tag in tags:
        locale = LOCALES.locale(tag)
        for k, options in enumerate(sets):
            asked = [("UTC", 0, MOMENTS)]
            if (options.get("timeZoneName") or options.get("timeStyle") in ("full", "long")) and k % 5 == 0:
                asked += [(zone, offset, MOMENTS[:1]) for zone, offset in ZONES]
                if str(options.get("timeZoneName", "")).endswith("Offset"):
                    asked += [("Asia/Kathmandu", 20700, MOMENTS[:1]), ("Europe/Amsterdam", 1050, [Moment(1874, 5, 6, 7, 8, 9)])]
            for zone, offset, moments in asked:
                queries.append((tag, options, zone, [millis(m, offset) for m in moments]))
                mine.append((locale, options, [Moment(m.year, m.month, m.day, m.hour, m.minute, m.second, m.nano, offset) for m in moments]))
    answers = ask(queries)
    assert len(answers) == len(queries), (len(answers), len(queries))
    bad, kept, texts = collections.defaultdict(list), {}, 0
    for (tag, options, zone, _), (locale, _, moments), theirs in zip(queries, mine, answers):
        key = (id(locale), json.dumps(options), zone)
        if key not in kept:
            kept[key] = [dates.text(locale, options, moment) for moment in moments]
        texts += len(moments)
        if kept[key] != theirs:
            bad[tag].append((options, zone, next(((a, b) for a, b in zip(kept[key], theirs) if a != b), theirs) if isinstance(theirs, list) else theirs))
    print(f"{len(tags)} tags x {len(sets)} option sets: {len(queries)} formats, {texts} texts; {sum(map(len, bad.values()))} formats differ, in {len(bad)} tags; {time.time() - start:.0f} s")
    for tag, found in sorted(bad.items(), key=lambda item: -len(item[1]))[:25]:
        for options, zone, pair in found[:2]:
            print("  ", tag, len(found), json.dumps(options), zone, pair)


if __name__ == "__main__":
    main(sys.argv[1], int(sys.argv[2]), int(sys.argv[3]), *sys.argv[4:])
