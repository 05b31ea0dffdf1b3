"""Collects what each locale writes dates and times by, with inheritance resolved, from ICU's resources.

    collect.py ICU TAGS > raw.json

ICU is the folder that tools/numbers/unpack.py wrote (from the program `node`), TAGS the list that tags.js wrote.
`raw.json` has one full entry for each locale; pack.py makes the small table from it.
"""
import json
import sys
from pathlib import Path

sys.path.insert(0, str(Path(__file__).resolve().parents[1] / "numbers"))
from locales import Locales
from resources import Alias, Folder

G = "calendar/gregorian"
STYLES = ("full", "long", "medium", "short")
PERIODS = ("midnight", "noon", "morning1", "afternoon1", "evening1", "night1", "morning2", "afternoon2", "evening2", "night2")
FIELD_NAMES = {"Era": "era", "Year": "year", "Month": "month", "Day-Of-Week": "weekday", "Day": "day", "Hour": "hour",
               "Minute": "minute", "Second": "second", "Timezone": "zone", "Dayperiod": "dayperiod"}


class Dates:
    def __init__(self, icu):
        self.all = Locales(icu)
        self.main = self.all.main
        self.zone = Folder(f"{icu}/zone")
        self.systems = self.main["numberingSystems"]["numberingSystems"]
        self.rules = self.main["dayPeriods"]
        self.time = self.main["supplementalData"]["timeData"]

    def get(self, locale, path):
        return self.all.get(self.main, locale, path)

    def merged(self, locale, path):
        """A table, key by key: [value, whether it comes from root]."""
        found = {}
        for bundle in self.all.chain(self.main, locale):
            value = bundle
            for part in path.split("/"):
                value = value.get(part, {}) if isinstance(value, dict) else value
            if isinstance(value, Alias):
                rest = self.merged(locale, value.split("/LOCALE/")[1])
                for key, item in rest.items():
                    found.setdefault(key, item)
                break
            for key, item in value.items():
                found.setdefault(key, [item, bundle is self.main["root"]])
        return found

    def names(self, locale, path):
        """A list of names or a table with the keys 0 and 1."""
        value = self.get(locale, path)
        if isinstance(value, dict):
            return [value[key] for key in sorted(value)]
        return value

    def period_rules(self, locale):
        """The rules of the longest locale that the name begins with: ICU cuts parts off here, and asks no parent."""
        table = self.rules["locales"]
        while locale:
            if locale in table:
                return self.rules["rules"][table[locale]] if table[locale] else None
            locale = locale.rsplit("_", 1)[0] if "_" in locale else ""
        return None

    def hours(self, rules):
        """For each hour its period, and whether the locale knows midnight and noon."""
        hours = [None] * 24
        for period, rule in rules.items():
            if "at" in rule:
                continue
            start, end = int(rule["from"].split(":")[0]), int(rule["before"].split(":")[0])
            at = start
            while at % 24 != end % 24 or at == start:
                hours[at % 24] = period
                at += 1
        return {"hours": hours, "midnight": "midnight" in rules, "noon": "noon" in rules}

    def entry(self, locale):
        system = self.get(locale, "NumberElements/default")
        names = {}
        for kind in ("month", "day"):
            for form in ("format", "stand-alone"):
                for width in ("wide", "abbreviated", "narrow"):
                    names[f"{kind} {form} {width}"] = self.names(locale, f"{G}/{kind}Names/{form}/{width}")
        for width in ("wide", "abbreviated", "narrow"):
            table = self.merged(locale, f"{G}/eras/{width}")
            names[f"era {width}"] = [table[key][0] for key in ("0", "1")]
        names["ampm"] = self.get(locale, f"{G}/AmPmMarkersAbbr")
        names["ampm wide"] = self.get(locale, f"{G}/AmPmMarkers")
        names["ampm narrow"] = self.get(locale, f"{G}/AmPmMarkersNarrow")
        rules = self.period_rules(locale)
        periods = {}
        if rules:
            for width in ("wide", "abbreviated", "narrow"):
                table = {k: v[0] for k, v in self.merged(locale, f"{G}/dayPeriod/format/{width}").items()}
                periods[width] = [table.get(p) for p in PERIODS]
        patterns = self.get(locale, f"{G}/DateTimePatterns")
        glue = self.get(locale, f"{G}/DateTimePatterns%atTime")
        formats = {k: v for k, v in self.merged(locale, f"{G}/availableFormats").items() if isinstance(v[0], str)}
        append = {k: v[0] for k, v in self.merged(locale, f"{G}/appendItems").items()}
        fields = {k: self.get(locale, f"fields/{v}/dn") for k, v in FIELD_NAMES.items()}
        decimal = self.all.symbol(locale, system, "decimal")
        zone = lambda path: self.all.get(self.zone, locale, f"zoneStrings/{path}")
        return {
            "digits": self.systems[system]["desc"], "system": system,
            "names": names, "rules": self.hours(rules) if rules else None, "periods": periods,
            "patterns": patterns, "glue": glue or patterns[9:13],
            "formats": formats, "append": append, "fields": fields, "decimal": decimal,
            "gmt": zone("gmtFormat"), "gmt0": zone("gmtZeroFormat"), "hour": zone("hourFormat"),
            "utc": [zone("Etc:UTC/ss"), zone("Etc:UTC/ls")],
        }


def main(icu, tags):
    dates = Dates(icu)
    out = {}
    for row in json.load(open(tags)):
        name, tag = row[0], row[1]
        if not tag or tag.startswith("ERR"):
            continue
        tag = name.replace("_", "-")  # old names such as `iw`, too
        entry = dates.entry(row[7])  # for a tag without a script whose data ICU has under one, such as `zh-MY`, that
        entry["hc"] = row[4]
        entry["intl_system"] = row[3]
        out[tag] = entry
    out["und"] = dates.entry("root")
    out["und"]["hc"] = "h23"
    json.dump(out, sys.stdout, ensure_ascii=False)


main(*sys.argv[1:])
