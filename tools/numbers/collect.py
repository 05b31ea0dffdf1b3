"""Collects what each locale writes numbers by into one readable file.

    collect.py ICU VERSION > numbers.json

ICU is the folder that unpack.py wrote. The file has, with inheritance resolved:

- `locales`: for each tag the name of its forms;
- `forms`: signs, digits and patterns, once for all locales that share them, named by the first of these;
- `currencies`: for each code its digits after the point, its symbol, the symbols that tags have for it, and the forms of its own
  that tags have for it.

A tag is in small letters with `-`. A row is left out if the longest other tag that the tag begins with says the same.
"""

import json
import sys

from locales import Locales

NOT_LOCALES = set(
    "numberingSystems supplementalData likelySubtags metaZones windowsZones zoneinfo64 timezoneTypes dayPeriods genderList "
    "keyTypeData metadata pluralRanges plurals grammaticalFeatures units icustd icuver currencyNumericCodes tzdbNames langInfo"
    .split()
)
# The tags that forms are named by before all others: the languages with the most readers.
KNOWN = (
    "und en de fr es it pt ru ja zh ar hi bn pa pl nl sv tr uk cs el he fa id ko th vi ro hu fi da nb bg hr sr sk sl lt lv et ca "
    "en-in en-za de-at de-ch fr-ch it-ch es-419 es-mx pt-pt ar-eg ar-sa mr ne my ur ta te gu kn ml sw af eu gl ga cy is mk sq hy "
    "ka az kk uz ky mn am km lo si ps ku ckb"
).split()


def tag_of(locale):
    return "und" if locale == "root" else locale.lower().replace("_", "-")


def pieces(text, currency_touches):
    """An affix as pieces. `currency_touches` is `before` or `after` if a currency next to the digits stands so."""
    found = []
    for char in text:
        found.append({"-": "minus", "%": "percent", "¤": "currency"}.get(char, char))
    if found and currency_touches == "before" and found[-1] == "currency":
        found[-1] = "currency before digits"
    if found and currency_touches == "after" and found[0] == "currency":
        found[0] = "currency after digits"
    return found


def parted(pattern):
    """A pattern's prefix, number and suffix."""
    at = [k for k, char in enumerate(pattern) if char in "#0,."]
    return pattern[: at[0]], pattern[at[0] : at[-1] + 1], pattern[at[-1] + 1 :]


def read_pattern(text):
    """Positive and negative affixes, and the sizes of groups."""
    assert "'" not in text, text
    positive, _, negative = text.partition(";")
    prefix, number, suffix = parted(positive)
    if negative:
        negative_prefix, _, negative_suffix = parted(negative)
    else:
        negative_prefix, negative_suffix = "-" + prefix, suffix
    groups = number.partition(".")[0].split(",")
    primary = len(groups[-1]) if len(groups) > 1 else 0
    secondary = len(groups[-2]) if len(groups) > 2 else primary
    return {
        "text": text,
        "prefix": pieces(prefix, "before"),
        "suffix": pieces(suffix, "after"),
        "negative_prefix": pieces(negative_prefix, "before"),
        "negative_suffix": pieces(negative_suffix, "after"),
        "primary": primary,
        "secondary": secondary,
    }


class Collector:
    def __init__(self, icu):
        self.all = Locales(icu)
        self.systems = self.all.main["numberingSystems"]["numberingSystems"]
        meta = self.all.curr["supplementalData"]
        self.digits = {code: row[0] for code, row in meta["CurrencyMeta"].items()}
        self.regions = meta["CurrencyMap"]
        self.names = ["root"] + [name for name in self.all.main.names() if name not in NOT_LOCALES and name not in ("root", "no_NO_NY")]
        self.money = {}

    def region_currency(self, locale):
        """The currency of a locale's region, today."""
        region = self.all.real(self.all.main, locale).split("_")
        region = next((part for part in region[1:] if len(part) in (2, 3) and part.isupper() or part.isdigit()), None)
        rows = self.regions.get(region)
        if not rows:
            return None
        rows = list(rows.values()) if isinstance(rows, dict) else rows
        for row in rows:
            if "to" not in row and row.get("tender") != "false":
                return row["id"]
        return None

    def forms(self, locale):
        found = self.all.forms(locale)
        symbols, patterns = found["symbols"], found["patterns"]
        decimal = symbols["currencyDecimal"] or symbols["decimal"]
        group = symbols["currencyGroup"] or symbols["group"]
        entry = self.all.currencies(locale).get(self.region_currency(locale) or "", [])
        money = patterns["currencyFormat"]
        if len(entry) > 2:
            # as ICU: what the currency of the region asks for holds for all currencies there
            money, decimal, group = entry[2]
        digits = self.systems[found["system"]]
        assert not digits["algorithmic"], found["system"]
        return {
            "digits": found["system"],
            "minus": symbols["minusSign"],
            "percent_sign": symbols["percentSign"],
            "least_grouped": int(found["grouping"] or 1),
            "number": [symbols["decimal"], symbols["group"], patterns["decimalFormat"]],
            "percent": [symbols["decimal"], symbols["group"], patterns["percentFormat"]],
            "currency": [decimal, group, money],
        }

    def collect(self, version):
        key = lambda value: json.dumps(value, ensure_ascii=False, sort_keys=True)
        every = {}
        symbols, own = {}, {}
        for name in self.names:
            tag = tag_of(name)
            every[tag] = self.forms(name)
            entries = self.all.currencies(name)
            symbols[tag] = {code: entry[0] for code, entry in entries.items()}
            own[tag] = {code: entry[2] for code, entry in entries.items() if len(entry) > 2}
        codes = sorted({code for table in symbols.values() for code in table})

        def parent(tag):
            while "-" in tag:
                tag = tag.rsplit("-", 1)[0]
                if tag in every:
                    return tag
            return None

        rows = {}
        currencies = {}
        for code in codes:
            currencies[code] = {"digits": self.digits.get(code, self.digits["DEFAULT"]), "symbol": symbols["und"].get(code, code), "symbols": {}, "own": {}}
        for tag in sorted(every):
            above = parent(tag)
            wanted = above is None or key(every[tag]) != key(every[above])
            for code in codes:
                mine = symbols[tag].get(code, code)
                theirs = symbols[above].get(code, code) if above else currencies[code]["symbol"]
                if mine != theirs:
                    currencies[code]["symbols"][tag] = mine
                    wanted = True
                mine = own[tag].get(code)
                mine = [mine[1], mine[2], mine[0]] if mine else every[tag]["currency"]
                theirs = own[above].get(code) if above else None
                theirs = [theirs[1], theirs[2], theirs[0]] if theirs else every[above]["currency"] if above else every[tag]["currency"]
                # a form of its own is kept if the tag has another one, or else would take that of a shorter tag
                hidden = above and own[above].get(code)
                if (own[tag].get(code) and mine != every[tag]["currency"] and mine != (theirs if hidden else None)) or (
                    hidden and mine != theirs
                ):
                    currencies[code]["own"][tag] = mine
                    wanted = True
            if wanted:
                rows[tag] = every[tag]
        names, forms, locales = {}, {}, {}
        for tag in sorted(rows, key=lambda tag: (KNOWN.index(tag) if tag in KNOWN else len(KNOWN), tag.count("-"), tag)):
            text = key(rows[tag])
            if text not in names:
                names[text] = tag
                forms[tag] = rows[tag]
        # a longer tag stands before one that it begins with
        for tag in sorted(rows, key=lambda tag: (tag.split("-")[0], [part for part in tag.split("-")] + ["~"])):
            locales[tag] = names[key(rows[tag])]
        locales["root"] = locales["und"]
        used = sorted({form["digits"] for form in forms.values()})
        texts = sorted({form[kind][2] for form in forms.values() for kind in ("number", "percent", "currency")}
                       | {form[2] for row in currencies.values() for form in row["own"].values()})
        return {
            "version": version,
            "locales": locales,
            "forms": forms,
            "digits": {system: self.systems[system]["desc"] for system in used},
            "patterns": {text: read_pattern(text) for text in texts},
            "currencies": {code: row for code, row in currencies.items()
                           if row["symbols"] or row["own"] or row["symbol"] != code or row["digits"] != self.digits["DEFAULT"]},
            "default_digits": self.digits["DEFAULT"],
        }


def main(icu, version):
    found = Collector(icu).collect(version)
    json.dump(found, sys.stdout, ensure_ascii=False, indent=1)
    print()


main(*sys.argv[1:])
