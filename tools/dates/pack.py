"""Packs what collect.py found into one readable file without repetition: pack.py raw.json > dates.json

- `texts`: every text once: patterns, and lists of names with `|` between them;
- `skeletons`: the fields that patterns are found by, in ICU's order; `!` before one whose pattern was given for these very fields;
- `lists`: what patterns a locale has: pairs of a skeleton and a text, once for all locales that have the same;
- `rows`: what a locale writes dates by: numbers of texts and lists, once for all locales that write alike;
- `tags`: for each tag its row. A tag is left out if the longest other tag that it begins with has the same row.
"""
import json
import sys
from pathlib import Path

from definition import FIELDS, LETTERS, fields_in, items_of, measure

PERIODS = ("midnight", "noon", "morning1", "afternoon1", "evening1", "night1", "morning2", "afternoon2", "evening2", "night2")
APPENDS = ("Era", "Year", "Month", "Day-Of-Week", "Day", "Hour", "Minute", "Second", "Timezone")
NAMES = [f"{k} {f} {w}" for k in ("month", "day") for f in ("format", "stand-alone") for w in ("abbreviated", "wide", "narrow")]
NAMES += [f"era {w}" for w in ("abbreviated", "wide", "narrow")] + ["ampm", "ampm wide", "ampm narrow"]
JAPANESE = ("ja", "ja-JP")


CANONICAL = ("G", "y", "M", "E", "d", "a", "H", "m", "s", "S", "v")


class Known:
    """A pattern that the locale has, with the fields that it is found by."""

    def __init__(self, fields, pattern, given, base):
        self.fields, self.pattern, self.given, self.base = fields, pattern, given, base
        self.kinds = {field: measure(*item) for field, item in fields.items()}


def base_of(fields):
    """The fields with the least count of letters of their kind, as ICU's table has them."""
    least = []
    for field in FIELDS:
        if field in fields:
            letter, count = fields[field]
            least.append((letter, 1 if count <= LETTERS[letter][2] or measure(letter, count) == measure(letter, 1) else 3 if count == 3 else count))
    return tuple(least)


def known_patterns(locale):
    """All patterns of a locale, in the order in which ICU looks at them."""
    known = []

    def add(fields, pattern, given, override):
        base = base_of(fields)
        same_base = [k for k in known if k.base == base]
        if same_base and (not same_base[0].given or (given and not override)):
            if not override:
                return
        for k in known:
            if k.kinds == {field: measure(*item) for field, item in fields.items()}:
                if not override or (given and k.given):
                    return
                if k.base == base:
                    k.pattern, k.given, k.fields = pattern, given, (fields if given else k.fields)
                    return
                break
        known.append(Known(fields, pattern, given, base))

    for letter in CANONICAL:
        add(fields_in([(letter, 1)]), letter, False, False)
    times, dates = locale["patterns"][0:4], locale["patterns"][4:8]
    for k in range(4):
        for pattern in (dates[k], times[k]):
            pattern = pattern if isinstance(pattern, str) else pattern[0]
            add(fields_in(items_of(pattern)), pattern, False, False)
    # a locale's own stand before those of its parents, each by name
    for key, (pattern, is_root) in locale["formats"].items():
        if not set(key) & set("QwW"):
            add(fields_in(items_of(key)), pattern, True, True)
    known.sort(key=lambda k: order_of(k.base[0][0]))
    return known


def order_of(letter):
    return (0, letter) if letter.isupper() else (1, letter)


def skeleton(fields):
    return "".join(letter * count for field in FIELDS if field in fields for letter, count in [fields[field]])


def written(out):
    """The data as JSON, a row a line."""
    line = lambda value: json.dumps(value, ensure_ascii=False, separators=(",", ":"))
    lists = [f'"{key}":[\n' + ",\n".join(map(line, out[key])) + "],\n" for key in ("texts", "skeletons", "lists", "rows")]
    tags = ",\n".join(f"{line(tag)}:{row}" for tag, row in out["tags"].items())
    return f'{{"version":{line(out["version"])},\n' + "".join(lists) + f'"tags":{{\n{tags}}}}}\n'


def main(raw):
    raw = json.load(open(raw))
    # CLDR 48 has the year of the week in a few patterns of gd, ksh, sc and de-CH, by mistake: on 1 January 2027 Intl writes 2026
    # there. Here it is the year.
    for e in raw.values():
        e["formats"] = {key: [pattern.replace("Y", "y"), is_root] for key, (pattern, is_root) in e["formats"].items()}
    texts, numbers = [], {}
    def text(value):
        # the engines of ECMA-402 write U+202F as a space in dates
        value = value.replace("\u202f", " ")
        if value not in numbers:
            numbers[value] = len(texts)
            texts.append(value)
        return numbers[value]
    def joined(values):
        assert not any("|" in (v or "") for v in values), values
        return text("|".join(v or "" for v in values))
    def form(value):
        """`{1} 'at' {0}` as `1 'at' 0`."""
        assert not any(c.isdigit() for c in value.replace("{0}", "").replace("{1}", "").replace("{2}", "")), value
        return text(value.replace("{0}", "0").replace("{1}", "1").replace("{2}", "2"))
    known = {}
    for tag, e in raw.items():
        key = json.dumps([e["formats"], e["patterns"]], sort_keys=True)
        if key not in known:
            known[key] = known_patterns(e)
        e["known"] = known[key]
    columns = sorted({(k.base[0][0], "!" if k.given else "", skeleton(k.fields)) for v in known.values() for k in v}, key=lambda c: (order_of(c[0]), c[1] == "!", c[2]))
    column = {(c[1], c[2]): n for n, c in enumerate(columns)}
    lists, list_numbers, rows, row_numbers, tags = [], {}, [], {}, {}
    def a_list(entries):
        entries = tuple(entries)
        if entries not in list_numbers:
            list_numbers[entries] = len(lists)
            lists.append(entries)
        return list_numbers[entries]
    text("")
    for tag in sorted(raw, key=lambda t: (t != "und", t.count("-"), t)):
        e = raw[tag]
        pairs = [(column["!" if k.given else "", skeleton(k.fields)], text(k.pattern)) for k in e["known"]]
        is_date = lambda n: not set(columns[n][2]) & set("hHkKmsSvzZaBO")
        patterns = [p if isinstance(p, str) else p[0].replace("M", "r") for p in e["patterns"][:8]]
        usual = e["periods"].get("abbreviated")
        used = set(e["rules"]["hours"]) | ({"noon"} if e["rules"]["noon"] else set()) if e["rules"] else set()
        periods = {w: [(n or o) if p in used else "" for p, n, o in zip(PERIODS, e["periods"][w], usual)] if e["rules"] else [] for w in ("abbreviated", "wide", "narrow")}
        if not any(any(v) for v in periods.values()):
            periods = {w: [] for w in periods}
            hours = ""
        else:
            hours = "".join(str(PERIODS.index(p)) if p in PERIODS else "-" for p in e["rules"]["hours"]) + ("1" if e["rules"]["noon"] else "")
        plus, minus = e["hour"].split(";")
        at, end = plus.index("H"), plus.rindex("m") + 1
        colon = plus[plus.rindex("H") + 1 : plus.index("m")]
        m_at, m_end = minus.index("H"), minus.rindex("m") + 1
        row = {
            "digits": e["digits"], "decimal": text(e["decimal"]), "cycle": e["hc"], "twelve": "h11" if tag in JAPANESE else "h12",
            "times": [text(p) for p in patterns[:4]], "dates": [text(p) for p in patterns[4:]], "glue": [form(p) for p in e["glue"]],
            "date_patterns": a_list(p for p in pairs if is_date(p[0])), "time_patterns": a_list(p for p in pairs if not is_date(p[0])),
            "append": [form(e["append"][a]) for a in APPENDS], "fields": joined([e["fields"][a] for a in ("Month", "Day", "Hour", "Minute", "Second", "Dayperiod")]),
            "names": [joined(e["names"][n]) for n in NAMES],
            "hours": text(hours), "periods": [joined(periods[w]) for w in ("abbreviated", "wide", "narrow")],
            "gmt": joined([*e["gmt"].split("{0}"), plus[:at], plus[end:], minus[:m_at], minus[m_end:], colon]), "utc": joined(e["utc"]),
        }
        key = json.dumps(row, sort_keys=True)
        if key not in row_numbers:
            row_numbers[key] = len(rows)
            rows.append(row)
        e["row"] = row_numbers[key]
    for tag in raw:
        low = tag.lower()
        parts = low.split("-")
        above = next(("-".join(parts[:k]) for k in range(len(parts) - 1, 0, -1) if any(t.lower() == "-".join(parts[:k]) for t in (tag.rsplit("-", j)[0] for j in range(1, len(parts))) if t in raw)), None)
        up = next((t for t in raw if t.lower() == above), None) if above else None
        if up is None or raw[up]["row"] != raw[tag]["row"]:
            tags[low] = raw[tag]["row"]
    out = {"version": "48", "texts": texts, "skeletons": [c[1] + c[2] for c in columns], "lists": lists, "rows": rows,
           "tags": {t: tags[t] for t in sorted(tags, key=lambda t: t.split("-") + ["~"])}}
    print(written(out), end="")
    pool = sum(len(t.encode()) for t in texts)
    print(f"texts {len(texts)} ({pool} bytes), skeletons {len(columns)}, lists {len(lists)} ({sum(map(len, lists))} pairs), rows {len(rows)}, tags {len(tags)}", file=sys.stderr)


main(*sys.argv[1:])
