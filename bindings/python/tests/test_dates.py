"""Dates in messages. Texts are those of `Intl` in node 20, which has CLDR 48."""

import copy
import pickle
import unittest
from datetime import date, datetime, time, timedelta, timezone

from kozhvadi import Bundle
from kozhvadi.runtime import FluentBundle, FluentResource, fluent_date
from kozhvadi.runtime.types import FluentDate, FluentDateTime, FluentTime

SOURCE = """
plain = { $date }
long = { DATETIME($date, dateStyle: "long") }
full = { DATETIME($date, dateStyle: "full", timeStyle: "full") }
both = { DATETIME($date, dateStyle: "medium", timeStyle: "short") }
slip = { DATETIME($date, month: "big", year: "numeric", sytle: "long", fractionalSecondDigits: 7) }
digits = { DATETIME($date, second: "numeric", fractionalSecondDigits: 2) }
hours = { DATETIME($date, hour: "numeric", hour12: "false") }
two = { $date } { DATETIME($date, timeStyle: "short") }, { $end } { DATETIME($end, timeStyle: "short") }
text = { $date } { DATETIME($date, timeStyle: "short") }, { $text } { DATETIME($text) }
number = { $n } on { DATETIME($date, month: "short", day: "numeric") }
weekday = { DATETIME($date, weekday: "long") ->
    [Saturday] weekend
   *[other] work
}
chosen = { $date ->
    [x] X
   *[other] { $date }
}
nested = { NAME(DATETIME($date, month: "long")) }, { NAME($date) }
wrong = { DATETIME("2026-11-28") } { DATETIME(3) }
missing = { DATETIME($none) }
"""

BERLIN = timezone(timedelta(hours=1))
EVENING = datetime(2026, 11, 28, 20, 26, 5, 123000, BERLIN)


class Dates(unittest.TestCase):
    def bundle(self, locale="en", source=SOURCE, **options):
        bundle = Bundle(source, locale=locale, isolating=False, **options)
        self.addCleanup(bundle.close)
        return bundle

    def is_shown(self, locale, id, date, text):
        self.assertEqual(self.bundle(locale).format(id, date=date), (text, []))

    def test_locales(self):
        for locale, id, text in [
            ("en", "plain", "11/28/2026"),
            ("en", "long", "November 28, 2026"),
            ("en", "full", "Saturday, November 28, 2026 at 8:26:05 PM GMT+01:00"),
            ("en", "both", "Nov 28, 2026, 8:26 PM"),
            ("en", "slip", "2026"),
            ("en", "digits", "5.12"),
            ("en", "hours", "20"),
            ("de", "plain", "28.11.2026"),
            ("de", "long", "28. November 2026"),
            ("de", "full", "Samstag, 28. November 2026 um 20:26:05 GMT+01:00"),
            ("ja", "long", "2026年11月28日"),
            ("ar-EG", "plain", "٢٨\u200f/١١\u200f/٢٠٢٦"),
        ]:
            with self.subTest(locale=locale, id=id):
                self.is_shown(locale, id, EVENING, text)

    def test_what_a_value_lacks(self):
        self.is_shown("en", "both", date(2026, 11, 28), "Nov 28, 2026")
        self.is_shown("en", "full", EVENING.replace(tzinfo=None), "Saturday, November 28, 2026 at 8:26:05 PM")
        self.is_shown("en", "both", time(20, 26, 5), "8:26 PM")
        self.is_shown("en", "plain", time(20, 26, 5), "8:26:05 PM")
        self.is_shown("en", "full", time(20, 26, 5, tzinfo=BERLIN), "8:26:05 PM GMT+01:00")
        self.is_shown("en", "long", time(20, 26, 5), "8:26:05 PM")

    def test_without_a_known_locale(self):
        for options in ({"locale": None}, {"locale": "tlh"}, {"locale": "de", "numbers": False}):
            bundle = self.bundle(**options)
            self.assertEqual(bundle.format("plain", date=date(2026, 11, 28)), ("2026-11-28", []))
            self.assertEqual(bundle.format("long", date=date(2026, 11, 28)), ("2026-11-28", []))

    def test_two_of_one_text(self):
        bundle = self.bundle()
        shown = bundle.format("two", date=EVENING, end=datetime(2026, 11, 28, 8))
        self.assertEqual(shown, ("11/28/2026 8:26 PM, 11/28/2026 8:00 AM", []))
        text, errors = bundle.format("text", date=EVENING, text="11/28/2026")
        self.assertEqual(text, "11/28/2026 8:26 PM, 11/28/2026 {DATETIME()}")
        self.assertEqual([error.kind for error in errors], ["raised"])
        self.assertEqual(bundle.format("number", date=EVENING, n=1234.5).text, "1,234.5 on Nov 28")

    def test_selectors(self):
        self.is_shown("en", "weekday", EVENING, "weekend")
        self.is_shown("en", "weekday", datetime(2026, 11, 27), "work")
        self.is_shown("en", "chosen", EVENING, "11/28/2026")

    def test_options_of_the_program(self):
        bundle = self.bundle()
        day = fluent_date(EVENING, month="long", day="numeric")
        self.assertEqual(bundle.format("plain", date=day).text, "November 28")
        self.assertEqual(bundle.format("slip", date=day).text, "November 28, 2026")
        self.assertEqual(bundle.format("plain", date=fluent_date(EVENING, timeStyle="short", hour12=False)).text, "20:26")
        self.assertEqual(bundle.format("plain", date=fluent_date(EVENING, fractionalSecondDigits=3)).text, "123")
        in_tokyo = fluent_date(EVENING, dateStyle="short", timeStyle="short", timeZone="Asia/Tokyo")
        self.assertEqual(bundle.format("plain", date=in_tokyo).text, "11/29/26, 4:26 AM")
        in_utc = fluent_date(datetime(2026, 11, 28, 12), timeStyle="long", timeZone="UTC")
        self.assertEqual(bundle.format("plain", date=in_utc).text, "12:00:00 PM UTC")

    def test_values_with_options(self):
        day = fluent_date(EVENING, dateStyle="long")
        self.assertEqual(day, EVENING)
        self.assertIsInstance(day, FluentDateTime)
        self.assertIsInstance(fluent_date(EVENING.date()), FluentDate)
        self.assertIsInstance(fluent_date(EVENING.timetz()), FluentTime)
        self.assertEqual(fluent_date(day, timeStyle="short").options.dateStyle, "long")
        self.assertIsNone(fluent_date(None))
        self.assertIs(type(day.plain()), datetime)
        self.assertEqual((day + timedelta(1)).options.dateStyle, None)
        for copied in (pickle.loads(pickle.dumps(day)), copy.deepcopy(day), copy.copy(day)):
            self.assertEqual((copied, copied.options), (day, day.options))
        for wrong in ({"month": "big"}, {"fractionalSecondDigits": 4}, {"timeZone": "Middle/Earth"}):
            with self.assertRaises(ValueError):
                fluent_date(EVENING, **wrong)
        for value, options in ((EVENING, {"sytle": "long"}), (3, {}), ("2026-11-28", {})):
            with self.assertRaises(TypeError):
                fluent_date(value, **options)

    def test_errors(self):
        text, errors = self.bundle().format("wrong")
        self.assertEqual(text, "{DATETIME()} {DATETIME()}")
        self.assertEqual([(error.kind, error.id) for error in errors], [("raised", "DATETIME")] * 2)
        text, errors = self.bundle().format("missing")
        self.assertEqual((text, [str(error) for error in errors]), ("DATETIME()", ["Unknown variable: $none"]))

    def test_functions_of_the_program(self):
        bundle = self.bundle(functions={"NAME": lambda value: type(value).__name__})
        self.assertEqual(bundle.format("nested", date=EVENING).text, "FluentDateTime, datetime")
        self.assertEqual(bundle.format("long", date=EVENING).text, "November 28, 2026")
        own = self.bundle(functions={"DATETIME": lambda value, dateStyle="": f"{value:%d/%m} {dateStyle}"})
        self.assertEqual(own.format("long", date=EVENING).text, "28/11 long")
        self.assertEqual(own.format("plain", date=EVENING).text, "11/28/2026")

    def test_a_formatter_of_the_program(self):
        bundle = self.bundle(formatter=lambda value: f"<{value:%d.%m.}>")
        self.assertEqual(bundle.format("plain", date=EVENING).text, "<28.11.>")
        self.assertEqual(bundle.format("long", date=EVENING).text, "<28.11.>")

    def test_runtime(self):
        bundle = FluentBundle(["de-AT", "en"], use_isolating=False)
        bundle.add_resource(FluentResource(SOURCE))
        value = bundle.get_message("long").value
        self.assertEqual(bundle.format_pattern(value, {"date": EVENING}), ("28. November 2026", []))
        text, errors = bundle.format_pattern(bundle.get_message("wrong").value)
        self.assertEqual([type(error) for error in errors], [TypeError, TypeError])

    def test_places_of_errors(self):
        bundle = self.bundle(source='a = { DATETIME($d) }\nb = { DATETIME($d) } {\nc = C\n')
        self.assertEqual([error.line for error in bundle.errors], [3])


if __name__ == "__main__":
    unittest.main()
