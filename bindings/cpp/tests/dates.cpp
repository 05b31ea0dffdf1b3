// Dates as arguments. Texts are those of Intl in node 20, which has CLDR 48.
#include <chrono>

#include "check.hpp"
#include "fluent.hpp"
#include "tests.hpp"

namespace {

constexpr std::string_view dates_source =
    "plain = { $date }\n"
    "long = { DATETIME($date, dateStyle: \"long\") }\n"
    "full = { DATETIME($date, dateStyle: \"full\", timeStyle: \"full\") }\n"
    "slip = { DATETIME($date, month: \"big\", year: \"numeric\") }\n"
    "digits = { DATETIME($date, second: \"numeric\", fractionalSecondDigits: 2) }\n"
    "two = { DATETIME($date, timeStyle: \"short\") }, { DATETIME($end, timeStyle: \"short\") }, { $end }\n"
    "wrong = { DATETIME(\"2026-11-28\") } { DATETIME(3) }\n"
    "own = { NAME($date) }\n";

fluent::settings plain(std::string_view locale) { return fluent::settings(locale).with_isolating(false); }

void locales_write_dates() {
    const auto evening = fluent::date(2026, 11, 28).at(20, 26, 5, 123000000).on(std::chrono::hours(1));
    const fluent::bundle english(dates_source, plain("en")), german(dates_source, plain("de"));
    SAME(english.format("plain", {{"date", evening}}), "11/28/2026");
    SAME(english.format("long", {{"date", evening}}), "November 28, 2026");
    SAME(english.format("full", {{"date", evening}}), "Saturday, November 28, 2026 at 8:26:05 PM GMT+01:00");
    SAME(english.format("slip", {{"date", evening}}), "2026");
    SAME(english.format("slip", {{"date", evening.with("month", "short")}}), "Nov 2026");
    SAME(english.format("digits", {{"date", evening}}), "5.12");
    SAME(english.format("two", {{"date", evening}, {"end", evening.at(8, 0)}}), "8:26 PM, 8:00 AM, 11/28/2026");
    SAME(german.format("plain", {{"date", evening}}), "28.11.2026");
    SAME(german.format("full", {{"date", evening}}), "Samstag, 28. November 2026 um 20:26:05 GMT+01:00");
    SAME(german.format("plain", {{"date", evening.with("month", "long").with("sytle", "x")}}), "November");
    const auto wrong = english.try_format("wrong");
    SAME(wrong->text, "DATETIME() DATETIME()");
    SAME(wrong->errors.size(), std::size_t{2});
    SAME(wrong->errors.front(), "DATETIME(): the argument is no date");
}

void plain_dates() {
    const fluent::date day(2026, 11, 28);
    const fluent::bundle unknown(dates_source, plain("tlh"));
    SAME(unknown.format("plain", {{"date", day}}), "2026-11-28");
    SAME(unknown.format("long", {{"date", day.at(20, 26).on(std::chrono::seconds(-12600))}}), "2026-11-28T20:26:00-03:30");
    THROWS(bad_argument, unknown.format("plain", {{"date", fluent::date(2026, 2, 30)}}));
    THROWS(bad_argument, fluent::bundle(dates_source, "en").format("plain", {{"date", fluent::date(70000, 300, 0)}}));
}

void functions_get_dates() {
    const fluent::functions own{{"NAME", [](const fluent::call &call) { return call.at(std::size_t{0}).date()->iso(); }}};
    const fluent::bundle bundle(dates_source, plain("en"), own);
    SAME(bundle.format("own", {{"date", fluent::date(2026, 11, 28)}}), "2026-11-28");
    const fluent::functions other{{"DATETIME", [](const fluent::call &) { return "a day"; }}};
    SAME(fluent::bundle(dates_source, plain("en"), other).format("long", {{"date", fluent::date(2026, 11, 28)}}), "a day");
}

void times_of_the_system() {
    using namespace std::chrono;
    const system_clock::time_point evening{seconds(1795893965)};
    SAME(fluent::date(evening, hours(1)).iso(), "2026-11-28T20:26:05+01:00");
    SAME(fluent::date(evening).iso(), "2026-11-28T19:26:05Z");
    SAME(fluent::date(system_clock::time_point(milliseconds(-1))).iso(), "1969-12-31T23:59:59.999000000Z");
    SAME(fluent::date(system_clock::time_point(seconds(951782400))).iso(), "2000-02-29T00:00:00Z");
    THROWS(bad_argument, fluent::bundle(dates_source, "en").format("plain", {{"date", fluent::date(evening, hours(24))}}));
}

} // namespace

void test_dates() {
    locales_write_dates();
    plain_dates();
    functions_get_dates();
    times_of_the_system();
}
