/* fluent_write_date, and the dates of fluent_dates.h. Texts are those of Intl in node 20, which has CLDR 48. */
#include <limits.h>
#include <stdio.h>
#include <string.h>

#include "tests.h"

#include "fluent.h"
#undef fluent_free_text
#undef fluent_bundle_free

#define NAMED(literal) .name = (const uint8_t *)(literal), .name_len = sizeof(literal) - 1
#define BARE(literal) .text = (const uint8_t *)(literal), .text_len = sizeof(literal) - 1
#define TEXT(literal) BARE(literal), .kind = FLUENT_TEXT
#define EVENING .year = 2026, .month = 11, .day = 28, .hour = 20, .minute = 26, .second = 5, .has_time = true

struct Row {
    const char *name;
    struct Bytes locale;
    struct FluentDate date;
    struct FluentArgument options[2];
    size_t count;
    uint32_t status;
    struct Bytes text;
};

static const struct Row ROWS[] = {
    {"no option", BYTES("en"), {EVENING}, {{0}}, 0, FLUENT_READ, BYTES("11/28/2026")},
    {"a style", BYTES("de"), {EVENING}, {{NAMED("dateStyle"), TEXT("long")}}, 1, FLUENT_READ, BYTES("28. November 2026")},
    {"two styles", BYTES("en"), {EVENING}, {{NAMED("dateStyle"), TEXT("full")}, {NAMED("timeStyle"), TEXT("short")}}, 2, FLUENT_READ,
     BYTES("Saturday, November 28, 2026 at 8:26 PM")},
    {"no time", BYTES("en"), {.year = 2024, .month = 2, .day = 29}, {{NAMED("dateStyle"), TEXT("medium")}, {NAMED("timeStyle"), TEXT("short")}},
     2, FLUENT_READ, BYTES("Feb 29, 2024")},
    {"an offset", BYTES("en"), {EVENING, .offset = -12600, .has_offset = true}, {{NAMED("timeStyle"), TEXT("long")}}, 1, FLUENT_READ,
     BYTES("8:26:05 PM GMT-3:30")},
    {"a number", BYTES("en"), {EVENING, .nanosecond = 123456789},
     {{NAMED("fractionalSecondDigits"), BARE(""), .integer = 2, .kind = FLUENT_INTEGER}, {NAMED("second"), TEXT("numeric")}}, 2, FLUENT_READ,
     BYTES("5.12")},
    {"a slip", BYTES("en"), {EVENING}, {{NAMED("month"), TEXT("big")}, {NAMED("year"), TEXT("numeric")}}, 2, FLUENT_READ, BYTES("2026")},
    {"two of one name", BYTES("en"), {EVENING}, {{NAMED("dateStyle"), TEXT("long")}, {NAMED("dateStyle"), TEXT("short")}}, 2, FLUENT_READ,
     BYTES("11/28/26")},
    {"a year before Christ", BYTES("en"), {.year = -43, .month = 3, .day = 15}, {{NAMED("year"), TEXT("numeric")}, {NAMED("era"), TEXT("short")}},
     2, FLUENT_READ, BYTES("44 BC")},
    {"a tag of POSIX", BYTES("pt_PT.UTF-8"), {EVENING}, {{0}}, 0, FLUENT_READ, BYTES("28/11/2026")},
    {"no tag", BYTES(""), {EVENING}, {{0}}, 0, FLUENT_UNKNOWN_LOCALE, {0}},
    {"an unknown language", BYTES("tlh"), {EVENING}, {{0}}, 0, FLUENT_UNKNOWN_LOCALE, {0}},
    {"no date", BYTES("en"), {.year = 2026, .month = 2, .day = 30}, {{0}}, 0, FLUENT_BAD_ARGUMENT, {0}},
    {"no month", BYTES("en"), {.year = 2026, .day = 1}, {{0}}, 0, FLUENT_BAD_ARGUMENT, {0}},
    {"no year", BYTES("en"), {.year = INT16_MIN, .month = 1, .day = 1}, {{0}}, 0, FLUENT_BAD_ARGUMENT, {0}},
    {"no time of day", BYTES("en"), {EVENING, .nanosecond = 1000000000}, {{0}}, 0, FLUENT_BAD_ARGUMENT, {0}},
    {"a time that isn't there", BYTES("en"), {.year = 2026, .month = 11, .day = 28, .hour = 99}, {{0}}, 0, FLUENT_READ, BYTES("11/28/2026")},
    {"no offset", BYTES("en"), {EVENING, .offset = INT32_MIN, .has_offset = true}, {{0}}, 0, FLUENT_BAD_ARGUMENT, {0}},
    {"an offset that isn't there", BYTES("en"), {EVENING, .offset = INT32_MIN}, {{0}}, 0, FLUENT_READ, BYTES("11/28/2026")},
    {"an unknown kind", BYTES("en"), {EVENING}, {{NAMED("month"), BARE(""), .kind = 99}}, 1, FLUENT_BAD_ARGUMENT, {0}},
    {"an option that is a date", BYTES("en"), {EVENING}, {{NAMED("month"), BARE("2026-11-28"), .kind = FLUENT_DATETIME}}, 1, FLUENT_READ,
     BYTES("11/28/2026")},
    {"an option that is no date", BYTES("en"), {EVENING}, {{NAMED("month"), BARE("long"), .kind = FLUENT_DATETIME}}, 1, FLUENT_BAD_ARGUMENT, {0}},
    {"an option that isn't UTF-8", BYTES("en"), {EVENING}, {{NAMED("month"), TEXT("\xff")}}, 1, FLUENT_NOT_UTF8, {0}},
};

static uint32_t write(const struct Row *row, struct FluentText *made) {
    return fluent_write_date(row->locale.at, row->locale.len, &row->date, row->options, row->count, made);
}

/* Each integer of each field is answered or refused. */
static void try_integers(struct Tally *tally) {
    struct FluentText made = {0};
    const struct FluentDate first = {EVENING, .offset = 3600, .has_offset = true};
    bool is_right = true;
    for (long number = 0; number < 65536; number++) {
        struct FluentDate each[] = {first, first, first, first, first, first};
        uint32_t taken[6];
        each[0].year = (int16_t)(number - 32768);
        each[1].month = each[2].day = each[3].hour = each[4].minute = each[5].second = (uint8_t)number;
        for (int place = 0; place < 6; place++)
            taken[place] = fluent_date_text("en", &each[place], NULL, 0, &made);
        uint8_t byte = (uint8_t)number;
        const bool is[] = {number >= 32768 - 9999 && number <= 32768 + 9999, byte >= 1 && byte <= 12, byte >= 1 && byte <= 30, byte < 24, byte < 60, byte < 60};
        for (int place = 0; place < 6; place++)
            is_right &= taken[place] == (is[place] ? FLUENT_READ : FLUENT_BAD_ARGUMENT);
    }
    for (int bit = 0; bit < 32; bit++) {
        struct FluentDate each[] = {first, first};
        each[0].offset = (int32_t)(1U << bit);
        each[1].nanosecond = 1U << bit;
        is_right &= fluent_date_text("en", &each[0], NULL, 0, &made) == (bit < 17 ? FLUENT_READ : FLUENT_BAD_ARGUMENT);
        is_right &= fluent_date_text("en", &each[1], NULL, 0, &made) == (bit < 30 ? FLUENT_READ : FLUENT_BAD_ARGUMENT);
    }
    fluent_free_text(&made);
    count_try(tally, "every integer", is_right);
}

static bool is_iso(struct FluentDate date, const char *expected) {
    char iso[FLUENT_ISO_ROOM];
    struct FluentDate again;
    bool is_same = strcmp(fluent_date_iso(&date, iso), expected) == 0;
    return is_same && (!*expected || (fluent_date_of_iso(iso, &again) && memcmp(&again.year, &date.year, 9) == 0 && again.offset == date.offset));
}

static void try_iso(struct Tally *tally) {
    static const char *const wrong[] = {"", "2026", "2026-1-01", "2026-11-28T", "2026-11-28T20", "2026-11-28T20:26:05.", "2026-11-28T20:26:05.1234567890",
                                        "2026-11-28T20:26+1:00", "2026-11-28T20:26+01:60", "2026-11-28x", "2026-11-28Z", " 2026-11-28"};
    struct tm tm = {.tm_year = 126, .tm_mon = 10, .tm_mday = 28, .tm_hour = 20, .tm_min = 26, .tm_sec = 60}, far = {.tm_year = INT_MAX, .tm_mon = INT_MAX};
    struct FluentDate date;
    count_try(tally, "a time of POSIX", is_iso(fluent_date_of_time(1795893965, 3600), "2026-11-28T20:26:05.000000000+01:00:00"));
    count_try(tally, "a time before 1970", is_iso(fluent_date_of_time(-1, -3600), "1969-12-31T22:59:59.000000000-01:00:00"));
    count_try(tally, "a leap day", is_iso(fluent_date_of_time(951782400, 0), "2000-02-29T00:00:00.000000000+00:00:00"));
    count_try(tally, "the first day", is_iso(fluent_date_of_time(-62167219200, 0), "0000-01-01T00:00:00.000000000+00:00:00"));
    count_try(tally, "a far time", is_iso(fluent_date_of_time((time_t)INT64_MAX, INT32_MAX), ""));
    count_try(tally, "another", is_iso(fluent_date_of_time((time_t)INT64_MIN, INT32_MIN), ""));
    count_try(tally, "a struct tm", is_iso(fluent_date_of_tm(&tm), "2026-11-28T20:26:59.000000000"));
    count_try(tally, "a far struct tm", is_iso(fluent_date_of_tm(&far), ""));
    count_try(tally, "a day", is_iso(fluent_date_of(2026, 11, 28), "2026-11-28"));
    for (size_t each = 0; each < sizeof wrong / sizeof *wrong; each++)
        count_try(tally, wrong[each], !fluent_date_of_iso(wrong[each], &date));
    count_try(tally, "a fraction", fluent_date_of_iso("2026-11-28 20:26:05,5Z", &date) && date.nanosecond == 500000000 && date.has_offset);
}

bool try_dates(void) {
    struct Tally tally = {.call = "fluent_write_date"};
    struct FluentText made = {0};
    for (size_t each = 0; each < sizeof ROWS / sizeof *ROWS; each++) {
        const struct Row *row = &ROWS[each];
        const struct FluentText before = made;
        const struct Bytes old = {before.bytes, before.len};
        bool is_right = write(row, &made) == row->status;
        count_try(&tally, row->name, is_right && (row->status == FLUENT_READ ? holds(&made, row->text) : is_same(&made, &before, old)));
    }
    fluent_free_text(&made);
    try_integers(&tally);
    try_iso(&tally);
    return print_tally(&tally);
}
