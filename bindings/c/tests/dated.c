/* Arguments of the kind FLUENT_DATETIME, and DATETIME in bundles. Texts are those of Intl in node 20, which has CLDR 48. */
#include <stdio.h>
#include <stdlib.h>
#include <string.h>

#include "tests.h"

#include "fluent.h"
#undef fluent_free_text
#undef fluent_bundle_free

struct Row {
    const char *name, *locale, *id, *date, *text, *errors;
};

static const char SOURCE[] =
    "shown = { $d }\n"
    "long = { DATETIME($d, dateStyle: \"long\") }\n"
    "both = { DATETIME($d, dateStyle: \"long\", timeStyle: \"long\") }\n"
    "twice = { DATETIME(DATETIME($d, dateStyle: \"short\"), timeStyle: \"short\") }\n"
    "slip = { DATETIME($d, month: \"big\", year: \"numeric\") }\n"
    "chosen = { $d ->\n    [28] a number\n   *[other] { $d }\n}\n"
    "text = { DATETIME(\"2026-11-28\") }\n"
    "missing = { DATETIME($x) }\n"
    "number = { NUMBER($d) }\n"
    "own = { F($d) } { DATETIME($d, dateStyle: \"long\") }\n";

static const struct Row ROWS[] = {
    {"a day", "de", "shown", "2026-11-28", "28.11.2026", ""},
    {"a day in English", "en", "shown", "2026-11-28T20:15", "11/28/2026", ""},
    {"no locale", "", "shown", "2026-11-28 20:15:05,5z", "2026-11-28T20:15:05.500000000Z", ""},
    {"an unknown language", "tlh", "shown", "2026-11-28", "2026-11-28", ""},
    {"a style", "de", "long", "2026-11-28", "28. November 2026", ""},
    {"a style without a locale", "", "long", "2026-11-28", "2026-11-28", ""},
    {"a style in Arabic", "ar-EG", "long", "2026-11-28", "\xd9\xa2\xd9\xa8 \xd9\x86\xd9\x88\xd9\x81\xd9\x85\xd8\xa8\xd8\xb1 \xd9\xa2\xd9\xa0\xd9\xa2\xd9\xa6", ""},
    {"two styles", "en", "both", "2026-11-28T20:15:05.123+01:00", "November 28, 2026 at 8:15:05 PM GMT+1", ""},
    {"two styles without a time", "en", "both", "2026-11-28", "November 28, 2026", ""},
    {"options of two calls", "de", "twice", "2026-11-28T20:15:05", "28.11.26, 20:15", ""},
    {"a slip", "de", "slip", "2026-11-28", "2026", ""},
    {"a selector", "de", "chosen", "2026-11-28", "28.11.2026", ""},
    {"a text", "de", "text", "2026-11-28", "DATETIME()", ""},
    {"no argument", "de", "missing", "2026-11-28", "DATETIME()", "Unknown variable: $x\n"},
    {"no number", "de", "number", "2026-11-28", "NUMBER()", ""},
    {"an unknown function", "de", "own", "2026-11-28", "{F()} 28. November 2026", "Unknown function: F()\n"},
};

/* Texts that are no dates. */
static const char *const WRONG[] = {
    "", "tomorrow", "2026", "2026-11", "2026-11-31", "2026-02-29", "2026-13-01", "26-11-28", "-0043-03-15", "20261128", "2026-1-01",
    "2026-11-28T", "2026-11-28T24:00", "2026-11-28T20", "2026-11-28T20:15:60", "2026-11-28T20:15:05.", "2026-11-28T20:15:05.1234567890",
    "2026-11-28T20:15+24:00", "2026-11-28T20:15+01", "2026-11-28T20:15+01:00:60", "2026-11-28Z", " 2026-11-28", "2026-11-28 ", "2026-11-28T20:15Zx",
};

static struct FluentArgument dated(const char *name, const char *text) {
    struct FluentArgument argument = fluent_text_argument(name, text);
    argument.kind = FLUENT_DATETIME;
    return argument;
}

static bool makes(struct FluentBundle *bundle, const char *source, const char *locale, const char *function) {
    struct FluentBundleOptions options = fluent_bundle_options(locale);
    const struct FluentSource names = {fluent_bytes(function), fluent_len(function)};
    options.isolating = false;
    return fluent_bundle_calling(source, &options, &names, *function != 0, bundle) == FLUENT_READ;
}

static bool says(const struct FluentText *text, const char *expected) {
    const struct Bytes bytes = {fluent_bytes(expected), strlen(expected)};
    return *expected ? holds(text, bytes) : !text->held;
}

static bool gives(struct FluentBundle *bundle, const struct Row *row) {
    const struct FluentArgument date = dated("d", row->date);
    struct FluentText text = {0}, errors = {0}, call = {0};
    bool is_right = fluent_format(bundle, row->id, NULL, &date, 1, &text, &errors) == FLUENT_READ && says(&text, row->text)
        && says(&errors, row->errors);
    is_right &= fluent_call(bundle, row->id, NULL, &date, 1, NULL, 0, &text, &errors, &call) == FLUENT_READ && says(&text, row->text)
        && says(&errors, row->errors) && !call.held;
    fluent_free_text(&text);
    fluent_free_text(&errors);
    return is_right;
}

static void try_wrong(struct Tally *tally, struct FluentBundle *bundle) {
    struct FluentText text = {0};
    for (size_t each = 0; each < sizeof WRONG / sizeof *WRONG; each++) {
        const struct FluentArgument date = dated("d", WRONG[each]);
        bool is_refused = fluent_format(bundle, "shown", NULL, &date, 1, &text, NULL) == FLUENT_BAD_ARGUMENT;
        count_try(tally, WRONG[each], is_refused && !text.held && fluent_bad_argument(bundle, &date, 1) == 0);
    }
}

/* Each integer of each field is answered or refused, and so is each byte in the place of one of a date. */
static void try_integers_of(struct Tally *tally, struct FluentBundle *bundle) {
    static const struct FluentDate first = {
        .year = 2026, .month = 11, .day = 28, .hour = 20, .minute = 26, .second = 5, .has_time = true, .offset = 3600, .has_offset = true};
    char iso[FLUENT_ISO_ROOM], date[] = "2026-11-28T20:26:05.5+01:00";
    struct FluentText text = {0};
    bool is_right = true;
    for (long number = 0; number < 65536; number++) {
        struct FluentDate each[] = {first, first, first, first, first, first};
        uint8_t byte = (uint8_t)number;
        const bool is[] = {number >= 32768 && number <= 32768 + 9999, byte >= 1 && byte <= 12, byte >= 1 && byte <= 30, byte < 24, byte < 60, byte < 60};
        each[0].year = (int16_t)(number - 32768);
        each[1].month = each[2].day = each[3].hour = each[4].minute = each[5].second = byte;
        for (int place = number < 256 ? 5 : 0; place >= 0; place--) {
            const struct FluentArgument argument = fluent_date_argument("d", &each[place], iso);
            is_right &= fluent_format(bundle, "both", NULL, &argument, 1, &text, NULL) == (is[place] ? FLUENT_READ : FLUENT_BAD_ARGUMENT);
        }
    }
    for (int bit = 0; bit < 32; bit++) {
        struct FluentDate each[] = {first, first};
        each[0].offset = (int32_t)(1U << bit);
        each[1].nanosecond = 1U << bit;
        for (int place = 0; place < 2; place++) {
            const struct FluentArgument argument = fluent_date_argument("d", &each[place], iso);
            bool is = bit < (place ? 30 : 17);
            is_right &= fluent_format(bundle, "both", NULL, &argument, 1, &text, NULL) == (is ? FLUENT_READ : FLUENT_BAD_ARGUMENT);
        }
    }
    count_try(tally, "every integer", is_right);
    for (size_t at = 0; at < sizeof date - 1; at++)
        for (int byte = 1; byte < 128; byte++) {
            char before = date[at];
            uint32_t status;
            date[at] = (char)byte;
            const struct FluentArgument argument = dated("d", date);
            status = fluent_format(bundle, "both", NULL, &argument, 1, &text, NULL);
            is_right &= status == FLUENT_BAD_ARGUMENT || status == FLUENT_READ;
            date[at] = before;
        }
    count_try(tally, "every byte", is_right);
    fluent_free_text(&text);
}

/* Each kind is answered or refused, whatever the integers beside it are. The text is a date and no number. */
static void try_kinds(struct Tally *tally, struct FluentBundle *bundle) {
    static const uint32_t far[] = {65536, 65542, INT32_MAX, (uint32_t)INT32_MIN, (uint32_t)INT32_MIN + FLUENT_DATETIME, UINT32_MAX};
    static const int64_t integers[] = {INT64_MIN, -1, 0, 1, INT64_MAX};
    struct FluentArgument argument = dated("d", "2026-11-28");
    struct FluentText text = {0};
    bool is_right = true;
    for (size_t each = 0; each < 65536 + sizeof far / sizeof *far; each++)
        for (size_t at = 0; at < (each < 8 ? sizeof integers / sizeof *integers : 1); at++) {
            argument.kind = each < 65536 ? (uint32_t)each : far[each - 65536];
            argument.integer = integers[at];
            argument.unsigned_integer = (uint64_t)integers[at];
            bool is_taken = argument.kind <= FLUENT_DATETIME && argument.kind != FLUENT_DECIMAL && argument.kind != FLUENT_FLOAT;
            is_right &= fluent_format(bundle, "shown", NULL, &argument, 1, &text, NULL) == (is_taken ? FLUENT_READ : FLUENT_BAD_ARGUMENT);
        }
    count_try(tally, "every kind", is_right);
    fluent_free_text(&text);
}

/* Each beginning of a text is answered or refused, and nothing past its end is read. So is no text. */
static void try_lengths(struct Tally *tally, struct FluentBundle *bundle) {
    static const char whole[] = "2026-11-28T20:26:05.123456789+01:00:30";
    struct FluentArgument argument = dated("d", NULL);
    struct FluentText text = {0};
    bool is_right = fluent_format(bundle, "both", NULL, &argument, 1, &text, NULL) == FLUENT_BAD_ARGUMENT;
    for (size_t len = 0; len < sizeof whole; len++) {
        uint8_t *only = malloc(len ? len : 1);
        bool is_date = len == 10 || len == 16 || len == 19 || (len > 20 && len < 30) || len == 35 || len == 38;
        if (!only)
            break;
        memcpy(only, whole, len);
        argument.text = only;
        argument.text_len = len;
        is_right &= fluent_format(bundle, "both", NULL, &argument, 1, &text, NULL) == (is_date ? FLUENT_READ : FLUENT_BAD_ARGUMENT);
        free(only);
    }
    count_try(tally, "every length", is_right);
    fluent_free_text(&text);
}

/* A function of the program gets a date and gives one, and may take the place of DATETIME. */
static void try_own(struct Tally *tally) {
    static const char source[] = "long = { DATETIME($d, dateStyle: \"long\") }\nown = { F($d) } { DATETIME($d, dateStyle: \"long\") }\n";
    const struct FluentArgument date = dated("d", "2026-11-28T20:15:00+01:00");
    struct FluentArgument answer = dated(NULL, "2024-02-29");
    struct FluentBundle bundle = {0};
    struct FluentText text = {0}, calls = {0}, call = {0};
    struct FluentAnswers answers = {0};
    struct FluentCall read = {0};
    bool is_asked = makes(&bundle, source, "de", "F")
        && fluent_call(&bundle, "own", NULL, &date, 1, NULL, 0, &text, NULL, &call) == FLUENT_CALL
        && says(&call, "[\"F\",[{\"date\":\"2026-11-28T20:15:00+01:00\"}],{}]") && fluent_read_call(&call, &read) == FLUENT_READ;
    bool is_read = is_asked && read.positional_count == 1 && read.positional->kind == FLUENT_DATETIME
        && strcmp(fluent_argument_string(read.positional), "2026-11-28T20:15:00+01:00") == 0;
    count_try(tally, "a date of a function", is_read);
    bool is_answered = fluent_add_answer(&answers, &call, answer) == FLUENT_READ
        && fluent_call(&bundle, "own", NULL, &date, 1, answers.list, answers.count, &text, NULL, &call) == FLUENT_READ;
    count_try(tally, "a date from a function", is_answered && says(&text, "29.2.2024 28. November 2026"));
    bool are_listed = fluent_bundle_calls(&bundle, fluent_bytes("own"), 3, fluent_bytes(NULL), 0, &date, 1, &answer, 0, &calls) == FLUENT_READ;
    count_try(tally, "calls with a date", are_listed && says(&calls, "[\"F\",[{\"date\":\"2026-11-28T20:15:00+01:00\"}],{}]\n"));
    bool is_own = makes(&bundle, source, "de", "DATETIME")
        && fluent_call(&bundle, "long", NULL, &date, 1, NULL, 0, &text, NULL, &call) == FLUENT_CALL
        && says(&call, "[\"DATETIME\",[{\"date\":\"2026-11-28T20:15:00+01:00\"}],{\"dateStyle\":\"long\"}]");
    count_try(tally, "an own DATETIME", is_own);
    fluent_free_answers(&answers);
    bool is_shown = fluent_read_call(&call, &read) == FLUENT_READ && fluent_answer_date(&answers, &call, &read, "de") == FLUENT_READ
        && fluent_call(&bundle, "long", NULL, &date, 1, answers.list, answers.count, &text, NULL, &call) == FLUENT_READ;
    count_try(tally, "an answer of fluent_answer_date", is_shown && says(&text, "28. November 2026"));
    const struct FluentArgument texts[] = {fluent_text_argument("d", "2026-11-28T20:15"), fluent_text_argument("d", "tomorrow")};
    for (size_t each = 0; each < sizeof texts / sizeof *texts; each++) {
        bool is_right = fluent_call(&bundle, "long", NULL, &texts[each], 1, NULL, 0, &text, NULL, &call) == FLUENT_CALL
            && fluent_read_call(&call, &read) == FLUENT_READ && fluent_answer_date(&answers, &call, &read, "de") == FLUENT_READ
            && fluent_call(&bundle, "long", NULL, &texts[each], 1, answers.list, answers.count, &text, NULL, &call) == FLUENT_READ;
        count_try(tally, "an answer of a text", is_right && says(&text, each ? "DATETIME()" : "28. November 2026"));
    }
    fluent_free_answers(&answers);
    fluent_free_call(&read);
    fluent_free_text(&text);
    fluent_free_text(&calls);
    fluent_free_text(&call);
    fluent_bundle_free(&bundle);
}

/* A message of the name takes the place of the function. */
static void try_message(struct Tally *tally) {
    static const struct Row row = {"a message", "de", "a", "2026-11-28", "{DATETIME()}", "Unknown function: DATETIME()\n"};
    struct FluentBundle bundle = {0};
    count_try(tally, row.name, makes(&bundle, "DATETIME = message\na = { DATETIME($d) }\n", "de", "") && gives(&bundle, &row));
    fluent_bundle_free(&bundle);
}

bool try_dated(void) {
    struct Tally tally = {.call = "FLUENT_DATETIME"};
    struct FluentBundle bundle = {0};
    for (size_t each = 0; each < sizeof ROWS / sizeof *ROWS; each++) {
        count_try(&tally, ROWS[each].name, makes(&bundle, SOURCE, ROWS[each].locale, "") && gives(&bundle, &ROWS[each]));
        fluent_bundle_free(&bundle);
    }
    count_try(&tally, "a bundle", makes(&bundle, SOURCE, "en", ""));
    try_wrong(&tally, &bundle);
    try_integers_of(&tally, &bundle);
    try_kinds(&tally, &bundle);
    try_lengths(&tally, &bundle);
    fluent_bundle_free(&bundle);
    try_own(&tally);
    try_message(&tally);
    return print_tally(&tally);
}
