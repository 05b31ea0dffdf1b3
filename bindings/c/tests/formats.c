/* fluent_bundle_format. */
#include <stdio.h>

#include "tests.h"

struct Row {
    const char *name;
    struct Bytes id, attribute;
    struct FluentArgument arguments[2];
    size_t count;
    uint32_t status;
    struct Bytes text;
    /* The lines of errors, if there are any. */
    struct Bytes errors;
};

#define NONE BYTES("")
#define NAMED(literal) .name = (const uint8_t *)(literal), .name_len = sizeof(literal) - 1
#define TEXT(literal) .text = (const uint8_t *)(literal), .text_len = sizeof(literal) - 1

static const struct FluentSource SOURCES[] = {
    BYTES("before = before { $x }\nwelcome = Welcome, { $name }.\nn = { $n ->\n    [one] one\n    [few] { $n } few\n   *[other] { $n } other\n}\n"),
    BYTES("login =\n    .title = Log in\n    .title = Second\nwelcome = Hello!\nboth = { $a } { $b } { both }\ng@Rb@ge\n"),
};

static const struct Row ROWS[] = {
    {"an integer", BYTES("n"), NONE, {{NAMED("n"), TEXT(""), .integer = -3, .kind = FLUENT_INTEGER}}, 1, FLUENT_READ, BYTES("-3 few"), {0}},
    {"an unsigned integer", BYTES("n"), NONE, {{NAMED("n"), TEXT(""), .unsigned_integer = UINT64_MAX, .kind = FLUENT_UNSIGNED}}, 1, FLUENT_READ,
     BYTES("18\xc2\xa0" "446\xc2\xa0" "744\xc2\xa0" "073\xc2\xa0" "709\xc2\xa0" "551\xc2\xa0" "615 other"), {0}},
    {"a decimal", BYTES("n"), NONE, {{NAMED("n"), TEXT("1.50"), .kind = FLUENT_DECIMAL}}, 1, FLUENT_READ, BYTES("1,50 other"), {0}},
    {"the decimal 1", BYTES("n"), NONE, {{NAMED("n"), TEXT("1"), .kind = FLUENT_DECIMAL}}, 1, FLUENT_READ, BYTES("one"), {0}},
    {"a float", BYTES("n"), NONE, {{NAMED("n"), TEXT("0.3333333333333333"), .kind = FLUENT_FLOAT}}, 1, FLUENT_READ,
     BYTES("0,333 other"), {0}},
    {"the float 1", BYTES("n"), NONE, {{NAMED("n"), TEXT("1.0"), .kind = FLUENT_FLOAT}}, 1, FLUENT_READ, BYTES("one"), {0}},
    {"no float", BYTES("n"), NONE, {{NAMED("n"), TEXT("nan"), .kind = FLUENT_FLOAT}}, 1, FLUENT_BAD_ARGUMENT, {0}, {0}},
    {"the text 1", BYTES("n"), NONE, {{NAMED("n"), TEXT("1"), .kind = FLUENT_TEXT}}, 1, FLUENT_READ, BYTES("1 other"), {0}},
    {"a text", BYTES("welcome"), NONE, {{NAMED("name"), TEXT("Jane"), .kind = FLUENT_TEXT}}, 1, FLUENT_READ, BYTES("Welcome, Jane."), {0}},
    {"two of one name", BYTES("welcome"), NONE,
     {{NAMED("name"), TEXT("Jane"), .kind = FLUENT_TEXT}, {NAMED("name"), TEXT("Jim"), .kind = FLUENT_TEXT}}, 2, FLUENT_READ,
     BYTES("Welcome, Jim."), {0}},
    {"no value of an argument", BYTES("welcome"), NONE, {{NAMED("name"), TEXT(""), .kind = FLUENT_NO_VALUE}}, 1, FLUENT_READ,
     BYTES("Welcome, ."), {0}},
    {"no argument", BYTES("welcome"), NONE, {{0}}, 0, FLUENT_READ, BYTES("Welcome, {$name}."), BYTES("Unknown variable: $name\n")},
    {"an argument too many", BYTES("login"), BYTES("title"), {{NAMED("n"), TEXT(""), .kind = FLUENT_TEXT}}, 1, FLUENT_READ, BYTES("Log in"), {0}},
    {"three errors", BYTES("both"), NONE, {{0}}, 0, FLUENT_READ, BYTES("{$a} {$b} {both}"),
     BYTES("Unknown variable: $a\nUnknown variable: $b\nCyclical dependency detected\n")},
    {"an unknown kind", BYTES("n"), NONE, {{NAMED("n"), TEXT(""), .kind = 7}}, 1, FLUENT_BAD_ARGUMENT, {0}, {0}},
    {"no number", BYTES("n"), NONE, {{NAMED("n"), TEXT("1e3"), .kind = FLUENT_DECIMAL}}, 1, FLUENT_BAD_ARGUMENT, {0}, {0}},
    {"no number, and no message", BYTES("nothing"), NONE, {{NAMED("n"), TEXT(""), .kind = FLUENT_DECIMAL}}, 1, FLUENT_BAD_ARGUMENT, {0}, {0}},
    {"no message", BYTES("nothing"), NONE, {{0}}, 0, FLUENT_NO_MESSAGE, {0}, {0}},
    {"no message with the attribute", BYTES("nothing"), BYTES("title"), {{0}}, 0, FLUENT_NO_MESSAGE, {0}, {0}},
    {"no value", BYTES("login"), NONE, {{0}}, 0, FLUENT_NO_PATTERN, {0}, {0}},
    {"no attribute", BYTES("login"), BYTES("label"), {{0}}, 0, FLUENT_NO_PATTERN, {0}, {0}},
    {"an id that isn't UTF-8", BYTES("\xff"), NONE, {{0}}, 0, FLUENT_NOT_UTF8, {0}, {0}},
    {"an attribute that isn't", BYTES("login"), BYTES("\xff"), {{0}}, 0, FLUENT_NOT_UTF8, {0}, {0}},
    {"a name that isn't", BYTES("n"), NONE, {{NAMED("\xff"), TEXT(""), .kind = FLUENT_TEXT}}, 1, FLUENT_NOT_UTF8, {0}, {0}},
    {"a text that isn't", BYTES("n"), NONE, {{NAMED("n"), TEXT("\xff"), .kind = FLUENT_TEXT}}, 1, FLUENT_NOT_UTF8, {0}, {0}},
};

static uint32_t format(
    struct FluentBundle *bundle, const struct Row *row, const struct FluentArgument *arguments, size_t count, struct FluentText *text,
    struct FluentText *errors) {
    return fluent_bundle_format(
        bundle, row->id.at, row->id.len, row->attribute.at, row->attribute.len, arguments, count, text, errors);
}

static const struct Row BEFORE = {
    "before", BYTES("before"), NONE, {{0}}, 0, FLUENT_READ, BYTES("before {$x}"), BYTES("Unknown variable: $x\n")};

/* Formats in the place of no texts or of two. If it is refused, those are as they were. */
static bool is_right(
    struct FluentBundle *bundle, const struct Row *row, const struct FluentArgument *arguments, size_t count, bool is_held) {
    struct FluentText text = {0}, errors = {0};
    long blocks = blocks_in_use();
    if (is_held && format(bundle, &BEFORE, BEFORE.arguments, 0, &text, &errors) != FLUENT_READ)
        return false;
    const struct FluentText text_before = text, errors_before = errors;
    bool is_status = format(bundle, row, arguments, count, &text, &errors) == row->status;
    bool are_texts = row->status == FLUENT_READ
        ? holds(&text, row->text) && (row->errors.len ? holds(&errors, row->errors) : !errors.held)
        : is_same(&text, &text_before, BEFORE.text) && is_same(&errors, &errors_before, BEFORE.errors);
    fluent_free_text(&text);
    fluent_free_text(&errors);
    return is_status && are_texts && blocks_in_use() == blocks;
}

/* Tries a row with other arguments than its own. */
static void try_all(
    struct Tally *tally, struct FluentBundle *bundle, const struct Row *row, const struct FluentArgument *arguments, size_t count) {
    count_try(tally, row->name, is_right(bundle, row, arguments, count, false));
    /* There are no texts before if there is no bundle that gives them. */
    if (bundle->held)
        count_try(tally, row->name, is_right(bundle, row, arguments, count, true));
}

static void try_row(struct Tally *tally, struct FluentBundle *bundle, const struct Row *row) {
    try_all(tally, bundle, row, row->arguments, row->count);
}

/* Messages each of which refers to the next in a call, so that an answer nests deeper than any of them. */
static void try_chain(struct Tally *tally, size_t stack, uint32_t status) {
    static char text[1024];
    char *at = text;
    for (int i = 0; i < 10; i++)
        at += sprintf(at, "m%d = { -term({ m%d }) }\n", i, i + 1);
    at += sprintf(at, "m10 = end\n-term = Term\nbefore = before { $x }\n");
    const struct FluentSource source = {(const uint8_t *)text, (size_t)(at - text)};
    const struct Row row = {"a chain", BYTES("m0"), NONE, {{0}}, 0, status, BYTES("Term"), {0}};
    struct FluentBundle bundle = {0};
    bool is_made = fluent_bundle_new_within(&source, 1, source.text, 0, false, false, stack, &bundle) == FLUENT_READ;
    count_try(tally, "a bundle of a chain", is_made);
    try_row(tally, &bundle, &row);
    fluent_bundle_free(&bundle);
}

/* More arguments than are set as they come. */
#define MANY 99

/* Many arguments whose names come from the last to the first, and `name` among them twice. Of that the last counts. */
static void try_many(struct Tally *tally, struct FluentBundle *bundle) {
    static char names[MANY][8];
    static struct FluentArgument arguments[MANY];
    struct Row row = {"many arguments", BYTES("welcome"), NONE, {{0}}, 0, FLUENT_READ, BYTES("Welcome, Jim."), {0}};
    for (int i = 0; i < MANY; i++) {
        sprintf(names[i], "n%03d", MANY - i);
        arguments[i] = (struct FluentArgument){.name = (const uint8_t *)names[i], .name_len = 4, TEXT("no"), .kind = FLUENT_TEXT};
    }
    arguments[3] = (struct FluentArgument){NAMED("name"), TEXT("Jane"), .kind = FLUENT_TEXT};
    arguments[80] = (struct FluentArgument){NAMED("name"), TEXT("Jim"), .kind = FLUENT_TEXT};
    try_all(tally, bundle, &row, arguments, MANY);
    arguments[50].kind = 6;
    row = (struct Row){"an unknown kind among many", BYTES("welcome"), NONE, {{0}}, 0, FLUENT_BAD_ARGUMENT, {0}, {0}};
    try_all(tally, bundle, &row, arguments, MANY);
    arguments[50] = (struct FluentArgument){NAMED("\xff"), TEXT(""), .kind = FLUENT_TEXT};
    row.name = "a name that isn't UTF-8 among many", row.status = FLUENT_NOT_UTF8;
    try_all(tally, bundle, &row, arguments, MANY);
}

bool try_formats(void) {
    struct Tally tally = {"fluent_bundle_format", 0, 0};
    struct FluentBundle bundle = {0};
    struct Row none = ROWS[5];
    none.status = FLUENT_NO_BUNDLE;
    try_row(&tally, &bundle, &none);
    if (fluent_bundle_new(SOURCES, 2, (const uint8_t *)"pl", 2, false, false, &bundle) != FLUENT_READ)
        return false;
    for (size_t i = 0; i < sizeof ROWS / sizeof *ROWS; i++)
        try_row(&tally, &bundle, &ROWS[i]);
    try_many(&tally, &bundle);
    fluent_bundle_free(&bundle);
    try_row(&tally, &bundle, &none);
    try_chain(&tally, 20000, FLUENT_NO_MEMORY);
    try_chain(&tally, 1572864, FLUENT_READ);
    return print_tally(&tally);
}
