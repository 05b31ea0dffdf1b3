/* fluent_bundle_new_calling and fluent_bundle_call. */
#include <stdio.h>
#include <string.h>

#include "tests.h"

#define NONE BYTES("")
#define NAMED(literal) .name = (const uint8_t *)(literal), .name_len = sizeof(literal) - 1
#define TEXT(literal) .text = (const uint8_t *)(literal), .text_len = sizeof(literal) - 1
#define SAYS(call, value) {NAMED(call), TEXT(value), .kind = FLUENT_TEXT}

#define PLATFORM "[\"PLATFORM\",[],{}]"
#define DAY "[\"DAY\",[{\"number\":\"1.50\"},\"a\\\"b\"],{\"form\":\"short\"}]"
#define OF_X "[\"DAY\",[\"x\"],{}]"
#define OF_NOTHING "[\"DAY\",[null],{}]"

static const struct FluentSource SOURCES[] = {
    BYTES("os = { PLATFORM() ->\n    [windows] Settings { DAY($n, \"a\\u0022b\", form: \"short\") }\n   *[other] Preferences { LATER() }\n}\n"
          "twice = { PLATFORM() }, { PLATFORM() }, { NUMBER(PLATFORM()) }\n    .title = { DAY(DAY(PLATFORM())) }\n"
          "gone = { DAY($gone) }\nDAY-light = { -day }\n-day = { DAY(PLATFORM()) }\nplain = Plain\ntitled =\n    .a = A\n"
          "HERE = here\nbelow = { HERE } { HERE() }\n"),
};

static const struct FluentSource FUNCTIONS[] = {BYTES("PLATFORM"), BYTES("DAY"), BYTES("HERE"), BYTES("NUMBER"), BYTES("DAY")};

struct Row {
    const char *name;
    struct Bytes id, attribute;
    struct FluentArgument answers[3];
    size_t count;
    uint32_t status;
    /* The text, or the call that is missing. */
    struct Bytes text, errors;
};

static const struct Row ROWS[] = {
    {"a call in a selector", BYTES("os"), NONE, {{0}}, 0, FLUENT_CALL, BYTES(PLATFORM), {0}},
    {"only the calls of the variant", BYTES("os"), NONE, {SAYS(PLATFORM, "windows")}, 1, FLUENT_CALL, BYTES(DAY), {0}},
    {"all answers", BYTES("os"), NONE, {SAYS(DAY, "now"), SAYS(PLATFORM, "windows")}, 2, FLUENT_READ, BYTES("Settings now"), {0}},
    {"a function that isn't named", BYTES("os"), NONE, {SAYS(PLATFORM, "linux")}, 1, FLUENT_READ, BYTES("Preferences {LATER()}"),
     BYTES("Unknown function: LATER()\n")},
    {"no value", BYTES("twice"), NONE, {{NAMED(PLATFORM), TEXT(""), .kind = FLUENT_NO_VALUE}}, 1, FLUENT_READ,
     BYTES("PLATFORM(), PLATFORM(), NUMBER()"), {0}},
    {"a text", BYTES("twice"), NONE, {SAYS(PLATFORM, "3")}, 1, FLUENT_READ, BYTES("3, 3, NUMBER()"), {0}},
    {"a decimal", BYTES("twice"), NONE, {{NAMED(PLATFORM), TEXT("1234.50"), .kind = FLUENT_DECIMAL}}, 1, FLUENT_READ,
     BYTES("1.234,50, 1.234,50, 1.234,50"), {0}},
    {"an integer", BYTES("twice"), NONE, {{NAMED(PLATFORM), TEXT(""), .integer = -3, .kind = FLUENT_INTEGER}}, 1, FLUENT_READ,
     BYTES("-3, -3, -3"), {0}},
    {"the last of two answers", BYTES("twice"), NONE, {SAYS(PLATFORM, "a"), SAYS(PLATFORM, "b")}, 2, FLUENT_READ, BYTES("b, b, NUMBER()"), {0}},
    {"a call of a call of a call", BYTES("twice"), BYTES("title"), {{0}}, 0, FLUENT_CALL, BYTES(PLATFORM), {0}},
    {"the next", BYTES("twice"), BYTES("title"), {SAYS(PLATFORM, "x")}, 1, FLUENT_CALL, BYTES(OF_X), {0}},
    {"the last", BYTES("twice"), BYTES("title"), {SAYS(PLATFORM, "x"), SAYS(OF_X, "x")}, 2, FLUENT_READ, BYTES("x"), {0}},
    {"an argument without a value", BYTES("gone"), NONE, {{0}}, 0, FLUENT_CALL, BYTES(OF_NOTHING), {0}},
    {"its answer", BYTES("gone"), NONE, {SAYS(OF_NOTHING, "x")}, 1, FLUENT_READ, BYTES("x"), BYTES("Unknown variable: $gone\n")},
    {"a call in a term", BYTES("DAY-light"), NONE, {SAYS(PLATFORM, "x"), SAYS(OF_X, "y")}, 2, FLUENT_READ, BYTES("y"), {0}},
    {"no call", BYTES("plain"), NONE, {{0}}, 0, FLUENT_READ, BYTES("Plain"), {0}},
    {"answers that nothing asks for", BYTES("plain"), NONE, {SAYS("x", "y")}, 1, FLUENT_READ, BYTES("Plain"), {0}},
    {"the name of a message", BYTES("below"), NONE, {{0}}, 0, FLUENT_READ, BYTES("here {HERE()}"), BYTES("Unknown function: HERE()\n")},
    {"no message", BYTES("nothing"), NONE, {{0}}, 0, FLUENT_NO_MESSAGE, {0}, {0}},
    {"a function is no message", BYTES("PLATFORM"), NONE, {{0}}, 0, FLUENT_NO_MESSAGE, {0}, {0}},
    {"no value of a message", BYTES("titled"), NONE, {{0}}, 0, FLUENT_NO_PATTERN, {0}, {0}},
    {"no attribute", BYTES("titled"), BYTES("b"), {{0}}, 0, FLUENT_NO_PATTERN, {0}, {0}},
    {"an unknown kind", BYTES("plain"), NONE, {{NAMED("x"), TEXT(""), .kind = 6}}, 1, FLUENT_BAD_ARGUMENT, {0}, {0}},
    {"no number", BYTES("plain"), NONE, {{NAMED("x"), TEXT("y"), .kind = FLUENT_DECIMAL}}, 1, FLUENT_BAD_ARGUMENT, {0}, {0}},
    {"a call that isn't UTF-8", BYTES("plain"), NONE, {SAYS("\xff", "")}, 1, FLUENT_NOT_UTF8, {0}, {0}},
    {"an answer that isn't", BYTES("plain"), NONE, {SAYS("x", "\xff")}, 1, FLUENT_NOT_UTF8, {0}, {0}},
    {"an id that isn't", BYTES("\xff"), NONE, {{0}}, 0, FLUENT_NOT_UTF8, {0}, {0}},
};

static const struct FluentArgument N = {NAMED("n"), TEXT("1.50"), .kind = FLUENT_DECIMAL};

static uint32_t make(struct FluentBundle *bundle, const struct FluentSource *functions, size_t count) {
    struct FluentBundleOptions options = FLUENT_BUNDLE_OPTIONS;
    options.locale = (const uint8_t *)"de";
    options.locale_len = 2;
    options.isolating = false;
    return fluent_bundle_new_calling(SOURCES, 1, &options, functions, count, bundle);
}

/* The texts that a call is given. */
struct Texts {
    struct FluentText text, errors, call;
};

static uint32_t ask(struct FluentBundle *bundle, const struct Row *row, const struct FluentArgument *argument, struct Texts *texts) {
    return fluent_bundle_call(
        bundle, row->id.at, row->id.len, row->attribute.at, row->attribute.len, argument, 1, row->answers, row->count, &texts->text,
        &texts->errors, &texts->call);
}

/* Asks in the place of no texts or of three. What a call doesn't give is as it was. */
static bool is_right(struct FluentBundle *bundle, const struct Row *row, bool is_held) {
    static const struct Row texts_before = {"before", BYTES("os"), NONE, {SAYS(PLATFORM, "linux")}, 1, FLUENT_READ,
                                            BYTES("Preferences {LATER()}"), BYTES("Unknown function: LATER()\n")};
    static const struct Row call_before = {"before", BYTES("os"), NONE, {{0}}, 0, FLUENT_CALL, BYTES(PLATFORM), {0}};
    struct Texts texts = {{0}, {0}, {0}};
    long blocks = blocks_in_use();
    if (is_held && (ask(bundle, &texts_before, &N, &texts) != FLUENT_READ || ask(bundle, &call_before, &N, &texts) != FLUENT_CALL))
        return false;
    const struct Texts before = texts;
    bool is_status = ask(bundle, row, &N, &texts) == row->status;
    bool are_texts = row->status == FLUENT_READ
        ? holds(&texts.text, row->text) && (row->errors.len ? holds(&texts.errors, row->errors) : !texts.errors.held)
        : is_same(&texts.text, &before.text, texts_before.text) && is_same(&texts.errors, &before.errors, texts_before.errors);
    bool is_call = row->status == FLUENT_CALL ? holds(&texts.call, row->text) : is_same(&texts.call, &before.call, call_before.text);
    fluent_free_text(&texts.text);
    fluent_free_text(&texts.errors);
    fluent_free_text(&texts.call);
    return is_status && are_texts && is_call && blocks_in_use() == blocks;
}

/* A bundle without functions, one that was freed, and a bad argument. */
static void try_others(struct Tally *tally) {
    static const struct FluentArgument bad = {NAMED("n"), TEXT("x"), .kind = FLUENT_DECIMAL};
    static const struct Row plain = {"plain", BYTES("os"), NONE, {SAYS(PLATFORM, "windows")}, 1, FLUENT_READ, {0}, {0}};
    struct FluentBundle bundle = {0};
    struct Texts texts = {{0}, {0}, {0}};
    const struct FluentBundleOptions options = FLUENT_BUNDLE_OPTIONS;
    count_try(tally, "no bundle", ask(&bundle, &plain, &N, &texts) == FLUENT_NO_BUNDLE && !texts.call.held);
    count_try(tally, "a bundle without functions", fluent_bundle_new_with(SOURCES, 1, &options, &bundle) == FLUENT_READ
        && ask(&bundle, &plain, &N, &texts) == FLUENT_READ && texts.errors.held && !texts.call.held);
    count_try(tally, "a bad argument", ask(&bundle, &plain, &bad, &texts) == FLUENT_BAD_ARGUMENT);
    fluent_bundle_free(&bundle);
    fluent_free_text(&texts.text);
    fluent_free_text(&texts.errors);
}

/* What asks as if there were no functions. A call after it knows them still. */
static void try_as_if_none(struct Tally *tally, struct FluentBundle *bundle) {
    static const struct Row called = {"twice", BYTES("twice"), NONE, {SAYS(PLATFORM, "3")}, 1, FLUENT_READ, {0}, {0}};
    static const struct Bytes os = BYTES("os"), twice = BYTES("twice"), platform = BYTES("PLATFORM");
    static const struct Bytes unknown = BYTES("Preferences {LATER()}"), titles = BYTES("title\n"), n = BYTES("n\n");
    static const struct Bytes errors = BYTES("Unknown function: LATER()\n");
    static const struct Bytes messages = BYTES("os\ntwice\ngone\nDAY-light\nplain\ntitled\nHERE\nbelow\n");
    struct Texts texts = {{0}, {0}, {0}};
    const uint8_t *none = (const uint8_t *)"";
    count_try(tally, "a function that is a message", fluent_bundle_has(bundle, platform.at, platform.len, none, 0) == FLUENT_NO_MESSAGE
        && fluent_bundle_has(bundle, os.at, os.len, none, 0) == FLUENT_READ);
    count_try(tally, "functions that are unknown",
        fluent_bundle_format(bundle, os.at, os.len, none, 0, &N, 1, &texts.text, &texts.errors) == FLUENT_READ
            && holds(&texts.text, unknown) && holds(&texts.errors, errors));
    count_try(tally, "messages", fluent_bundle_messages(bundle, &texts.text) == FLUENT_READ && holds(&texts.text, messages));
    count_try(tally, "attributes",
        fluent_bundle_attributes(bundle, twice.at, twice.len, &texts.text) == FLUENT_READ && holds(&texts.text, titles));
    count_try(tally, "variables", fluent_bundle_variables(bundle, os.at, os.len, &texts.text) == FLUENT_READ && holds(&texts.text, n));
    count_try(tally, "functions that are known", ask(bundle, &called, &N, &texts) == FLUENT_READ && !texts.errors.held);
    fluent_free_text(&texts.text);
    fluent_free_text(&texts.errors);
    fluent_free_text(&texts.call);
}

/* Messages each of which refers to the next in a call, so that an answer nests deeper than any of them. */
static void try_chain(struct Tally *tally, size_t stack, uint32_t status) {
    static char text[1024];
    char *at = text;
    for (int i = 0; i < 10; i++)
        at += sprintf(at, "m%d = { -term({ m%d }) }\n", i, i + 1);
    at += sprintf(at, "m10 = end\n-term = Term\n");
    const struct FluentSource source = {(const uint8_t *)text, (size_t)(at - text)};
    const struct Row row = {"a chain", BYTES("m0"), NONE, {{0}}, 0, status, BYTES("Term"), {0}};
    struct FluentBundleOptions options = FLUENT_BUNDLE_OPTIONS;
    struct FluentBundle bundle = {0};
    options.stack = stack;
    count_try(tally, "a bundle of a chain", fluent_bundle_new_calling(&source, 1, &options, FUNCTIONS, 1, &bundle) == FLUENT_READ);
    count_try(tally, row.name, is_right(&bundle, &row, false));
    fluent_bundle_free(&bundle);
}

static bool try_making(void) {
    static const struct FluentSource other = BYTES("\xff");
    struct Tally made = {"fluent_bundle_new_calling", 0, 0};
    struct FluentBundle bundle = {0};
    struct FluentBundleOptions options = FLUENT_BUNDLE_OPTIONS;
    count_try(&made, "no function", make(&bundle, FUNCTIONS, 0) == FLUENT_READ && bundle.held);
    count_try(&made, "a name that isn't UTF-8", make(&bundle, &other, 1) == FLUENT_NOT_UTF8 && bundle.held);
    count_try(&made, "a source that isn't",
        fluent_bundle_new_calling(&other, 1, &options, FUNCTIONS, 1, &bundle) == FLUENT_NOT_UTF8 && bundle.held);
    options.locale = (const uint8_t *)"x";
    options.locale_len = 3;
    count_try(&made, "no rules",
        fluent_bundle_new_calling(SOURCES, 1, &options, FUNCTIONS, 1, &bundle) == FLUENT_UNKNOWN_LOCALE && bundle.held);
    options.size = 0;
    count_try(&made, "no size",
        fluent_bundle_new_calling(SOURCES, 1, &options, FUNCTIONS, 1, &bundle) == FLUENT_BAD_ARGUMENT && bundle.held);
    fluent_bundle_free(&bundle);
    return print_tally(&made);
}

bool try_calls(void) {
    struct Tally called = {"fluent_bundle_call", 0, 0};
    struct FluentBundle bundle = {0};
    bool is_made = try_making();
    count_try(&called, "a bundle", make(&bundle, FUNCTIONS, sizeof FUNCTIONS / sizeof *FUNCTIONS) == FLUENT_READ);
    for (int held = 0; held < 2; held++)
        for (size_t i = 0; i < sizeof ROWS / sizeof *ROWS; i++)
            count_try(&called, ROWS[i].name, is_right(&bundle, &ROWS[i], held));
    try_as_if_none(&called, &bundle);
    fluent_bundle_free(&bundle);
    try_others(&called);
    try_chain(&called, 20000, FLUENT_NO_MEMORY);
    try_chain(&called, 1572864, FLUENT_READ);
    return is_made & print_tally(&called);
}
