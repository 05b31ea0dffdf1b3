/* fluent_bundle_new_with. */
#include "tests.h"

#define SOURCE "sum = is { NUMBER($n) }\nsum = again { $n }\n"
#define OTHER BYTES("key = \xff\n")

/* What a bundle of SOURCE writes for 1234.5 by these options, if it is made. */
struct Row {
    const char *name;
    struct FluentBundleOptions options;
    uint32_t status;
    struct Bytes text;
};

#define SIZE sizeof(struct FluentBundleOptions)
#define TAG(tag) (const uint8_t *)(tag), sizeof(tag) - 1

static const struct Row ROWS[] = {
    {"the usual options", FLUENT_BUNDLE_OPTIONS, FLUENT_READ, BYTES("is \xe2\x81\xa8" "1234.5\xe2\x81\xa9")},
    {"no marks", {SIZE, TAG(""), 0, false, false, false}, FLUENT_READ, BYTES("is 1234.5")},
    {"German numbers", {SIZE, TAG("de"), 0, false, false, false}, FLUENT_READ, BYTES("is 1.234,5")},
    {"plain numbers in German", {SIZE, TAG("de"), 0, false, false, true}, FLUENT_READ, BYTES("is 1234.5")},
    {"the last entry", {SIZE, TAG("de"), 0, false, true, false}, FLUENT_READ, BYTES("again 1.234,5")},
    {"a budget", {SIZE, TAG("de"), 1000000, false, false, false}, FLUENT_READ, BYTES("is 1.234,5")},
    {"no tag", {SIZE, TAG("x"), 0, false, false, false}, FLUENT_UNKNOWN_LOCALE, {0}},
    {"no size", {0, TAG(""), 0, false, false, false}, FLUENT_BAD_ARGUMENT, {0}},
    {"a smaller size", {SIZE - 1, TAG(""), 0, false, false, false}, FLUENT_BAD_ARGUMENT, {0}},
    {"a larger size", {SIZE + 8, TAG(""), 0, false, false, false}, FLUENT_BAD_ARGUMENT, {0}},
};

static const struct FluentSource ONLY = BYTES(SOURCE);

/* Whether a bundle writes 1234.5 so. */
static bool writes(struct FluentBundle *bundle, struct Bytes wanted) {
    const struct FluentArgument n = {
        .name = (const uint8_t *)"n", .name_len = 1, .text = (const uint8_t *)"1234.5", .text_len = 6, .kind = FLUENT_DECIMAL};
    struct FluentText text = {0}, errors = {0};
    bool is_right = fluent_bundle_format(bundle, TAG("sum"), TAG(""), &n, 1, &text, &errors) == FLUENT_READ && holds(&text, wanted)
        && !errors.held;
    fluent_free_text(&text);
    return is_right;
}

/* Makes a bundle in the place of none or of one. If none is made, what was there answers as before. */
static bool is_made(const struct FluentSource *source, const struct Row *row, bool is_held) {
    struct FluentBundle bundle = {0};
    long blocks = blocks_in_use();
    if (is_held && fluent_bundle_new_with(&ONLY, 1, &ROWS[1].options, &bundle) != FLUENT_READ)
        return false;
    bool is_status = fluent_bundle_new_with(source, 1, &row->options, &bundle) == row->status;
    bool is_bundle = row->status == FLUENT_READ ? writes(&bundle, row->text) : is_held ? writes(&bundle, ROWS[1].text) : !bundle.held;
    fluent_bundle_free(&bundle);
    return is_status && is_bundle && blocks_in_use() == blocks;
}

/* Sources that nest deep, within the usual budget and a smaller one, and past the usual one. */
static void try_depths(struct Tally *tally) {
    struct Bytes source = nested(MOST_LEVELS);
    const struct FluentSource deep = {source.at, source.len};
    struct FluentBundleOptions options = FLUENT_BUNDLE_OPTIONS;
    struct FluentBundle bundle = {0};
    count_try(tally, "the last level", fluent_bundle_new_with(&deep, 1, &options, &bundle) == FLUENT_READ);
    options.stack = 786432;
    count_try(tally, "a smaller budget", fluent_bundle_new_with(&deep, 1, &options, &bundle) == FLUENT_NO_MEMORY && bundle.held);
    source = nested(MOST_LEVELS + 1);
    const struct FluentSource deeper = {source.at, source.len};
    options.stack = 0;
    count_try(tally, "a level more", fluent_bundle_new_with(&deeper, 1, &options, &bundle) == FLUENT_NO_MEMORY && bundle.held);
    fluent_bundle_free(&bundle);
}

/* Each size but the struct's is refused. */
static void try_sizes(struct Tally *tally) {
    static const size_t far[] = {SIZE_MAX / 2, (SIZE_MAX / 2 + 1) | SIZE, SIZE_MAX - SIZE, SIZE_MAX};
    struct FluentBundleOptions options = FLUENT_BUNDLE_OPTIONS;
    struct FluentBundle bundle = {0};
    bool is_right = true;
    for (size_t each = 0; each < 65536 + sizeof far / sizeof *far; each++) {
        options.size = each < 65536 ? each : far[each - 65536];
        is_right &= fluent_bundle_new_with(&ONLY, 1, &options, &bundle) == (each == SIZE ? FLUENT_READ : FLUENT_BAD_ARGUMENT);
    }
    count_try(tally, "every size", is_right && bundle.held);
    fluent_bundle_free(&bundle);
}

bool try_options(void) {
    static const struct FluentSource other = OTHER;
    static const struct Row not_utf8 = {"no UTF-8", {SIZE, TAG("de"), 0, false, false, false}, FLUENT_NOT_UTF8, {0}};
    struct Tally made = {"fluent_bundle_new_with", 0, 0};
    for (int held = 0; held < 2; held++) {
        for (size_t i = 0; i < sizeof ROWS / sizeof *ROWS; i++)
            count_try(&made, ROWS[i].name, is_made(&ONLY, &ROWS[i], held));
        count_try(&made, not_utf8.name, is_made(&other, &not_utf8, held));
    }
    try_depths(&made);
    try_sizes(&made);
    return print_tally(&made);
}
