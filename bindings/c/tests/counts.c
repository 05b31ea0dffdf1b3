/* fluent_parse and fluent_parse_runtime. */
#include "tests.h"

struct Row {
    const char *name;
    struct Bytes source;
    uint32_t status;
    /* What is counted, with comments and for run time. */
    struct FluentCounts whole, runtime;
};

static const struct FluentCounts BEFORE = {90, 91, 92, 93, 94};

static const struct Row ROWS[] = {
    {"nothing", BYTES(""), FLUENT_READ, {0}, {0}},
    {"one of each", BYTES("## group\n\n# own\nkey = { -name }\n-name = Firefox\nbroken\n"), FLUENT_READ, {1, 1, 1, 1, 1}, {1, 1, 0, 1, 1}},
    {"three comments", BYTES("# a\n\n## b\n\n### c\n"), FLUENT_READ, {.comments = 3}, {0}},
    {"a byte 0", BYTES("a = b\0c\nb = c\n"), FLUENT_READ, {.messages = 2}, {.messages = 2}},
    {"no UTF-8", BYTES("key = \xff\n"), FLUENT_NOT_UTF8, {0}, {0}},
    {"half a character", BYTES("key = \xc3"), FLUENT_NOT_UTF8, {0}, {0}},
};

static bool are_equal(const struct FluentCounts *a, const struct FluentCounts *b) {
    return a->messages == b->messages && a->terms == b->terms && a->comments == b->comments && a->junk == b->junk
        && a->errors == b->errors;
}

static bool is_right(
    uint32_t (*call)(const uint8_t *, size_t, struct FluentCounts *), struct Bytes source, uint32_t status,
    const struct FluentCounts *wanted) {
    struct FluentCounts counts = BEFORE;
    return call(source.at, source.len, &counts) == status && are_equal(&counts, status == FLUENT_READ ? wanted : &BEFORE);
}

bool try_counts(void) {
    const struct FluentCounts one = {.messages = 1};
    struct Tally whole = {"fluent_parse", 0, 0}, runtime = {"fluent_parse_runtime", 0, 0};
    for (size_t i = 0; i < sizeof ROWS / sizeof *ROWS; i++) {
        const struct Row *row = &ROWS[i];
        count_try(&whole, row->name, is_right(fluent_parse, row->source, row->status, &row->whole));
        count_try(&runtime, row->name, is_right(fluent_parse_runtime, row->source, row->status, &row->runtime));
    }
    struct Bytes deep = nested(MOST_LEVELS);
    count_try(&whole, "the last level", is_right(fluent_parse, deep, FLUENT_READ, &one));
    count_try(&runtime, "the last level", is_right(fluent_parse_runtime, deep, FLUENT_READ, &one));
    deep = nested(MOST_LEVELS + 1);
    count_try(&whole, "a level more", is_right(fluent_parse, deep, FLUENT_NO_MEMORY, &one));
    count_try(&runtime, "a level more", is_right(fluent_parse_runtime, deep, FLUENT_NO_MEMORY, &one));
    bool is_whole_right = print_tally(&whole);
    return print_tally(&runtime) && is_whole_right;
}
