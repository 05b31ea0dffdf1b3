/* fluent_outline. */
#include "tests.h"

#include <string.h>

struct Row {
    const char *name;
    struct Bytes source;
    uint32_t status;
    struct Bytes lines;
    struct FluentCounts counts;
};

static const struct Row ROWS[] = {
    {"nothing", BYTES(""), FLUENT_READ, BYTES(""), {0}},
    {"a value", BYTES("a = b\n"), FLUENT_READ, BYTES("a =\n"), {.messages = 1}},
    {"attributes alone", BYTES("a =\n    .b = c\n    .d = e\n"), FLUENT_READ, BYTES("a\n.b\n.d\n"), {.messages = 1}},
    {"a value and an attribute", BYTES("a = b\n    .c = d\n"), FLUENT_READ, BYTES("a =\n.c\n"), {.messages = 1}},
    {"a term", BYTES("-a = b\n    .c = d\n"), FLUENT_READ, BYTES("-a =\n.c\n"), {.terms = 1}},
    {"entries in their order", BYTES("z = b\n-a-b =\n    c\nB9_ =\n    .x = d\n"), FLUENT_READ, BYTES("z =\n-a-b =\nB9_\n.x\n"),
     {.messages = 2, .terms = 1}},
    {"names that are there twice", BYTES("a = b\n    .c = d\n    .c = e\na = f\n-a = g\n"), FLUENT_READ, BYTES("a =\n.c\n.c\na =\n-a =\n"),
     {.messages = 2, .terms = 1}},
    {"comments", BYTES("### a = b\n\n## c\n\n# d\ne = f\n\n# g\n"), FLUENT_READ, BYTES("e =\n"), {.messages = 1}},
    {"no comment", BYTES("#a = b\nc = d\n"), FLUENT_READ, BYTES("c =\n"), {.messages = 1}},
    {"junk", BYTES("a = b\ng@Rb@ge = c\n    .d = e\nf = g\n-h =\n"), FLUENT_READ, BYTES("a =\nf =\n"),
     {.messages = 2, .junk = 2, .errors = 2}},
    {"lines of a value", BYTES("a =\n    b\n\n    c =\n    { $d ->\n        [e] f\n       *[g] .h = i\n    }\n    .j = k\n"), FLUENT_READ,
     BYTES("a =\n.j\n"), {.messages = 1}},
    {"a carriage return", BYTES("a =\r\n    .b = c\r\nd = e\r\n"), FLUENT_READ, BYTES("a\n.b\nd =\n"), {.messages = 2}},
    {"no UTF-8", BYTES("key = \xff\n"), FLUENT_NOT_UTF8, {0}, {0}},
};

static const struct Bytes BEFORE = BYTES("before = before\n");
static const struct FluentCounts OTHER = {90, 91, 92, 93, 94};

static bool are_equal(const struct FluentCounts *a, const struct FluentCounts *b) { return memcmp(a, b, sizeof *a) == 0; }

/* Makes the call in the place of no text or of one. If it isn't read, what was there is as it was. */
static bool is_right(bool is_held, const struct Row *row) {
    struct FluentText made = {0};
    struct FluentCounts counts = OTHER;
    long blocks = blocks_in_use();
    if (is_held && fluent_write(BEFORE.at, BEFORE.len, false, &made) != FLUENT_READ)
        return false;
    const struct FluentText before = made;
    bool is_read = row->status == FLUENT_READ;
    bool is_status = fluent_outline(row->source.at, row->source.len, &made, &counts) == row->status;
    bool is_text = is_read ? holds(&made, row->lines) : is_same(&made, &before, BEFORE);
    fluent_free_text(&made);
    return is_status && is_text && are_equal(&counts, is_read ? &row->counts : &OTHER) && blocks_in_use() == blocks;
}

bool try_outlines(void) {
    struct Tally tally = {"fluent_outline", 0, 0};
    for (int held = 0; held < 2; held++) {
        for (size_t i = 0; i < sizeof ROWS / sizeof *ROWS; i++)
            count_try(&tally, ROWS[i].name, is_right(held, &ROWS[i]));
        const struct Row last = {"the last level", nested(MOST_LEVELS), FLUENT_READ, BYTES("a =\n"), {.messages = 1}};
        count_try(&tally, last.name, is_right(held, &last));
        const struct Row more = {"a level more", nested(MOST_LEVELS + 1), FLUENT_NO_MEMORY, {0}, {0}};
        count_try(&tally, more.name, is_right(held, &more));
    }
    return print_tally(&tally);
}
