/* fluent_tidy. */
#include "tests.h"

struct Row {
    const char *name;
    struct Bytes source;
    uint32_t status;
    struct Bytes tidy;
    /* Where the source can't be read. */
    struct FluentPlace place;
};

#define PLACE_BEFORE {90, 91}

static const struct Row ROWS[] = {
    {"nothing", BYTES(""), FLUENT_READ, BYTES(""), PLACE_BEFORE},
    {"a message", BYTES("a   =b{$x}"), FLUENT_READ, BYTES("a = b{ $x }\n"), PLACE_BEFORE},
    {"blank lines", BYTES("a = b\n\n\n\nc = d\n\n"), FLUENT_READ, BYTES("a = b\n\nc = d\n"), PLACE_BEFORE},
    {"a mark and CR LF", BYTES("\xef\xbb\xbf" "a = b\r\nc = d\r\n"), FLUENT_READ, BYTES("a = b\nc = d\n"), PLACE_BEFORE},
    {"junk", BYTES("a = b\nc\n"), FLUENT_DAMAGED, {0}, {2, 2}},
    {"junk after a mark", BYTES("\xef\xbb\xbf" "a b\n"), FLUENT_DAMAGED, {0}, {1, 3}},
    {"junk after CR LF", BYTES("a = b\r\n\r\n\xc3\xa9 = { \"\xc3\xa9\" }\r\n"), FLUENT_DAMAGED, {0}, {3, 1}},
    {"the first junk of two", BYTES("a = \xc3\xa9 }\nb\nc = d\n"), FLUENT_DAMAGED, {0}, {1, 7}},
    {"a carriage return", BYTES("a = b\rc\n"), FLUENT_CARRIAGE_RETURN, {0}, PLACE_BEFORE},
    {"no tidy text", BYTES("a = {\"\"}\n  b\n\n  c\n"), FLUENT_READ, BYTES("a =\n    { \"\" }\n    b\n\n    c\n"), PLACE_BEFORE},
    {"no UTF-8", BYTES("a = \xff\n"), FLUENT_NOT_UTF8, {0}, PLACE_BEFORE},
};

static const struct Bytes BEFORE = BYTES("before = before\n");

/* Makes the call in the place of no text or of one. If there is no tidy text, what was there is as it was. */
static bool is_right(bool is_held, const struct Row *row) {
    struct FluentText made = {0};
    struct FluentPlace place = PLACE_BEFORE;
    long blocks = blocks_in_use();
    if (is_held && fluent_tidy(BEFORE.at, BEFORE.len, &made, &place) != FLUENT_READ)
        return false;
    const struct FluentText before = made;
    bool is_status = fluent_tidy(row->source.at, row->source.len, &made, &place) == row->status;
    bool is_text = row->status == FLUENT_READ ? holds(&made, row->tidy) : is_same(&made, &before, BEFORE);
    fluent_free_text(&made);
    return is_status && is_text && place.line == row->place.line && place.column == row->place.column && blocks_in_use() == blocks;
}

bool try_tidying(void) {
    struct Tally tally = {"fluent_tidy", 0, 0};
    const struct Row deep = {"a level more", nested(MOST_LEVELS + 1), FLUENT_NO_MEMORY, {0}, PLACE_BEFORE};
    for (int held = 0; held < 2; held++) {
        for (size_t i = 0; i < sizeof ROWS / sizeof *ROWS; i++)
            count_try(&tally, ROWS[i].name, is_right(held, &ROWS[i]));
        count_try(&tally, deep.name, is_right(held, &deep));
    }
    return print_tally(&tally);
}
