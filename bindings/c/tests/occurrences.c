/* fluent_occurrences. */
#include "tests.h"

struct Row {
    const char *name;
    struct Bytes source;
    uint32_t status;
    struct Bytes lines;
};

#define LINE(definition, end, kind, name, owner, start) \
    "{\"definition\":" definition ",\"end\":" #end ",\"kind\":\"" kind "\",\"name\":\"" name "\",\"owner\":" owner ",\"start\":" #start "}\n"
#define DEFINED(start, end, kind, name, owner) LINE("true", end, kind, name, owner, start)
#define NAMED(start, end, kind, name, owner) LINE("false", end, kind, name, owner, start)
#define NONE "null"
#define OF(id) "\"" id "\""

static const struct Row ROWS[] = {
    {"nothing", BYTES(""), FLUENT_READ, BYTES("")},
    {"a comment and junk", BYTES("# a { $b }\n\nc { $d }\n"), FLUENT_READ, BYTES("")},
    {"a message", BYTES("hi = x\n"), FLUENT_READ, BYTES(DEFINED(0, 2, "message", "hi", NONE))},
    {"a term with an attribute", BYTES("-a = x\n  .b = y\n"), FLUENT_READ,
     BYTES(DEFINED(1, 2, "term", "a", NONE) DEFINED(10, 11, "attribute", "b", OF("-a")))},
    {"attributes alone", BYTES("a =\n .b = { $c }\n\n .d = e\n"), FLUENT_READ,
     BYTES(DEFINED(0, 1, "message", "a", NONE) DEFINED(6, 7, "attribute", "b", OF("a"))
           NAMED(13, 14, "variable", "c", OF("a")) DEFINED(20, 21, "attribute", "d", OF("a")))},
    {"references", BYTES("a = \xc3\xa9 { b.c }{ $d }\n"), FLUENT_READ,
     BYTES(DEFINED(0, 1, "message", "a", NONE) NAMED(9, 10, "message", "b", NONE) NAMED(11, 12, "attribute", "c", OF("b"))
           NAMED(17, 18, "variable", "d", OF("a")))},
    {"an attribute of a term", BYTES("a = { -b.c ->\n *[d] e\n}\n"), FLUENT_READ,
     BYTES(DEFINED(0, 1, "message", "a", NONE) NAMED(7, 8, "term", "b", NONE) NAMED(9, 10, "attribute", "c", OF("-b")))},
    {"the arguments of a term", BYTES("a = { -b($c, d: 1) }\n"), FLUENT_READ,
     BYTES(DEFINED(0, 1, "message", "a", NONE) NAMED(7, 8, "term", "b", NONE) NAMED(10, 11, "variable", "c", OF("a"))
           NAMED(13, 14, "variable", "d", OF("-b")))},
    {"those of a function", BYTES("-a = { F(-b, $c, d: 1) }\n"), FLUENT_READ,
     BYTES(DEFINED(1, 2, "term", "a", NONE) NAMED(7, 8, "function", "F", NONE) NAMED(10, 11, "term", "b", NONE)
           NAMED(14, 15, "variable", "c", OF("-a")))},
    {"a select", BYTES("a = { $b ->\n  [c] { d }\n *[e] {{ \"$f\" }}\n}{ g }\n"), FLUENT_READ,
     BYTES(DEFINED(0, 1, "message", "a", NONE) NAMED(7, 8, "variable", "b", OF("a")) NAMED(20, 21, "message", "d", NONE)
           NAMED(44, 45, "message", "g", NONE))},
    {"entries around junk", BYTES("a = b\nc\nd = { e\nf = { g }\r\n"), FLUENT_READ,
     BYTES(DEFINED(0, 1, "message", "a", NONE) DEFINED(16, 17, "message", "f", NONE) NAMED(22, 23, "message", "g", NONE))},
    {"an id twice", BYTES("a = b\na = c\n"), FLUENT_READ,
     BYTES(DEFINED(0, 1, "message", "a", NONE) DEFINED(6, 7, "message", "a", NONE))},
    {"no UTF-8", BYTES("a = \xff\n"), FLUENT_NOT_UTF8, {0}},
};

static const struct Bytes BEFORE = BYTES("x = y\n");
static const struct Bytes LINES_BEFORE = BYTES(DEFINED(0, 1, "message", "x", NONE));

/* Makes the call in the place of no text or of one. If there are no lines, what was there is as it was. */
static bool is_right(bool is_held, struct Bytes source, uint32_t status, struct Bytes lines) {
    struct FluentText made = {0};
    long blocks = blocks_in_use();
    if (is_held && fluent_occurrences(BEFORE.at, BEFORE.len, &made) != FLUENT_READ)
        return false;
    const struct FluentText before = made;
    bool is_status = fluent_occurrences(source.at, source.len, &made) == status;
    bool is_text = status == FLUENT_READ ? holds(&made, lines) : is_same(&made, &before, LINES_BEFORE);
    fluent_free_text(&made);
    return is_status && is_text && blocks_in_use() == blocks;
}

bool try_occurrences(void) {
    struct Tally tally = {"fluent_occurrences", 0, 0};
    const struct Bytes none = {0}, one = BYTES(DEFINED(0, 1, "message", "a", NONE));
    for (int held = 0; held < 2; held++) {
        for (size_t i = 0; i < sizeof ROWS / sizeof *ROWS; i++)
            count_try(&tally, ROWS[i].name, is_right(held, ROWS[i].source, ROWS[i].status, ROWS[i].lines));
        count_try(&tally, "the last level", is_right(held, nested(MOST_LEVELS), FLUENT_READ, one));
        count_try(&tally, "a level more", is_right(held, nested(MOST_LEVELS + 1), FLUENT_NO_MEMORY, none));
    }
    return print_tally(&tally);
}
