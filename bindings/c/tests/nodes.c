/* fluent_nodes. */
#include "tests.h"

struct Row {
    const char *name;
    struct Bytes source;
    uint32_t status;
    struct Bytes lines;
};

static const struct Row ROWS[] = {
    {"nothing", BYTES(""), FLUENT_READ,
     BYTES("")},
    {"a comment", BYTES("# \xc3\xa9\n"), FLUENT_READ,
     BYTES("Comment 0 4\n")},
    {"a text that isn't ASCII", BYTES("a = \xc3\xa9{ b }\n"), FLUENT_READ,
     BYTES("Identifier 0 1\nTextElement 4 6\nIdentifier 8 9\nMessageReference 8 9\nPlaceable 6 11\n"
           "Pattern 4 11\nMessage 0 11\n")},
    {"a text", BYTES("a = b\n"), FLUENT_READ,
     BYTES("Identifier 0 1\nTextElement 4 5\nPattern 4 5\nMessage 0 5\n")},
    {"an indented text after a comment", BYTES("# c\n-t =\n  x\n   y { $z }\n"), FLUENT_READ,
     BYTES("Comment 0 3\nIdentifier 5 6\nTextElement 11 13\nTextElement 15 18\nIdentifier 21 22\n"
           "VariableReference 20 22\nPlaceable 18 24\nPattern 9 24\nTerm 0 24\n")},
    {"lines that end in crlf", BYTES("a = b\r\n    c\r\n"), FLUENT_READ,
     BYTES("Identifier 0 1\nTextElement 4 5\nTextElement 6 7\nTextElement 11 12\nPattern 4 12\nMessage 0 12\n")},
    {"a select by a call", BYTES("a = { F(1, n: \"q\") ->\n *[o] x\n }\n"), FLUENT_READ,
     BYTES("Identifier 0 1\nIdentifier 6 7\nNumberLiteral 8 9\nIdentifier 11 12\nStringLiteral 14 17\n"
           "NamedArgument 11 17\nCallArguments 7 18\nFunctionReference 6 18\nIdentifier 25 26\n"
           "TextElement 28 29\nPattern 28 29\nDefaultVariant 23 29\nSelect 6 31\nPlaceable 4 32\nPattern 4 32\n"
           "Message 0 32\n")},
    {"a blank before the dot and junk", BYTES("k = { m .b }\nx\n"), FLUENT_READ,
     BYTES("Identifier 0 1\nIdentifier 6 7\nIdentifier 9 10\nMessageReference 6 10\nPlaceable 4 12\n"
           "Pattern 4 12\nMessage 0 12\nJunk 13 15\n")},
    {"an attribute alone and a comment", BYTES("a =\n .b = { m }\n\n### r\n###\n"), FLUENT_READ,
     BYTES("Identifier 0 1\nIdentifier 6 7\nIdentifier 12 13\nMessageReference 12 13\nPlaceable 10 15\n"
           "Pattern 10 15\nAttribute 5 15\nMessage 0 15\nResourceComment 17 26\n")},
    {"a text after a select", BYTES("a =\n   { -t.b ->\n *[c] { $d }\n }\n  e\n"), FLUENT_READ,
     BYTES("Identifier 0 1\nIdentifier 10 11\nIdentifier 12 13\nTermReference 9 13\nIdentifier 20 21\n"
           "Identifier 26 27\nVariableReference 25 27\nPlaceable 23 29\nPattern 23 29\nDefaultVariant 18 29\n"
           "Select 9 31\nPlaceable 7 32\nTextElement 32 33\nTextElement 35 36\nPattern 4 36\nMessage 0 36\n")},
    {"a nested placeable and a key that is a number", BYTES("a = {{ -t(1) }}{1->\n*[2]b\n}\n"), FLUENT_READ,
     BYTES("Identifier 0 1\nIdentifier 8 9\nNumberLiteral 10 11\nCallArguments 9 12\nTermReference 7 12\n"
           "Placeable 5 14\nPlaceable 4 15\nNumberLiteral 16 17\nNumberLiteral 22 23\nTextElement 24 25\n"
           "Pattern 24 25\nDefaultVariant 20 25\nSelect 16 26\nPlaceable 15 27\nPattern 4 27\nMessage 0 27\n")},
    {"no UTF-8", BYTES("a = \xff\n"), FLUENT_NOT_UTF8, {0}},
};

static const struct Bytes BEFORE = BYTES("# x\n");
static const struct Bytes LINES_BEFORE = BYTES("Comment 0 3\n");

/* Makes the call in the place of no text or of one. If there are no lines, what was there is as it was. */
static bool is_right(bool is_held, struct Bytes source, uint32_t status, const struct Bytes *lines) {
    struct FluentText made = {0};
    long blocks = blocks_in_use();
    if (is_held && fluent_nodes(BEFORE.at, BEFORE.len, &made) != FLUENT_READ)
        return false;
    const struct FluentText before = made;
    bool is_status = fluent_nodes(source.at, source.len, &made) == status;
    bool is_text = status != FLUENT_READ ? is_same(&made, &before, LINES_BEFORE) : !lines || holds(&made, *lines);
    fluent_free_text(&made);
    return is_status && is_text && blocks_in_use() == blocks;
}

bool try_nodes(void) {
    struct Tally tally = {"fluent_nodes", 0, 0};
    for (int held = 0; held < 2; held++) {
        for (size_t i = 0; i < sizeof ROWS / sizeof *ROWS; i++)
            count_try(&tally, ROWS[i].name, is_right(held, ROWS[i].source, ROWS[i].status, &ROWS[i].lines));
        count_try(&tally, "the last level", is_right(held, nested(MOST_LEVELS), FLUENT_READ, NULL));
        count_try(&tally, "a level more", is_right(held, nested(MOST_LEVELS + 1), FLUENT_NO_MEMORY, NULL));
    }
    return print_tally(&tally);
}
