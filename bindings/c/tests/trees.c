/* fluent_write_tree. */
#include <string.h>

#include "tests.h"

#define NAME(name) "{\"name\":\"" name "\",\"type\":\"Identifier\"}"
#define TEXT(text) "{\"type\":\"TextElement\",\"value\":\"" text "\"}"
#define PATTERN(elements) "{\"elements\":[" elements "],\"type\":\"Pattern\"}"
#define MESSAGE(name, value) \
    "{\"attributes\":[],\"comment\":null,\"id\":" NAME(name) ",\"type\":\"Message\",\"value\":" value "}"
#define JUNK(content) "{\"content\":\"" content "\",\"type\":\"Junk\"}"
#define TREE(entries) "{\"body\":[" entries "],\"syntax\":\"2\",\"type\":\"Resource\"}"
#define UNVERSIONED(entries) "{\"body\":[" entries "],\"type\":\"Resource\"}"
/* A select by an attribute of a message, whose tree has a version. */
#define SELECT \
    MESSAGE("a", PATTERN("{\"type\":\"Placeable\",\"expression\":{\"type\":\"Select\",\"selector\":{\"type\":\"MessageReference\"," \
                         "\"id\":" NAME("m") ",\"attribute\":" NAME("b") "},\"variants\":[{\"type\":\"Variant\",\"key\":" NAME("o") \
                         ",\"value\":" PATTERN(TEXT("x")) ",\"default\":true}]}}"))

struct Row {
    const char *name;
    struct Bytes json;
    uint32_t status;
    /* What is written. */
    struct Bytes with_junk, without_junk;
};

static const struct Row ROWS[] = {
    {"no entries", BYTES(TREE("")), FLUENT_READ, BYTES(""), BYTES("")},
    {"no version", BYTES(UNVERSIONED("")), FLUENT_READ, BYTES(""), BYTES("")},
    {"blanks, and keys in another order", BYTES(" {\n\t\"type\": \"Resource\",\r\n \"syntax\": \"2\", \"body\" : [ ] }\n"),
     FLUENT_READ, BYTES(""), BYTES("")},
    {"a message", BYTES(TREE(MESSAGE("a", PATTERN(TEXT("b"))))), FLUENT_READ, BYTES("a = b\n"), BYTES("a = b\n")},
    {"escapes", BYTES(TREE(MESSAGE("a", PATTERN(TEXT("\\u00e9 \\ud83d\\ude02 \xc3\xa9"))))), FLUENT_READ,
     BYTES("a = \xc3\xa9 \xf0\x9f\x98\x82 \xc3\xa9\n"), BYTES("a = \xc3\xa9 \xf0\x9f\x98\x82 \xc3\xa9\n")},
    {"a text of two lines", BYTES(TREE(MESSAGE("a", PATTERN(TEXT("b\\n") "," TEXT("c"))))), FLUENT_READ,
     BYTES("a =\n    b\n    c\n"), BYTES("a =\n    b\n    c\n")},
    {"junk", BYTES(TREE(JUNK("!\\n") "," MESSAGE("a", PATTERN(TEXT("b"))))), FLUENT_READ, BYTES("!\na = b\n"), BYTES("a = b\n")},
    {"comments", BYTES(TREE("{\"content\":[\"c\",\"\"],\"type\":\"GroupComment\"},{\"content\":[\"d\"],\"type\":\"Comment\"}")),
     FLUENT_READ, BYTES("## c\n##\n\n\n# d\n\n"), BYTES("## c\n##\n\n\n# d\n\n")},
    {"a select by an attribute", BYTES(TREE(SELECT)), FLUENT_READ, BYTES("a =\n    { m.b ->\n       *[o] x\n    }\n"),
     BYTES("a =\n    { m.b ->\n       *[o] x\n    }\n")},
    {"a text that is read as something else", BYTES(TREE(MESSAGE("1 a", PATTERN(TEXT("{ b"))))), FLUENT_READ,
     BYTES("1 a = { b\n"), BYTES("1 a = { b\n")},
    {"a key twice", BYTES("{\"body\":0,\"type\":\"Resource\",\"body\":[]}"), FLUENT_READ, BYTES(""), BYTES("")},
    {"a select by an attribute without a version", BYTES(UNVERSIONED(SELECT)), FLUENT_NOT_TREE, {0}, {0}},
    {"another version", BYTES("{\"body\":[],\"syntax\":\"1\",\"type\":\"Resource\"}"), FLUENT_NOT_TREE, {0}, {0}},
    {"a number as the version", BYTES("{\"body\":[],\"syntax\":2,\"type\":\"Resource\"}"), FLUENT_NOT_TREE, {0}, {0}},
    {"a key too many", BYTES("{\"body\":[],\"span\":null,\"syntax\":\"2\",\"type\":\"Resource\"}"), FLUENT_NOT_TREE, {0}, {0}},
    {"a key too few", BYTES(TREE("{\"type\":\"Junk\"}")), FLUENT_NOT_TREE, {0}, {0}},
    {"a message alone", BYTES(MESSAGE("a", PATTERN(TEXT("b")))), FLUENT_NOT_TREE, {0}, {0}},
    {"null", BYTES("null"), FLUENT_NOT_TREE, {0}, {0}},
    {"nothing", BYTES(""), FLUENT_NOT_JSON, {0}, {0}},
    {"half a tree", BYTES("{\"body\":["), FLUENT_NOT_JSON, {0}, {0}},
    {"something after the tree", BYTES(TREE("") "!"), FLUENT_NOT_JSON, {0}, {0}},
    {"a number past the range of a double", BYTES("1e400"), FLUENT_NOT_JSON, {0}, {0}},
    {"a number", BYTES("1e300"), FLUENT_NOT_TREE, {0}, {0}},
    {"half a pair of surrogates", BYTES(TREE(MESSAGE("a", PATTERN(TEXT("\\ud800"))))), FLUENT_NOT_JSON, {0}, {0}},
    {"no UTF-8", BYTES("\"\xff\""), FLUENT_NOT_UTF8, {0}, {0}},
};

static const struct Bytes BEFORE = BYTES(TREE(MESSAGE("before", PATTERN(TEXT("it")))));
static const struct Bytes TEXT_BEFORE = BYTES("before = it\n");

/* Makes the call in the place of no text or of one. If nothing is written, what was there is as it was. */
static bool is_right(bool is_held, struct Bytes json, uint32_t status, bool with_junk, struct Bytes wanted) {
    struct FluentText made = {0};
    long blocks = blocks_in_use();
    if (is_held && fluent_write_tree(BEFORE.at, BEFORE.len, false, &made) != FLUENT_READ)
        return false;
    const struct FluentText before = made;
    bool is_status = fluent_write_tree(json.at, json.len, with_junk, &made) == status;
    bool is_text = status == FLUENT_READ ? holds(&made, wanted) : is_same(&made, &before, TEXT_BEFORE);
    fluent_free_text(&made);
    return is_status && is_text && blocks_in_use() == blocks;
}

/* Arrays, one in the other. */
static struct Bytes arrays(size_t levels) {
    static uint8_t text[2 * 128];
    memset(text, '[', levels);
    memset(text + levels, ']', levels);
    return (struct Bytes){text, 2 * levels};
}

bool try_trees(void) {
    struct Tally tally = {"fluent_write_tree", 0, 0};
    const struct Bytes none = {0};
    for (int held = 0; held < 2; held++) {
        for (size_t i = 0; i < sizeof ROWS / sizeof *ROWS; i++) {
            const struct Row *row = &ROWS[i];
            count_try(&tally, row->name, is_right(held, row->json, row->status, true, row->with_junk));
            count_try(&tally, row->name, is_right(held, row->json, row->status, false, row->without_junk));
        }
        count_try(&tally, "the last level", is_right(held, arrays(127), FLUENT_NOT_TREE, false, none));
        count_try(&tally, "a level more", is_right(held, arrays(128), FLUENT_NOT_JSON, false, none));
    }
    return print_tally(&tally);
}
