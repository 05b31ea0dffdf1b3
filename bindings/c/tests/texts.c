/* fluent_write, fluent_write_json and fluent_free_text. */
#include "tests.h"

struct Row {
    const char *name;
    struct Bytes source;
    uint32_t status;
    /* What is written. */
    struct Bytes with_junk, without_junk, json;
};

static const struct Row ROWS[] = {
    {"nothing", BYTES(""), FLUENT_READ, BYTES(""), BYTES(""), BYTES("{\"body\":[],\"syntax\":\"2\",\"type\":\"Resource\"}")},
    {"a message", BYTES("a = b\n"), FLUENT_READ, BYTES("a = b\n"), BYTES("a = b\n"),
     BYTES("{\"body\":[{\"attributes\":[],\"comment\":null,\"id\":{\"name\":\"a\",\"type\":\"Identifier\"},\"type\":\"Message\",\"value\":"
           "{\"elements\":[{\"type\":\"TextElement\",\"value\":\"b\"}],\"type\":\"Pattern\"}}],\"syntax\":\"2\",\"type\":\"Resource\"}")},
    {"junk", BYTES("!\n"), FLUENT_READ, BYTES("!\n"), BYTES(""),
     BYTES("{\"body\":[{\"content\":\"!\\n\",\"type\":\"Junk\"}],\"syntax\":\"2\",\"type\":\"Resource\"}")},
    {"junk between messages", BYTES("\nk1 = V\n\ng@Rb@ge = #2y ds\n\nk2 = V\n\n"), FLUENT_READ,
     BYTES("k1 = V\ng@Rb@ge = #2y ds\n\nk2 = V\n"), BYTES("k1 = V\nk2 = V\n"),
     BYTES("{\"body\":[{\"attributes\":[],\"comment\":null,\"id\":{\"name\":\"k1\",\"type\":\"Identifier\"},\"type\":\"Message\",\"value\":"
           "{\"elements\":[{\"type\":\"TextElement\",\"value\":\"V\"}],\"type\":\"Pattern\"}},"
           "{\"content\":\"g@Rb@ge = #2y ds\\n\\n\",\"type\":\"Junk\"},"
           "{\"attributes\":[],\"comment\":null,\"id\":{\"name\":\"k2\",\"type\":\"Identifier\"},\"type\":\"Message\",\"value\":"
           "{\"elements\":[{\"type\":\"TextElement\",\"value\":\"V\"}],\"type\":\"Pattern\"}}],\"syntax\":\"2\",\"type\":\"Resource\"}")},
    {"no UTF-8", BYTES("key = \xff\n"), FLUENT_NOT_UTF8, {0}, {0}, {0}},
};

static uint32_t write_with_junk(const uint8_t *text, size_t len, struct FluentText *made) { return fluent_write(text, len, true, made); }
static uint32_t write_without_junk(const uint8_t *text, size_t len, struct FluentText *made) { return fluent_write(text, len, false, made); }

static const struct Bytes BEFORE = BYTES("before = before\n");

/* Makes a call in the place of no text or of one. If it isn't read, what was there is as it was. Then the text is freed, twice. */
static bool is_right(
    uint32_t (*call)(const uint8_t *, size_t, struct FluentText *), bool is_held, struct Bytes source, uint32_t status,
    struct Bytes wanted) {
    struct FluentText made = {0};
    long blocks = blocks_in_use();
    if (is_held && fluent_write(BEFORE.at, BEFORE.len, false, &made) != FLUENT_READ)
        return false;
    const struct FluentText before = made;
    bool is_status = call(source.at, source.len, &made) == status;
    bool is_text = status == FLUENT_READ ? holds(&made, wanted) : is_same(&made, &before, BEFORE);
    fluent_free_text(&made);
    fluent_free_text(&made);
    return is_status && is_text && !made.held && blocks_in_use() == blocks;
}

static void try_row(struct Tally *written, struct Tally *json, const struct Row *row) {
    for (int held = 0; held < 2; held++) {
        count_try(written, row->name, is_right(write_with_junk, held, row->source, row->status, row->with_junk));
        count_try(written, row->name, is_right(write_without_junk, held, row->source, row->status, row->without_junk));
        count_try(json, row->name, is_right(fluent_write_json, held, row->source, row->status, row->json));
    }
}

bool try_texts(void) {
    struct Tally written = {"fluent_write", 0, 0}, json = {"fluent_write_json", 0, 0};
    for (size_t i = 0; i < sizeof ROWS / sizeof *ROWS; i++)
        try_row(&written, &json, &ROWS[i]);
    const struct Row deep = {"a level more", nested(MOST_LEVELS + 1), FLUENT_NO_MEMORY, {0}, {0}, {0}};
    try_row(&written, &json, &deep);
    bool is_written_right = print_tally(&written);
    return print_tally(&json) && is_written_right;
}
