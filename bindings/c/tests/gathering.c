/* fluent_bundle_calls. */
#include <string.h>

#include "tests.h"

#define NONE BYTES("")
#define NAMED(literal) .name = (const uint8_t *)(literal), .name_len = sizeof(literal) - 1
#define TEXT(literal) .text = (const uint8_t *)(literal), .text_len = sizeof(literal) - 1
#define SAYS(call, value) {NAMED(call), TEXT(value), .kind = FLUENT_TEXT}

/* A call of A with a number, its line, and calls of B and F. */
#define A(number) "[\"A\",[{\"number\":\"" #number "\"}],{}]"
#define LINE(number) A(number) "\n"
#define B_OF_X "[\"B\",[\"x\"],{}]"

static const struct FluentSource SOURCES[] = {
    BYTES("sides = { A(1) } and { A(2) } and { A(1) }\n    .title = { A(9) }\nnested = { F(A(1), B(A(2)), $n, A(3)) } { A(4) }\n"
          "chosen = { A(1) } { A(2) ->\n    [x] { A(3) }\n   *[other] { A(4) }\n} { A(5) }\nwithin = { A(1) } { F({ A(2) }, A(3)) } { A(4) }\n"
          "refers = { $n } { plain } { -brand } { A(1) } { chosen } { A(6) }\nplain = Plain\n-brand = { 1 }\ntitled =\n    .a = A\n"
          "unknown = { G(A(1)) } { NUMBER(A(2)) } { A(\"\\u000A\") }\nitself = { A(1) } { itself } { A(2) }\n"
          "many = { A(0) }{ 1 }{ 1 }{ 1 }{ 1 }{ 1 }{ 1 }{ 1 }{ 1 }{ 1 }{ ten }{ ten }{ ten }{ ten }{ ten }{ ten }{ ten }{ ten }{ A(1) }{ A(2) }{ A(3) }\n"
          "ten = { 1 }{ 1 }{ 1 }{ 1 }{ 1 }{ 1 }{ 1 }{ 1 }{ 1 }{ 1 }\n"),
};

static const struct FluentSource FUNCTIONS[] = {BYTES("A"), BYTES("B"), BYTES("F")};

struct Row {
    const char *name;
    struct Bytes id, attribute;
    struct FluentArgument answers[3];
    size_t count;
    uint32_t status;
    struct Bytes calls;
};

static const struct Row ROWS[] = {
    {"side by side, one of them twice", BYTES("sides"), NONE, {{0}}, 0, FLUENT_READ, BYTES(LINE(1) LINE(2) LINE(1))},
    {"those without an answer", BYTES("sides"), NONE, {SAYS(A(1), "x")}, 1, FLUENT_READ, BYTES(LINE(2))},
    {"all have answers", BYTES("sides"), NONE, {SAYS(A(1), "x"), SAYS(A(2), "x")}, 2, FLUENT_READ, BYTES("")},
    {"of an attribute", BYTES("sides"), BYTES("title"), {{0}}, 0, FLUENT_READ, BYTES(LINE(9))},
    {"the innermost, and those after them", BYTES("nested"), NONE, {{0}}, 0, FLUENT_READ, BYTES(LINE(1) LINE(2) LINE(3) LINE(4))},
    {"a call whose argument has an answer", BYTES("nested"), NONE, {SAYS(A(2), "x")}, 1, FLUENT_READ,
     BYTES(LINE(1) B_OF_X "\n" LINE(3) LINE(4))},
    {"a select ends it", BYTES("chosen"), NONE, {{0}}, 0, FLUENT_READ, BYTES(LINE(1) LINE(2))},
    {"a select whose selector is known", BYTES("chosen"), NONE, {SAYS(A(2), "x")}, 1, FLUENT_READ, BYTES(LINE(1) LINE(3))},
    {"the other variant", BYTES("chosen"), NONE, {SAYS(A(2), "y")}, 1, FLUENT_READ, BYTES(LINE(1) LINE(4))},
    {"after the select", BYTES("chosen"), NONE, {SAYS(A(2), "y"), SAYS(A(4), "y")}, 2, FLUENT_READ, BYTES(LINE(1) LINE(5))},
    {"a placeable in an argument ends it", BYTES("within"), NONE, {{0}}, 0, FLUENT_READ, BYTES(LINE(1) LINE(2))},
    {"messages and terms without calls don't", BYTES("refers"), NONE, {{0}}, 0, FLUENT_READ, BYTES(LINE(1) LINE(1))},
    {"an unknown function and NUMBER", BYTES("unknown"), NONE, {{0}}, 0, FLUENT_READ,
     BYTES(LINE(1) LINE(2) "[\"A\",[\"\\n\"],{}]\n")},
    {"a message that refers to itself", BYTES("itself"), NONE, {{0}}, 0, FLUENT_READ, BYTES(LINE(1) LINE(2))},
    {"only those that are met", BYTES("many"), NONE, {{0}}, 0, FLUENT_READ, BYTES(LINE(0) LINE(1) LINE(2))},
    {"no call", BYTES("plain"), NONE, {{0}}, 0, FLUENT_READ, BYTES("")},
    {"no message", BYTES("nothing"), NONE, {{0}}, 0, FLUENT_NO_MESSAGE, {0}},
    {"a function is no message", BYTES("A"), NONE, {{0}}, 0, FLUENT_NO_MESSAGE, {0}},
    {"no value of a message", BYTES("titled"), NONE, {{0}}, 0, FLUENT_NO_PATTERN, {0}},
    {"no attribute", BYTES("titled"), BYTES("b"), {{0}}, 0, FLUENT_NO_PATTERN, {0}},
    {"an unknown kind", BYTES("plain"), NONE, {{NAMED("x"), TEXT(""), .kind = 6}}, 1, FLUENT_BAD_ARGUMENT, {0}},
    {"an answer that isn't UTF-8", BYTES("plain"), NONE, {SAYS("x", "\xff")}, 1, FLUENT_NOT_UTF8, {0}},
    {"an id that isn't", BYTES("\xff"), NONE, {{0}}, 0, FLUENT_NOT_UTF8, {0}},
};

static const struct FluentArgument N = {NAMED("n"), TEXT("1.50"), .kind = FLUENT_DECIMAL};

static uint32_t list(struct FluentBundle *bundle, const struct Row *row, struct FluentText *calls) {
    return fluent_bundle_calls(
        bundle, row->id.at, row->id.len, row->attribute.at, row->attribute.len, &N, 1, row->answers, row->count, calls);
}

/* Lists in the place of no text or of one. It is as it was if there is no list. */
static bool is_right(struct FluentBundle *bundle, const struct Row *row, bool is_held) {
    static const struct Row other = {"before", BYTES("sides"), BYTES("title"), {{0}}, 0, FLUENT_READ, BYTES(LINE(9))};
    struct FluentText calls = {0};
    long blocks = blocks_in_use();
    if (is_held && list(bundle, &other, &calls) != FLUENT_READ)
        return false;
    const struct FluentText before = calls;
    bool is_status = list(bundle, row, &calls) == row->status;
    bool is_list = row->status == FLUENT_READ ? holds(&calls, row->calls) : is_same(&calls, &before, other.calls);
    fluent_free_text(&calls);
    return is_status && is_list && blocks_in_use() == blocks;
}

bool try_gathering(void) {
    struct Tally tally = {"fluent_bundle_calls", 0, 0};
    struct FluentBundle bundle = {0};
    struct FluentText calls = {0};
    const struct FluentBundleOptions options = FLUENT_BUNDLE_OPTIONS;
    count_try(&tally, "no bundle", list(&bundle, &ROWS[0], &calls) == FLUENT_NO_BUNDLE && !calls.held);
    count_try(&tally, "a bundle", fluent_bundle_new_calling(SOURCES, 1, &options, FUNCTIONS, 3, &bundle) == FLUENT_READ);
    for (int held = 0; held < 2; held++)
        for (size_t i = 0; i < sizeof ROWS / sizeof *ROWS; i++)
            count_try(&tally, ROWS[i].name, is_right(&bundle, &ROWS[i], held));
    count_try(&tally, "a bundle without functions", fluent_bundle_new_with(SOURCES, 1, &options, &bundle) == FLUENT_READ
        && list(&bundle, &ROWS[0], &calls) == FLUENT_READ && calls.held && !calls.len);
    count_try(&tally, "what it lacks", list(&bundle, &ROWS[16], &calls) == FLUENT_NO_MESSAGE
        && list(&bundle, &ROWS[18], &calls) == FLUENT_NO_PATTERN);
    fluent_bundle_free(&bundle);
    fluent_free_text(&calls);
    return print_tally(&tally);
}
