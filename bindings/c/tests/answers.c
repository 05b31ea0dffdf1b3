/* fluent_answer and fluent_answer_plain. */
#include "tests.h"

struct Row {
    const char *name;
    struct FluentSource sources[2];
    size_t count;
    struct Bytes locale;
    bool isolating, overriding;
    struct Bytes requests;
    uint32_t status;
    struct Bytes answers;
};

#define WELCOME BYTES("welcome = Welcome, { $name }.\n")
#define HELLO BYTES("welcome = Hello!\nbye = Goodbye!\n")
#define OTHER BYTES("key = \xff\n")
#define FILES BYTES("files = { $n ->\n    [one] plik\n    [few] pliki\n   *[other] plik\xc3\xb3w\n}\n")
#define FILES_ASKED BYTES("files\tn=1\nfiles\tn=22\nfiles\tn=1.5\n")
#define NUMBERS BYTES("sum = { NUMBER($n, style: \"currency\", currency: \"EUR\") }\nshare = { NUMBER($n, style: \"percent\") }\nn = { $n }\n")
#define NUMBERS_ASKED BYTES("sum\tn=1234.5\nshare\tn=0.125\nn\tn=1234567.891\n")
#define PLAIN_NUMBERS BYTES("ok 6 0\n1234.5\nok 5 0\n0.125\nok 11 0\n1234567.891\n")
#define NONE BYTES("")

static const struct Row ROWS[] = {
    {"no request", {WELCOME, HELLO}, 2, NONE, false, false, NONE, FLUENT_READ, NONE},
    {"no source", {WELCOME}, 0, NONE, false, false, BYTES("welcome\n"), FLUENT_READ, BYTES("none\n")},
    {"the first entry", {WELCOME, HELLO}, 2, NONE, false, false, BYTES("welcome\tname=Jane\nwelcome\nbye"), FLUENT_READ,
     BYTES("ok 14 0\nWelcome, Jane.\nok 17 1\nWelcome, {$name}.\nUnknown variable: $name\nok 8 0\nGoodbye!\n")},
    {"the last entry", {WELCOME, HELLO}, 2, NONE, false, true, BYTES("welcome\n"), FLUENT_READ, BYTES("ok 6 0\nHello!\n")},
    {"marks", {WELCOME}, 1, NONE, true, false, BYTES("welcome\tname=Jane\n"), FLUENT_READ,
     BYTES("ok 20 0\nWelcome, \xe2\x81\xa8Jane\xe2\x81\xa9.\n")},
    {"requests that are bad", {WELCOME}, 1, NONE, false, false, BYTES("welcome\tname\n\xff\nwelcome.title\n"), FLUENT_READ,
     BYTES("bad\nbad\nnone\n")},
    {"Polish", {FILES}, 1, BYTES("pl_PL.UTF-8"), false, false, FILES_ASKED, FLUENT_READ,
     BYTES("ok 4 0\nplik\nok 5 0\npliki\nok 7 0\nplik\xc3\xb3w\n")},
    {"English", {FILES}, 1, NONE, false, false, FILES_ASKED, FLUENT_READ,
     BYTES("ok 4 0\nplik\nok 7 0\nplik\xc3\xb3w\nok 7 0\nplik\xc3\xb3w\n")},
    {"no UTF-8", {WELCOME, OTHER}, 2, NONE, false, false, BYTES("welcome\n"), FLUENT_NOT_UTF8, {0}},
    {"no UTF-8 and no tag", {WELCOME, OTHER}, 2, BYTES("x"), false, false, BYTES("welcome\n"), FLUENT_NOT_UTF8, {0}},
    {"no tag", {FILES}, 1, BYTES("x"), false, false, FILES_ASKED, FLUENT_UNKNOWN_LOCALE, {0}},
    {"no tag", {FILES}, 1, BYTES("\xff"), false, false, FILES_ASKED, FLUENT_UNKNOWN_LOCALE, {0}},
    {"half a tag", {FILES}, 1, BYTES("-"), false, false, FILES_ASKED, FLUENT_UNKNOWN_LOCALE, {0}},
    {"German numbers", {NUMBERS}, 1, BYTES("de"), false, false, NUMBERS_ASKED, FLUENT_READ,
     BYTES("ok 13 0\n1.234,50\xc2\xa0\xe2\x82\xac\nok 5 0\n13\xc2\xa0%\nok 13 0\n1.234.567,891\n")},
    {"Hindi numbers", {NUMBERS}, 1, BYTES("hi_IN.UTF-8"), false, false, NUMBERS_ASKED, FLUENT_READ,
     BYTES("ok 11 0\n\xe2\x82\xac" "1,234.50\nok 3 0\n13%\nok 13 0\n12,34,567.891\n")},
    {"no locale", {NUMBERS}, 1, NONE, false, false, NUMBERS_ASKED, FLUENT_READ, PLAIN_NUMBERS},
    {"the locale C", {NUMBERS}, 1, BYTES("C.UTF-8"), false, false, NUMBERS_ASKED, FLUENT_READ, PLAIN_NUMBERS},
    {"rules and no numbers", {NUMBERS}, 1, BYTES("io"), false, false, NUMBERS_ASKED, FLUENT_READ, PLAIN_NUMBERS},
};

/* Those of fluent_answer_plain. */
static const struct Row PLAIN_ROWS[] = {
    {"German rules, and plain numbers", {NUMBERS}, 1, BYTES("de"), false, false, NUMBERS_ASKED, FLUENT_READ, PLAIN_NUMBERS},
    {"Polish, and plain numbers", {FILES}, 1, BYTES("pl_PL.UTF-8"), false, false, FILES_ASKED, FLUENT_READ,
     BYTES("ok 4 0\nplik\nok 5 0\npliki\nok 7 0\nplik\xc3\xb3w\n")},
    {"no UTF-8", {WELCOME, OTHER}, 2, NONE, false, false, BYTES("welcome\n"), FLUENT_NOT_UTF8, {0}},
    {"no tag", {FILES}, 1, BYTES("x"), false, false, FILES_ASKED, FLUENT_UNKNOWN_LOCALE, {0}},
};

typedef uint32_t Answering(const struct FluentSource *, size_t, const uint8_t *, size_t, bool, bool, const uint8_t *, size_t, struct FluentText *);

static const struct Bytes BEFORE = BYTES("before = before\n");

/* Asks in the place of no text or of one. If nothing is answered, what was there is as it was. */
static bool is_right(Answering *ask, const struct Row *row, bool is_held) {
    struct FluentText made = {0};
    long blocks = blocks_in_use();
    if (is_held && fluent_write(BEFORE.at, BEFORE.len, false, &made) != FLUENT_READ)
        return false;
    const struct FluentText before = made;
    bool is_status = ask(row->sources, row->count, row->locale.at, row->locale.len, row->isolating, row->overriding,
                         row->requests.at, row->requests.len, &made)
        == row->status;
    bool is_text = row->status == FLUENT_READ ? holds(&made, row->answers) : is_same(&made, &before, BEFORE);
    fluent_free_text(&made);
    return is_status && is_text && blocks_in_use() == blocks;
}

bool try_answers(void) {
    struct Tally tally = {"fluent_answer", 0, 0}, plain = {"fluent_answer_plain", 0, 0};
    for (size_t i = 0; i < 2 * (sizeof ROWS / sizeof *ROWS); i++)
        count_try(&tally, ROWS[i / 2].name, is_right(fluent_answer, &ROWS[i / 2], i % 2));
    for (size_t i = 0; i < 2 * (sizeof PLAIN_ROWS / sizeof *PLAIN_ROWS); i++)
        count_try(&plain, PLAIN_ROWS[i / 2].name, is_right(fluent_answer_plain, &PLAIN_ROWS[i / 2], i % 2));
    const struct Bytes source = nested(MOST_LEVELS + 1);
    const struct Row deep = {"a level more", {{source.at, source.len}}, 1, NONE, false, false, BYTES("a\n"), FLUENT_NO_MEMORY, {0}};
    count_try(&tally, deep.name, is_right(fluent_answer, &deep, false));
    count_try(&tally, deep.name, is_right(fluent_answer, &deep, true));
    count_try(&plain, deep.name, is_right(fluent_answer_plain, &deep, true));
    return print_tally(&tally) & print_tally(&plain);
}
