/* fluent_lint. */
#include "tests.h"

#define MOST 2
#define FILE_OF(name, text) \
    { (const uint8_t *)(name), sizeof(name) - 1, (const uint8_t *)(text), sizeof(text) - 1 }

struct Row {
    const char *name;
    struct FluentFile files[MOST], references[MOST];
    struct FluentSource functions[MOST];
    struct Bytes locale;
    bool notes, strict;
    uint32_t status;
    struct Bytes report;
};

#define NONE BYTES("")
#define NO_FILE {{0}}
#define NO_FUNCTION {{0}}

#define CALL FILE_OF("de.ftl", "a = { F($n) } { G() }\n")
#define NO_F \
    "{\"code\":\"unknown-function\",\"column\":7,\"entry\":\"a\",\"file\":\"de.ftl\",\"hint\":null,\"line\":1,\"offset\":6," \
    "\"severity\":\"warning\",\"text\":\"there is no function `F`\"}\n"
#define NO_G \
    "{\"code\":\"unknown-function\",\"column\":17,\"entry\":\"a\",\"file\":\"de.ftl\",\"hint\":null,\"line\":1,\"offset\":16," \
    "\"severity\":\"warning\",\"text\":\"there is no function `G`\"}\n"

#define HALLO FILE_OF("de.ftl", "hi = Hallo, { $nmae }!\nbye = { hi }\n")
#define HELLO FILE_OF("en.ftl", "hi = Hello, { $name }!\nbye = Bye, { $name }!\n")
#define COMPARED \
    "{\"code\":\"unknown-variable\",\"column\":15,\"entry\":\"hi\",\"file\":\"de.ftl\"," \
    "\"hint\":\"did you mean `$name`?\",\"line\":1,\"offset\":14,\"severity\":\"error\",\"text\":\"the reference has no variable `$nmae`\"}\n" \
    "{\"code\":\"unknown-variable\",\"column\":1,\"entry\":\"bye\",\"file\":\"de.ftl\"," \
    "\"hint\":\"did you mean `$name`?\",\"line\":2,\"offset\":23,\"severity\":\"error\",\"text\":\"the reference has no variable `$nmae`\"}\n" \
    "{\"file\":\"de.ftl\",\"messages\":2,\"missing\":null,\"obsolete\":0,\"untranslated\":0}\n" \
    "{\"file\":\"en.ftl\",\"messages\":2,\"missing\":0,\"obsolete\":null,\"untranslated\":null}\n"

#define PLURAL FILE_OF("pl.ftl", "a = { $n ->\n   *[one] { $n } x\n }\n")
#define SAME_NOTE \
    "{\"code\":\"untranslated\",\"column\":1,\"entry\":\"a\",\"file\":\"de.ftl\",\"hint\":null,\"line\":1,\"offset\":0," \
    "\"severity\":\"note\",\"text\":\"the text is the same as in the reference\"}\n"
#define SAME_COUNTS \
    "{\"file\":\"de.ftl\",\"messages\":1,\"missing\":null,\"obsolete\":0,\"untranslated\":1}\n" \
    "{\"file\":\"en.ftl\",\"messages\":1,\"missing\":0,\"obsolete\":null,\"untranslated\":null}\n"

static const struct Row ROWS[] = {
    {"no files", NO_FILE, NO_FILE, NO_FUNCTION, NONE, false, false, FLUENT_READ, NONE},
    {"nothing wrong", {FILE_OF("a.ftl", "a = b\n"), FILE_OF("", "")}, NO_FILE, NO_FUNCTION, NONE, true, true, FLUENT_READ, NONE},
    {"an error", {FILE_OF("a.ftl", "key1=Value 1\ng@Rb@ge\nkey2 = x\n")}, NO_FILE, NO_FUNCTION, NONE, false, false, FLUENT_HAS_ERRORS,
     BYTES("{\"code\":\"syntax\",\"column\":2,\"entry\":\"g\",\"file\":\"a.ftl\",\"hint\":\"a line that continues a text begins "
           "with at least one space\",\"line\":2,\"offset\":14,\"severity\":\"error\",\"text\":\"expected `=` after `g`, found `@`\"}\n")},
    {"an id of another file", {FILE_OF("a.ftl", "a = b\n"), FILE_OF("b.ftl", "a = { -t }\n")}, NO_FILE, NO_FUNCTION, NONE, false, false,
     FLUENT_HAS_ERRORS,
     BYTES("{\"code\":\"duplicate-id\",\"column\":1,\"entry\":\"a\",\"file\":\"b.ftl\",\"hint\":null,\"line\":1,\"offset\":0,"
           "\"severity\":\"error\",\"text\":\"the entry at a.ftl:1:1 has the same id, so this one is never shown\"}\n"
           "{\"code\":\"unknown-term\",\"column\":7,\"entry\":\"a\",\"file\":\"b.ftl\",\"hint\":null,\"line\":1,\"offset\":6,"
           "\"severity\":\"error\",\"text\":\"there is no term `-t`\"}\n")},
    {"warnings", {CALL}, NO_FILE, NO_FUNCTION, NONE, false, false, FLUENT_READ, BYTES(NO_F NO_G)},
    {"warnings that count", {CALL}, NO_FILE, NO_FUNCTION, NONE, false, true, FLUENT_HAS_ERRORS, BYTES(NO_F NO_G)},
    {"a function of the program", {CALL}, NO_FILE, {BYTES("F")}, NONE, false, true, FLUENT_HAS_ERRORS, BYTES(NO_G)},
    {"two of them", {CALL}, NO_FILE, {BYTES("G"), BYTES("F")}, NONE, false, true, FLUENT_READ, NONE},
    {"a reference", {HALLO}, {HELLO}, NO_FUNCTION, NONE, false, false, FLUENT_HAS_ERRORS, BYTES(COMPARED)},
    {"a note", {FILE_OF("de.ftl", "a = b\n")}, {FILE_OF("en.ftl", "a = b\n")}, NO_FUNCTION, NONE, true, true, FLUENT_READ,
     BYTES(SAME_NOTE SAME_COUNTS)},
    {"no notes", {FILE_OF("de.ftl", "a = b\n")}, {FILE_OF("en.ftl", "a = b\n")}, NO_FUNCTION, NONE, false, true, FLUENT_READ,
     BYTES(SAME_COUNTS)},
    {"no locale", {PLURAL}, NO_FILE, NO_FUNCTION, NONE, false, true, FLUENT_READ, NONE},
    {"a locale", {PLURAL}, NO_FILE, NO_FUNCTION, BYTES("en"), false, true, FLUENT_READ, NONE},
    {"a locale with more categories", {PLURAL}, NO_FILE, NO_FUNCTION, BYTES("cy"), false, false, FLUENT_READ,
     BYTES("{\"code\":\"missing-category\",\"column\":7,\"entry\":\"a\",\"file\":\"pl.ftl\",\"hint\":null,\"line\":1,\"offset\":6,"
           "\"severity\":\"warning\",\"text\":\"there is no variant for the plural category `zero`\"}\n"
           "{\"code\":\"missing-category\",\"column\":7,\"entry\":\"a\",\"file\":\"pl.ftl\",\"hint\":null,\"line\":1,\"offset\":6,"
           "\"severity\":\"warning\",\"text\":\"there is no variant for the plural category `two`\"}\n"
           "{\"code\":\"missing-category\",\"column\":7,\"entry\":\"a\",\"file\":\"pl.ftl\",\"hint\":null,\"line\":1,\"offset\":6,"
           "\"severity\":\"warning\",\"text\":\"there is no variant for the plural category `few`\"}\n"
           "{\"code\":\"missing-category\",\"column\":7,\"entry\":\"a\",\"file\":\"pl.ftl\",\"hint\":null,\"line\":1,\"offset\":6,"
           "\"severity\":\"warning\",\"text\":\"there is no variant for the plural category `many`\"}\n")},
    {"the locale C", {PLURAL}, NO_FILE, NO_FUNCTION, BYTES("C"), false, true, FLUENT_READ, NONE},
    {"an unknown locale", {PLURAL}, NO_FILE, NO_FUNCTION, BYTES("x"), false, false, FLUENT_UNKNOWN_LOCALE, {0}},
    {"a name", {FILE_OF("\xff", "")}, NO_FILE, NO_FUNCTION, NONE, false, false, FLUENT_NOT_UTF8, {0}},
    {"a text", {FILE_OF("a", ""), FILE_OF("b", "\xff")}, NO_FILE, NO_FUNCTION, BYTES("x"), false, false, FLUENT_NOT_UTF8, {0}},
    {"a reference's name", NO_FILE, {FILE_OF("a", ""), FILE_OF("\xff", "")}, NO_FUNCTION, NONE, false, false, FLUENT_NOT_UTF8, {0}},
    {"a reference's text", NO_FILE, {FILE_OF("a", "\xff")}, NO_FUNCTION, NONE, false, false, FLUENT_NOT_UTF8, {0}},
    {"a function's name", NO_FILE, NO_FILE, {BYTES("F"), BYTES("\xff")}, NONE, false, false, FLUENT_NOT_UTF8, {0}},
};

static size_t count_of(const struct FluentFile *files) {
    size_t count = 0;
    while (count < MOST && files[count].name)
        count++;
    return count;
}

static size_t function_count_of(const struct FluentSource *functions) {
    size_t count = 0;
    while (count < MOST && functions[count].text)
        count++;
    return count;
}

static uint32_t lint(const struct Row *row, struct FluentText *report) {
    const struct FluentLintOptions options = {
        row->functions, function_count_of(row->functions), row->locale.at, row->locale.len, row->notes, row->strict};
    return fluent_lint(row->files, count_of(row->files), row->references, count_of(row->references), &options, report);
}

/* Makes the call in the place of no text or of one. If there is no report, what was there is as it was. */
static bool is_right(bool is_held, const struct Row *row) {
    static const struct Bytes compared = BYTES(COMPARED);
    static const struct Row before_row = {"before", {HALLO}, {HELLO}, NO_FUNCTION, NONE, false, false, FLUENT_HAS_ERRORS, BYTES(COMPARED)};
    struct FluentText report = {0};
    long blocks = blocks_in_use();
    if (is_held && lint(&before_row, &report) != FLUENT_HAS_ERRORS)
        return false;
    const struct FluentText before = report;
    bool is_status = lint(row, &report) == row->status;
    bool is_made = row->status == FLUENT_READ || row->status == FLUENT_HAS_ERRORS;
    bool is_text = is_made ? holds(&report, row->report) : is_same(&report, &before, compared);
    fluent_free_text(&report);
    return is_status && is_text && blocks_in_use() == blocks;
}

static struct FluentFile deep_file(void) {
    struct Bytes deep = nested(MOST_LEVELS + 1);
    return (struct FluentFile){(const uint8_t *)"a", 1, deep.at, deep.len};
}

bool try_linting(void) {
    struct Tally tally = {"fluent_lint", 0, 0};
    const struct Row deep = {"a level more", {deep_file()}, NO_FILE, NO_FUNCTION, NONE, false, false, FLUENT_NO_MEMORY, {0}};
    const struct Row deep_reference = {"a reference with one", NO_FILE, {deep_file()}, NO_FUNCTION, NONE, false, false, FLUENT_NO_MEMORY, {0}};
    for (int held = 0; held < 2; held++) {
        for (size_t i = 0; i < sizeof ROWS / sizeof *ROWS; i++)
            count_try(&tally, ROWS[i].name, is_right(held, &ROWS[i]));
        count_try(&tally, deep.name, is_right(held, &deep));
        count_try(&tally, deep_reference.name, is_right(held, &deep_reference));
    }
    return print_tally(&tally);
}
