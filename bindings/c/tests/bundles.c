/* fluent_bundle_new, fluent_bundle_new_within, fluent_bundle_new_plain, fluent_bundle_has, fluent_bundle_errors and
 * fluent_bundle_free. */
#include "tests.h"

/* The budget that fluent_bundle_new has. */
#define THREAD 1572864
/* What stands for fluent_bundle_new_plain within that budget, in the place of a budget. */
#define PLAIN SIZE_MAX

struct Row {
    const char *name;
    struct FluentSource sources[2];
    size_t count;
    struct Bytes locale;
    uint32_t status;
    /* What is wrong with the sources, if a bundle is made. */
    struct Bytes report;
};

#define NONE BYTES("")
#define MESSAGES BYTES("bare =\n    .title = Title\nwelcome = Welcome.\n    .title = Log in\n    .title = Second\n-term = Term\n")
#define AGAIN BYTES("welcome = Hello!\ng@Rb@ge\n")
#define OTHER BYTES("key = \xff\n")

static const struct Row ROWS[] = {
    {"no source", {MESSAGES}, 0, NONE, FLUENT_READ, NONE},
    {"messages", {MESSAGES}, 1, BYTES("pl"), FLUENT_READ, NONE},
    {"errors", {MESSAGES, AGAIN}, 2, BYTES("en-GB"), FLUENT_READ,
     BYTES("source 2: bytes 18..19: ExpectedToken\nAttempt to override an existing message: \"welcome\".\n")},
    {"no UTF-8", {MESSAGES, OTHER}, 2, NONE, FLUENT_NOT_UTF8, {0}},
    {"no UTF-8 and no tag", {OTHER}, 1, BYTES("x"), FLUENT_NOT_UTF8, {0}},
    {"no tag", {MESSAGES}, 1, BYTES("x"), FLUENT_UNKNOWN_LOCALE, {0}},
};

/* What is looked for in the bundle of `messages`. */
struct Found {
    struct Bytes id, attribute;
    uint32_t status;
};

static const struct Found FOUND[] = {
    {BYTES("welcome"), NONE, FLUENT_READ},
    {BYTES("welcome"), BYTES("title"), FLUENT_READ},
    {BYTES("bare"), BYTES("title"), FLUENT_READ},
    {BYTES("bare"), NONE, FLUENT_NO_PATTERN},
    {BYTES("welcome"), BYTES("label"), FLUENT_NO_PATTERN},
    {BYTES("nothing"), NONE, FLUENT_NO_MESSAGE},
    {BYTES("nothing"), BYTES("title"), FLUENT_NO_MESSAGE},
    {BYTES("term"), NONE, FLUENT_NO_MESSAGE},
    {NONE, NONE, FLUENT_NO_MESSAGE},
    {BYTES("\xff"), NONE, FLUENT_NOT_UTF8},
    {BYTES("welcome"), BYTES("\xff"), FLUENT_NOT_UTF8},
};

static uint32_t make(const struct Row *row, size_t stack, struct FluentBundle *made) {
    if (stack == PLAIN)
        return fluent_bundle_new_plain(row->sources, row->count, row->locale.at, row->locale.len, false, false, THREAD, made);
    if (stack != 0)
        return fluent_bundle_new_within(row->sources, row->count, row->locale.at, row->locale.len, false, false, stack, made);
    return fluent_bundle_new(row->sources, row->count, row->locale.at, row->locale.len, false, false, made);
}

static uint32_t has(struct FluentBundle *bundle, const struct Found *found) {
    return fluent_bundle_has(bundle, found->id.at, found->id.len, found->attribute.at, found->attribute.len);
}

/* Whether this is reported, in the place of no text or of one. If it isn't to be, what was there is as it was. */
static bool reports(struct FluentBundle *bundle, bool is_held, uint32_t status, struct Bytes wanted) {
    static const struct Bytes before_bytes = BYTES("before = before\n");
    struct FluentText report = {0};
    if (is_held && fluent_write(before_bytes.at, before_bytes.len, false, &report) != FLUENT_READ)
        return false;
    const struct FluentText before = report;
    bool is_status = fluent_bundle_errors(bundle, &report) == status;
    bool is_text = status == FLUENT_READ ? holds(&report, wanted) : is_same(&report, &before, before_bytes);
    fluent_free_text(&report);
    return is_status && is_text;
}

static bool is_as_before(const struct FluentBundle *bundle, const struct FluentBundle *before) {
    return bundle->held == before->held && bundle->sources == before->sources && bundle->read == before->read
        && bundle->desk == before->desk;
}

/* Makes a bundle in the place of none or of one, asks it what is wrong, and frees it, twice. If none is made, what was there is as it
 * was. */
static bool is_made(const struct Row *row, size_t stack, bool is_held) {
    struct FluentBundle bundle = {0};
    long blocks = blocks_in_use();
    if (is_held && make(&ROWS[1], 0, &bundle) != FLUENT_READ)
        return false;
    const struct FluentBundle before = bundle;
    bool is_status = make(row, stack, &bundle) == row->status;
    bool is_bundle = row->status != FLUENT_READ
        ? is_as_before(&bundle, &before)
        : bundle.held && reports(&bundle, false, FLUENT_READ, row->report) && reports(&bundle, true, FLUENT_READ, row->report);
    bool answers = !is_held || row->status == FLUENT_READ || has(&bundle, &FOUND[0]) == FLUENT_READ;
    fluent_bundle_free(&bundle);
    fluent_bundle_free(&bundle);
    return is_status && is_bundle && answers && !bundle.held && blocks_in_use() == blocks;
}

static void try_row(struct Tally *made, struct Tally *within, const struct Row *row) {
    for (int held = 0; held < 2; held++) {
        count_try(made, row->name, is_made(row, 0, held));
        count_try(within, row->name, is_made(row, THREAD, held));
    }
}

/* Sources that nest deep, within the usual budget, a smaller and a greater one. */
static void try_depths(struct Tally *made, struct Tally *within) {
    struct Bytes source = nested(MOST_LEVELS);
    const struct Row last = {"the last level", {{source.at, source.len}}, 1, NONE, FLUENT_READ, NONE};
    try_row(made, within, &last);
    struct Row deep = last;
    deep.status = FLUENT_NO_MEMORY;
    count_try(within, "a smaller budget", is_made(&deep, THREAD / 2, true));
    source = nested(MOST_LEVELS + 1);
    deep.name = "a level more", deep.sources[0].len = source.len;
    try_row(made, within, &deep);
    deep.status = FLUENT_READ;
    count_try(within, "a greater budget", is_made(&deep, 2 * THREAD, true));
}

/* What bundles of these calls have for a number: `locale` names the numbers, and the calls of the budgets 0 and PLAIN are made. */
struct Number {
    const char *name;
    struct Bytes locale;
    size_t stack;
    struct Bytes text;
};

static const struct Number NUMBERS[] = {
    {"German numbers", BYTES("de_AT.UTF-8"), 0, BYTES("\xe2\x82\xac\xc2\xa0" "1.234,50")},
    {"German numbers within a budget", BYTES("de"), THREAD, BYTES("1.234,50\xc2\xa0\xe2\x82\xac")},
    {"plain numbers in German", BYTES("de"), PLAIN, BYTES("1234.5")},
    {"no locale", NONE, THREAD, BYTES("1234.5")},
};

/* Whether a bundle writes 1234.5 euros so. */
static bool writes(const struct Number *number) {
    const struct Row row = {
        number->name, {BYTES("sum = { NUMBER($n, style: \"currency\", currency: \"EUR\") }\n")}, 1, number->locale, FLUENT_READ, NONE};
    const struct FluentArgument n = {
        .name = (const uint8_t *)"n", .name_len = 1, .text = (const uint8_t *)"1234.5", .text_len = 6, .kind = FLUENT_DECIMAL};
    struct FluentBundle bundle = {0};
    struct FluentText text = {0}, errors = {0};
    bool is_right = make(&row, number->stack, &bundle) == FLUENT_READ
        && fluent_bundle_format(&bundle, (const uint8_t *)"sum", 3, (const uint8_t *)"", 0, &n, 1, &text, &errors) == FLUENT_READ
        && holds(&text, number->text) && !errors.held;
    fluent_free_text(&text);
    fluent_bundle_free(&bundle);
    return is_right;
}

static bool try_found(void) {
    struct Tally tally = {"fluent_bundle_has", 0, 0};
    struct FluentBundle bundle = {0};
    count_try(&tally, "no bundle", has(&bundle, &FOUND[0]) == FLUENT_NO_BUNDLE);
    if (make(&ROWS[1], 0, &bundle) != FLUENT_READ)
        return false;
    for (size_t i = 0; i < sizeof FOUND / sizeof *FOUND; i++)
        count_try(&tally, (const char *)FOUND[i].id.at, has(&bundle, &FOUND[i]) == FOUND[i].status);
    fluent_bundle_free(&bundle);
    count_try(&tally, "a bundle that was freed", has(&bundle, &FOUND[0]) == FLUENT_NO_BUNDLE);
    return print_tally(&tally);
}

bool try_bundles(void) {
    struct Tally made = {"fluent_bundle_new", 0, 0}, within = {"fluent_bundle_new_within", 0, 0};
    for (size_t i = 0; i < sizeof ROWS / sizeof *ROWS; i++)
        try_row(&made, &within, &ROWS[i]);
    try_depths(&made, &within);
    struct Tally plain = {"fluent_bundle_new_plain", 0, 0};
    for (size_t i = 0; i < sizeof ROWS / sizeof *ROWS; i++)
        count_try(&plain, ROWS[i].name, is_made(&ROWS[i], PLAIN, i % 2));
    for (size_t i = 0; i < sizeof NUMBERS / sizeof *NUMBERS; i++)
        count_try(NUMBERS[i].stack == PLAIN ? &plain : NUMBERS[i].stack ? &within : &made, NUMBERS[i].name, writes(&NUMBERS[i]));
    struct Tally reported = {"fluent_bundle_errors", 0, 0};
    struct FluentBundle none = {0};
    count_try(&reported, "no bundle", reports(&none, false, FLUENT_NO_BUNDLE, (struct Bytes)NONE));
    count_try(&reported, "no bundle", reports(&none, true, FLUENT_NO_BUNDLE, (struct Bytes)NONE));
    bool is_right = print_tally(&made);
    is_right &= print_tally(&within);
    is_right &= print_tally(&plain);
    is_right &= print_tally(&reported);
    return try_found() && is_right;
}
