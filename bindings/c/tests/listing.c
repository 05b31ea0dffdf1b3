/* fluent_bundle_messages, fluent_bundle_attributes and fluent_bundle_variables. */
#include "tests.h"

#define NONE BYTES("")

/* What bundles of these sources have. */
struct Row {
    const char *name;
    struct FluentSource sources[3];
    size_t count;
    bool overriding;
    struct Bytes messages;
};

#define FIRST BYTES("z = Z\n-brand = Brand\n# none\na = A\n    .title = Title\n    .label = Label\n    .title = Again\ng@Rb@ge\n")
#define SECOND BYTES("a = Other\nm =\n    .only = Only\n-z = Term\n")
#define THIRD BYTES("brand = Message\nNUMBER = None\nz = Z again\n")

static const struct Row ROWS[] = {
    {"no source", {FIRST}, 0, false, NONE},
    {"no message", {BYTES("-brand = Brand\n# none\n")}, 1, false, NONE},
    {"messages", {FIRST}, 1, false, BYTES("z\na\n")},
    {"messages of two sources", {FIRST, SECOND}, 2, false, BYTES("z\na\nm\n")},
    {"the last entry counts", {FIRST, SECOND}, 2, true, BYTES("a\nm\n")},
    {"a term that was there", {FIRST, SECOND, THIRD}, 3, false, BYTES("z\na\nm\n")},
    {"a message that comes last", {FIRST, SECOND, THIRD}, 3, true, BYTES("z\nbrand\na\nm\nNUMBER\n")},
};

/* What a message has: the attributes of one of FIRST and SECOND, or the variables of one of VARIABLES and LATER. */
struct Asked {
    struct Bytes id;
    bool overriding;
    uint32_t status;
    struct Bytes names;
};

static const struct Asked ASKED[] = {
    {BYTES("a"), false, FLUENT_READ, BYTES("title\nlabel\ntitle\n")},
    {BYTES("a"), true, FLUENT_READ, NONE},
    {BYTES("z"), false, FLUENT_READ, NONE},
    {BYTES("z"), true, FLUENT_NO_MESSAGE, {0}},
    {BYTES("m"), false, FLUENT_READ, BYTES("only\n")},
    {BYTES("brand"), false, FLUENT_NO_MESSAGE, {0}},
    {BYTES("nothing"), false, FLUENT_NO_MESSAGE, {0}},
    {NONE, false, FLUENT_NO_MESSAGE, {0}},
    {BYTES("\xff"), false, FLUENT_NOT_UTF8, {0}},
};

#define VARIABLES BYTES( \
    "own = { $b } { $a } { $b }\n    .title = { $c }\n" \
    "plain = Plain\n" \
    "only =\n    .title = { $o }\n" \
    "chosen = { $n ->\n    [one] { $x }\n   *[other] { NUMBER($y, minimumFractionDigits: 1) }\n}\n" \
    "-brand = { $case } { own }\n" \
    "named = { -brand } { -brand(case: \"x\") } { -brand($p) } { $a }\n" \
    "first = { second } { $f }\n" \
    "second = { third.title } { $s }\n" \
    "third = { $t }\n    .title = { $v }\n" \
    "itself = { itself } { itself.none } { $i }\n" \
    "round = { back } { $r }\nback = { round } { $b }\n" \
    "both = { left } { right } { $z }\nleft = { $m }{ $z }\nright = { $l } { $m }\n" \
    "absent = { nothing } { brand } { NUMBER } { $a }\n")
#define LATER BYTES("third = { $w }\n")

static const struct Asked ASKED_VARIABLES[] = {
    {BYTES("own"), false, FLUENT_READ, BYTES("b\na\nc\n")},
    {BYTES("plain"), false, FLUENT_READ, NONE},
    {BYTES("only"), false, FLUENT_READ, BYTES("o\n")},
    {BYTES("chosen"), false, FLUENT_READ, BYTES("n\nx\ny\n")},
    {BYTES("named"), false, FLUENT_READ, BYTES("p\na\n")},
    {BYTES("first"), false, FLUENT_READ, BYTES("f\ns\nt\nv\n")},
    {BYTES("first"), true, FLUENT_READ, BYTES("f\ns\nw\n")},
    {BYTES("itself"), false, FLUENT_READ, BYTES("i\n")},
    {BYTES("round"), false, FLUENT_READ, BYTES("r\nb\n")},
    {BYTES("back"), false, FLUENT_READ, BYTES("b\nr\n")},
    {BYTES("both"), false, FLUENT_READ, BYTES("z\nm\nl\n")},
    {BYTES("absent"), false, FLUENT_READ, BYTES("a\n")},
    {BYTES("brand"), false, FLUENT_NO_MESSAGE, {0}},
    {BYTES("NUMBER"), false, FLUENT_NO_MESSAGE, {0}},
    {BYTES("nothing"), false, FLUENT_NO_MESSAGE, {0}},
    {NONE, false, FLUENT_NO_MESSAGE, {0}},
    {BYTES("\xff"), false, FLUENT_NOT_UTF8, {0}},
};

static const struct Bytes BEFORE = BYTES("before = before\n");

/* A text to be replaced, or none. */
static struct FluentText text_before(bool is_held) {
    struct FluentText text = {0};
    if (is_held)
        fluent_write(BEFORE.at, BEFORE.len, false, &text);
    return text;
}

/* Lists what a message has, or the ids of a bundle. */
typedef uint32_t (*List)(struct FluentBundle *bundle, const uint8_t *id, size_t id_len, struct FluentText *text);

static uint32_t list_messages(struct FluentBundle *bundle, const uint8_t *id, size_t id_len, struct FluentText *text) {
    (void)id, (void)id_len;
    return fluent_bundle_messages(bundle, text);
}

/* Whether a list is made in the place of no text or of one. If it isn't to be, what was there is as it was. */
static bool lists(struct FluentBundle *bundle, List list, struct Bytes id, bool is_held, uint32_t status, struct Bytes wanted) {
    struct FluentText text = text_before(is_held);
    const struct FluentText before = text;
    uint32_t returned = list(bundle, id.at, id.len, &text);
    bool is_text = status == FLUENT_READ ? holds(&text, wanted) : is_same(&text, &before, BEFORE);
    fluent_free_text(&text);
    return returned == status && is_text;
}

static bool make(const struct FluentSource *sources, size_t count, bool overriding, struct FluentBundle *made) {
    return fluent_bundle_new(sources, count, (const uint8_t *)"", 0, false, overriding, made) == FLUENT_READ;
}

/* Tries a call on messages of bundles of two sources, on no bundle, and on one that was freed. */
static bool try_asked(const char *name, List list, const struct FluentSource sources[2], const struct Asked *asked, size_t count) {
    struct Tally tally = {name, 0, 0};
    struct FluentBundle bundle = {0};
    for (int held = 0; held < 2; held++)
        count_try(&tally, "no bundle", lists(&bundle, list, asked->id, held, FLUENT_NO_BUNDLE, (struct Bytes)NONE));
    for (size_t i = 0; i < count; i++) {
        bool is_made = make(sources, 2, asked[i].overriding, &bundle);
        for (int held = 0; held < 2; held++) {
            bool is_right = is_made && lists(&bundle, list, asked[i].id, held, asked[i].status, asked[i].names);
            count_try(&tally, (const char *)asked[i].id.at, is_right);
        }
    }
    fluent_bundle_free(&bundle);
    count_try(&tally, "a bundle that was freed", lists(&bundle, list, asked->id, true, FLUENT_NO_BUNDLE, (struct Bytes)NONE));
    return print_tally(&tally);
}

static bool try_messages(void) {
    struct Tally tally = {"fluent_bundle_messages", 0, 0};
    const struct Bytes id = NONE;
    struct FluentBundle bundle = {0};
    for (int held = 0; held < 2; held++)
        count_try(&tally, "no bundle", lists(&bundle, list_messages, id, held, FLUENT_NO_BUNDLE, (struct Bytes)NONE));
    for (size_t i = 0; i < sizeof ROWS / sizeof *ROWS; i++) {
        const struct Row *row = &ROWS[i];
        bool is_made = make(row->sources, row->count, row->overriding, &bundle);
        for (int held = 0; held < 2; held++)
            count_try(&tally, row->name, is_made && lists(&bundle, list_messages, id, held, FLUENT_READ, row->messages));
    }
    fluent_bundle_free(&bundle);
    count_try(&tally, "a bundle that was freed", lists(&bundle, list_messages, id, true, FLUENT_NO_BUNDLE, (struct Bytes)NONE));
    return print_tally(&tally);
}

/* The most levels that the usual budget has room for: the list takes no more of the stack than reading does. */
static bool try_deep_variables(void) {
    struct Tally tally = {"fluent_bundle_variables of what nests deep", 0, 0};
    const struct Bytes deep = nested(MOST_LEVELS);
    const struct FluentSource source = {deep.at, deep.len};
    struct FluentBundle bundle = {0};
    bool is_made = make(&source, 1, false, &bundle);
    count_try(&tally, "most levels", is_made && lists(&bundle, fluent_bundle_variables, (struct Bytes)BYTES("a"), false, FLUENT_READ, (struct Bytes)NONE));
    fluent_bundle_free(&bundle);
    return print_tally(&tally);
}

bool try_listing(void) {
    static const struct FluentSource two[] = {FIRST, SECOND}, variables[] = {VARIABLES, LATER};
    bool is_right = try_messages();
    is_right &= try_asked("fluent_bundle_attributes", fluent_bundle_attributes, two, ASKED, sizeof ASKED / sizeof *ASKED);
    is_right &= try_asked(
        "fluent_bundle_variables", fluent_bundle_variables, variables, ASKED_VARIABLES, sizeof ASKED_VARIABLES / sizeof *ASKED_VARIABLES);
    return try_deep_variables() && is_right;
}
