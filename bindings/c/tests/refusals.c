/* Each allocation of each call, refused in turn: the call returns FLUENT_NO_MEMORY, and what it was given is as it was. */
#include "tests.h"

#define AT(literal) (const uint8_t *)(literal)
#define TEXT(literal) AT(literal), sizeof(literal) - 1

/* What is kept from call to call. */
struct Kept {
    struct FluentCounts counts;
    struct FluentText text, errors;
    struct FluentBundle bundle;
    size_t position;
    struct FluentPlace place;
};

static const struct FluentSource SOURCES[] = {
    BYTES("# own\nwelcome = Welcome, { $name }.\n    .title = Title\nbroken = { $absent } and { nothing }\n"),
    BYTES("welcome = Again\ng@Rb@ge\n"),
};

static uint32_t parse(struct Kept *kept) { return fluent_parse(SOURCES[0].text, SOURCES[0].len, &kept->counts); }
static uint32_t parse_runtime(struct Kept *kept) { return fluent_parse_runtime(SOURCES[0].text, SOURCES[0].len, &kept->counts); }
static uint32_t write_tree(struct Kept *kept) { return fluent_write(SOURCES[0].text, SOURCES[0].len, true, &kept->text); }
static uint32_t write_json(struct Kept *kept) { return fluent_write_json(SOURCES[0].text, SOURCES[0].len, &kept->text); }
static uint32_t write_date(struct Kept *kept) {
    static const struct FluentDate date = {.year = 2026, .month = 11, .day = 28, .hour = 20, .has_time = true};
    static const struct FluentArgument style = {.name = AT("timeStyle"), .name_len = 9, .text = AT("full"), .text_len = 4, .kind = FLUENT_TEXT};
    return fluent_write_date(TEXT("en"), &date, &style, 1, &kept->text);
}
static uint32_t outline(struct Kept *kept) { return fluent_outline(SOURCES[0].text, SOURCES[0].len, &kept->text, &kept->counts); }
static uint32_t answer(struct Kept *kept) {
    return fluent_answer(SOURCES, 2, TEXT("pl"), true, false, TEXT("welcome\tname=Jane\nbroken\n"), &kept->text);
}
static uint32_t make(struct Kept *kept) { return fluent_bundle_new(SOURCES, 2, TEXT("pl"), true, false, &kept->bundle); }
static uint32_t make_within(struct Kept *kept) {
    return fluent_bundle_new_within(SOURCES, 2, TEXT("pl"), true, false, 100000, &kept->bundle);
}
static uint32_t make_plain(struct Kept *kept) {
    return fluent_bundle_new_plain(SOURCES, 2, TEXT("pl"), true, false, 100000, &kept->bundle);
}
static uint32_t make_with(struct Kept *kept) {
    static const struct FluentBundleOptions options = FLUENT_BUNDLE_OPTIONS;
    return fluent_bundle_new_with(SOURCES, 2, &options, &kept->bundle);
}
static uint32_t answer_plain(struct Kept *kept) {
    return fluent_answer_plain(SOURCES, 2, TEXT("pl"), true, false, TEXT("welcome\tname=Jane\nbroken\n"), &kept->text);
}
static uint32_t format(struct Kept *kept) {
    static const struct FluentArgument name = {.name = AT("name"), .name_len = 4, .text = AT("Jane"), .text_len = 4, .kind = FLUENT_TEXT};
    return fluent_bundle_format(&kept->bundle, TEXT("broken"), TEXT(""), &name, 1, &kept->text, &kept->errors);
}
static uint32_t format_many(struct Kept *kept) {
    static const struct FluentArgument name = {.name = AT("name"), .name_len = 4, .text = AT("Jane"), .text_len = 4, .kind = FLUENT_TEXT};
    struct FluentArgument many[40];
    for (size_t i = 0; i < 40; i++)
        many[i] = name, many[i].name_len = 1 + i % 4;
    return fluent_bundle_format(&kept->bundle, TEXT("broken"), TEXT(""), many, 40, &kept->text, &kept->errors);
}
static const struct Bytes TEXT_BEFORE = BYTES("\xe2\x81\xa8{$absent}\xe2\x81\xa9 and {nothing}");
static const struct Bytes ERRORS_BEFORE = BYTES("Unknown variable: $absent\nUnknown message: nothing\n");

static uint32_t write_pattern(struct Kept *kept) {
    static const struct FluentArgument name = {.name = AT("name"), .name_len = 4, .text = AT("Jane"), .text_len = 4, .kind = FLUENT_TEXT};
    static const struct FluentPattern pattern = {TEXT("broken"), TEXT(""), 0};
    uint8_t room[100];
    size_t len = 0;
    uint32_t status = fluent_bundle_write(&kept->bundle, &pattern, &name, 1, room, sizeof room, &len, &kept->errors);
    return (status == FLUENT_READ) == (len == TEXT_BEFORE.len) ? status : FLUENT_NO_ROOM;
}
static const struct FluentSource CALLING[] = {BYTES("welcome = Hi\na = { F($name, x: 1) } { b }\n")};
static const struct FluentSource FUNCTION = BYTES("F");
#define CALL "[\"F\",[null],{\"x\":{\"number\":\"1\"}}]"
static const struct FluentArgument ANSWER = {
    .name = AT(CALL), .name_len = sizeof(CALL) - 1, .text = AT("y"), .text_len = 1, .kind = FLUENT_TEXT};
static uint32_t make_calling(struct Kept *kept) {
    static const struct FluentBundleOptions options = FLUENT_BUNDLE_OPTIONS;
    return fluent_bundle_new_calling(CALLING, 1, &options, &FUNCTION, 1, &kept->bundle);
}
/* Makes a bundle with a function, and a call of it with so many answers. */
static uint32_t call_with(struct Kept *kept, size_t answers) {
    struct Kept calling = {.bundle = {0}};
    struct FluentText unused = {0};
    uint32_t status = make_calling(&calling);
    if (status == FLUENT_READ)
        status = fluent_bundle_call(
            &calling.bundle, TEXT("a"), TEXT(""), &ANSWER, 0, &ANSWER, answers, answers ? &kept->text : &unused, &kept->errors,
            answers ? &unused : &kept->text);
    fluent_bundle_free(&calling.bundle);
    return status == (answers ? FLUENT_READ : FLUENT_CALL) ? FLUENT_READ : status == FLUENT_NO_MEMORY ? status : FLUENT_NOT_TIDY;
}
static uint32_t call_missing(struct Kept *kept) { return call_with(kept, 0); }
static uint32_t call_answered(struct Kept *kept) { return call_with(kept, 1); }
static uint32_t list_calls(struct Kept *kept) {
    struct Kept calling = {.bundle = {0}};
    uint32_t status = make_calling(&calling);
    if (status == FLUENT_READ)
        status = fluent_bundle_calls(&calling.bundle, TEXT("a"), TEXT(""), &ANSWER, 0, &ANSWER, 0, &kept->text);
    fluent_bundle_free(&calling.bundle);
    return status;
}
static uint32_t format_calling(struct Kept *kept) {
    struct Kept calling = {.bundle = {0}};
    uint32_t status = make_calling(&calling);
    if (status == FLUENT_READ)
        status = fluent_bundle_format(&calling.bundle, TEXT("a"), TEXT(""), &ANSWER, 0, &kept->text, &kept->errors);
    fluent_bundle_free(&calling.bundle);
    return status;
}
/* Makes a bundle, and shows a date in it. */
static uint32_t format_date(struct Kept *kept) {
    static const struct FluentSource source = BYTES("due = { DATETIME($d, dateStyle: \"long\", timeStyle: \"short\") } { $d }\n");
    static const struct FluentArgument date = {
        .name = AT("d"), .name_len = 1, .text = AT("2026-11-28T20:15"), .text_len = 16, .kind = FLUENT_DATETIME};
    struct FluentBundle bundle = {0};
    uint32_t status = fluent_bundle_new(&source, 1, TEXT("de"), false, false, &bundle);
    if (status == FLUENT_READ)
        status = fluent_bundle_format(&bundle, TEXT("due"), TEXT(""), &date, 1, &kept->text, &kept->errors);
    fluent_bundle_free(&bundle);
    return status;
}
static uint32_t messages(struct Kept *kept) { return fluent_bundle_messages(&kept->bundle, &kept->text); }
static uint32_t attributes(struct Kept *kept) { return fluent_bundle_attributes(&kept->bundle, TEXT("welcome"), &kept->text); }
static uint32_t variables(struct Kept *kept) { return fluent_bundle_variables(&kept->bundle, TEXT("broken"), &kept->text); }
static uint32_t report(struct Kept *kept) { return fluent_bundle_errors(&kept->bundle, &kept->text); }
static uint32_t negotiate(struct Kept *kept) {
    static const struct FluentSource tags[] = {BYTES("de"), BYTES("de-AT")};
    size_t count = 0;
    return fluent_negotiate(tags, 2, tags, 2, FLUENT_FILTERING, &kept->position, 1, &count);
}
static uint32_t lint(struct Kept *kept) {
    static const struct FluentFile files[] = {
        {AT("a.ftl"), 5, AT("a = { b } { F() }\na = c\n"), 24}, {AT("b.ftl"), 5, AT("g@Rb@ge\n"), 8}};
    static const struct FluentFile references[] = {{AT("en.ftl"), 6, AT("a = { $x }\nd = e\n"), 17}};
    static const struct FluentSource functions[] = {BYTES("F")};
    static const struct FluentLintOptions options = {functions, 1, TEXT("pl"), true, true};
    uint32_t status = fluent_lint(files, 2, references, 1, &options, &kept->text);
    return status == FLUENT_HAS_ERRORS ? FLUENT_READ : status;
}
static uint32_t tidy(struct Kept *kept) { return fluent_tidy(TEXT("a  =  b\r\n\r\n# c\r\nd = e"), &kept->text, &kept->place); }
static uint32_t find_damage(struct Kept *kept) {
    uint32_t status = fluent_tidy(TEXT("a  =  b\r\nc"), &kept->text, &kept->place);
    return status == FLUENT_DAMAGED ? FLUENT_READ : status;
}
static uint32_t find_occurrences(struct Kept *kept) {
    return fluent_occurrences(TEXT("a = { $b } { -c(d: 1) } { F() }\ng@Rb@ge\n-e = { a.f }\n .g = h\n"), &kept->text);
}
static uint32_t find_nodes(struct Kept *kept) {
    return fluent_nodes(TEXT("# c\na = { $b ->\n *[d] e\n }\n .f = { -c(d: 1) } { F() }\ng@Rb@ge\n"), &kept->text);
}
static uint32_t write_from_json(struct Kept *kept) {
    return fluent_write_tree(
        TEXT("{\"body\":[{\"content\":[\"c\"],\"type\":\"Comment\"},{\"content\":\"!\",\"type\":\"Junk\"}],"
             "\"syntax\":\"2\",\"type\":\"Resource\"}"),
        true, &kept->text);
}
static uint32_t has(struct Kept *kept) { return fluent_bundle_has(&kept->bundle, TEXT("welcome"), TEXT("")); }

static const struct {
    const char *name;
    uint32_t (*call)(struct Kept *);
} CALLS[] = {
    {"fluent_parse", parse},
    {"fluent_parse_runtime", parse_runtime},
    {"fluent_write", write_tree},
    {"fluent_write_json", write_json},
    {"fluent_write_date", write_date},
    {"fluent_outline", outline},
    {"fluent_answer", answer},
    {"fluent_answer_plain", answer_plain},
    {"fluent_bundle_new", make},
    {"fluent_bundle_new_within", make_within},
    {"fluent_bundle_new_plain", make_plain},
    {"fluent_bundle_new_with", make_with},
    {"fluent_bundle_new_calling", make_calling},
    {"fluent_bundle_call without an answer", call_missing},
    {"fluent_bundle_call", call_answered},
    {"fluent_bundle_calls", list_calls},
    {"fluent_bundle_format of a bundle with functions", format_calling},
    {"fluent_bundle_messages", messages},
    {"fluent_bundle_attributes", attributes},
    {"fluent_bundle_variables", variables},
    {"fluent_bundle_format", format},
    {"fluent_bundle_format of many arguments", format_many},
    {"fluent_bundle_format of a date", format_date},
    {"fluent_bundle_write", write_pattern},
    {"fluent_bundle_errors", report},
    {"fluent_bundle_has", has},
    {"fluent_negotiate", negotiate},
    {"fluent_lint", lint},
    {"fluent_tidy", tidy},
    {"fluent_tidy of damage", find_damage},
    {"fluent_occurrences", find_occurrences},
    {"fluent_nodes", find_nodes},
    {"fluent_write_tree", write_from_json},
};

static bool is_unchanged(const struct Kept *kept, const struct Kept *before) {
    return kept->counts.messages == before->counts.messages && kept->position == before->position && kept->place.line == before->place.line
        && is_same(&kept->text, &before->text, TEXT_BEFORE)
        && is_same(&kept->errors, &before->errors, ERRORS_BEFORE) && kept->bundle.desk == before->bundle.desk;
}

/* Makes a call whose allocation after `count` others is refused. Gives by `refused` whether there was such an allocation. */
static bool is_right(uint32_t (*call)(struct Kept *), bool is_held, long count, bool *refused) {
    struct Kept kept = {.counts = {.messages = 90}, .position = 91};
    if (make(&kept) != FLUENT_READ || (is_held && format(&kept) != FLUENT_READ))
        return false;
    const struct Kept before = kept;
    long blocks = blocks_in_use();
    refuse_after(count);
    uint32_t status = call(&kept);
    *refused = was_refused();
    /* A growth that is refused is tried again with less, so a call may answer in spite of a refusal. */
    bool is_good = *refused && status == FLUENT_NO_MEMORY ? is_unchanged(&kept, &before) && blocks_in_use() == blocks : status == FLUENT_READ;
    is_good &= has(&kept) == FLUENT_READ;
    fluent_free_text(&kept.text);
    fluent_free_text(&kept.errors);
    fluent_bundle_free(&kept.bundle);
    return is_good && blocks_in_use() == 0;
}

bool try_refusals(void) {
    struct Tally tally = {"refused allocations", 0, 0};
    for (size_t i = 0; i < sizeof CALLS / sizeof *CALLS; i++)
        for (int held = 0; held < 2; held++) {
            bool refused = true;
            for (long count = 0; refused; count++)
                count_try(&tally, CALLS[i].name, is_right(CALLS[i].call, held, count, &refused));
        }
    return print_tally(&tally);
}
