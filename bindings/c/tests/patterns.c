/* fluent_bundle_find and fluent_bundle_write: rows, numbers of other bundles, and random calls beside fluent_bundle_call. */
#include <string.h>

#include "tests.h"

#define AT(literal) (const uint8_t *)(literal)
#define TEXT(literal) AT(literal), sizeof(literal) - 1
#define VALUE(literal) {TEXT(literal), TEXT(""), 0}
#define PART(literal, name) {TEXT(literal), TEXT(name), 0}

static const struct FluentSource SOURCE = BYTES(
    "-brand = Kozhvadi\n    .gender = masc\n-greet = Hi { $who } { $count }\n"
    "a = Hello, { $name }, you have { $count } new messages.\n"
    "b = { $count ->\n    [0] none\n    [one] One { -brand }.\n    [few] few { $count }\n   *[other] { $count } of { -brand }.\n}\n"
    "c = { NUMBER($count, minimumFractionDigits: 2) } { NUMBER($count, useGrouping: \"false\") } { $name }\n"
    "d = { $name ->\n    [Jane] J\n    [x] X { $missing }\n   *[other] { $name }{ $count }\n}\n"
    "e = { -greet(who: \"x\", count: 3) } { a } { b.nope } { nope }\n    .t = T { $count }{ $name }\n"
    "f = { $count }\ng = { F($name) }\nh = { \"{\" }{ $count }{ $count }\ni = plain\nj =\n    .t = { G($count) } { a }\n");

static const struct FluentPattern PATTERNS[] = {
    VALUE("a"), VALUE("b"), VALUE("c"), VALUE("d"), VALUE("e"), PART("e", "t"), VALUE("f"),
    VALUE("g"), VALUE("h"), VALUE("i"), PART("j", "t"), VALUE("j"), VALUE("none"), PART("a", "t"),
};
#define PATTERN_COUNT (sizeof PATTERNS / sizeof *PATTERNS)

static const char *const LOCALES[] = {"", "en-US", "de", "es", "pl", "ar-EG", "fa", "hi", "pt-PT", "fr", "und", "C", "my", "de-CH", "en-IN", "bn", "he", "gsw"};
#define LOCALE_COUNT (sizeof LOCALES / sizeof *LOCALES)

/* A bundle of the source, with a function or without. */
static bool made(struct FluentBundle *bundle, const char *locale, unsigned how) {
    static const struct FluentSource function = BYTES("F");
    struct FluentBundleOptions options = FLUENT_BUNDLE_OPTIONS;
    options.locale = AT(locale);
    options.locale_len = strlen(locale);
    options.isolating = how & 1;
    options.plain_numbers = how & 2;
    return how & 4 ? fluent_bundle_new_calling(&SOURCE, 1, &options, &function, 1, bundle) == FLUENT_READ
                   : fluent_bundle_new_with(&SOURCE, 1, &options, bundle) == FLUENT_READ;
}

static uint32_t find(struct FluentBundle *bundle, struct FluentPattern *pattern) {
    return fluent_bundle_find(bundle, pattern->id, pattern->id_len, pattern->attribute, pattern->attribute_len, &pattern->number);
}

/* A reply, by the old call and by the new one. */
struct Replies {
    struct FluentText text, errors, call, written;
    uint8_t room[600];
    size_t len;
};

static void free_replies(struct Replies *replies) {
    fluent_free_text(&replies->text);
    fluent_free_text(&replies->errors);
    fluent_free_text(&replies->call);
    fluent_free_text(&replies->written);
}

/* Whether two texts have the same bytes, or neither is there. */
static bool are_same(const struct FluentText *one, const struct FluentText *other) {
    return one->held == other->held && (!one->held || (one->len == other->len && memcmp(one->bytes, other->bytes, one->len) == 0));
}

/* Whether the new call gives what the old one gives, within so many bytes of room. */
static bool is_written(
    struct FluentBundle *bundle, const struct FluentPattern *pattern, const struct FluentArgument *arguments, size_t count,
    struct Replies *replies, size_t room_len) {
    uint8_t before[sizeof replies->room];
    const struct FluentText errors_before = replies->written;
    memset(replies->room, 0xAA, sizeof replies->room);
    memcpy(before, replies->room, sizeof before);
    replies->len = 12345;
    uint32_t wanted = fluent_bundle_call(
        bundle, pattern->id, pattern->id_len, pattern->attribute, pattern->attribute_len, arguments, count, arguments, 0,
        &replies->text, &replies->errors, &replies->call);
    uint32_t status = fluent_bundle_write(bundle, pattern, arguments, count, replies->room, room_len, &replies->len, &replies->written);
    size_t len = wanted == FLUENT_READ ? replies->text.len : 12345;
    if (status == FLUENT_NO_ROOM && wanted == FLUENT_READ)
        return replies->len == len && room_len < len && memcmp(replies->room, before, sizeof before) == 0
            && replies->written.bytes == errors_before.bytes;
    if (status != wanted || replies->len != len)
        return false;
    if (status != FLUENT_READ)
        return memcmp(replies->room, before, sizeof before) == 0 && replies->written.bytes == errors_before.bytes;
    return len <= room_len && memcmp(replies->room, replies->text.bytes, len) == 0
        && memcmp(replies->room + len, before + len, sizeof before - len) == 0 && are_same(&replies->errors, &replies->written);
}

static uint64_t state = 88172645463325252u;

static uint64_t any(uint64_t below) {
    state ^= state << 13;
    state ^= state >> 7;
    state ^= state << 17;
    return state % below;
}

/* Puts an argument of any kind there. One of a hundred isn't taken. */
static void put_any(struct FluentArgument *argument) {
    static const char *const names[] = {"name", "count", "who", "nope", "count"};
    static const char *const texts[] = {"", "Jane", "x", "Zo\xc3\xab", "one", "12", "a text that is longer than sixteen bytes \xe2\x82\xac"};
    static const char *const decimals[] = {"1", "1.0", "0.5", "-3.25", "1234567.891", "999.999", "1000", "18446744073709551615", "-0", "1e5"};
    static const int64_t integers[] = {0, 1, 2, 5, 9, 10, 99, 100, 999, 1000, 9999, 10000, -1, -999, -1000, INT64_MAX, INT64_MIN};
    const char *name = names[any(5)], *text = "";
    *argument = (struct FluentArgument){.name = AT(name), .name_len = strlen(name), .kind = (uint32_t)any(6)};
    if (argument->kind == FLUENT_TEXT)
        text = texts[any(sizeof texts / sizeof *texts)];
    else if (argument->kind == FLUENT_DECIMAL || argument->kind == FLUENT_FLOAT)
        text = decimals[any(sizeof decimals / sizeof *decimals - (any(20) != 0))];
    argument->text = AT(text);
    argument->text_len = strlen(text);
    argument->integer = any(2) ? integers[any(sizeof integers / sizeof *integers)] : (int64_t)any(UINT64_MAX) >> any(64);
    argument->unsigned_integer = any(UINT64_MAX) >> any(64);
    if (any(200) == 0)
        argument->kind = 9;
}

/* Random calls of a bundle, whose patterns were found in it, in another one, or not at all. */
static void try_random(struct Tally *tally, const char *locale, unsigned how, const struct FluentPattern *others) {
    struct FluentBundle bundle = {0};
    struct FluentPattern patterns[PATTERN_COUNT];
    struct Replies replies = {.len = 0};
    count_try(tally, "a bundle", made(&bundle, locale, how));
    for (size_t i = 0; i < PATTERN_COUNT; i++) {
        patterns[i] = others[i];
        if (any(3))
            find(&bundle, &patterns[i]);
    }
    for (int round = 0; round < 1000; round++) {
        struct FluentArgument arguments[20];
        size_t count = any(50) ? any(5) : 18;
        for (size_t i = 0; i < count; i++)
            put_any(&arguments[i]);
        const struct FluentPattern *pattern = &patterns[any(PATTERN_COUNT)];
        size_t room_len = any(4) ? sizeof replies.room : any(40);
        count_try(tally, "a random call", is_written(&bundle, pattern, arguments, count, &replies, room_len));
    }
    free_replies(&replies);
    fluent_bundle_free(&bundle);
}

/* What fluent_bundle_find returns, and that what was found once is found again in the same memory. */
static void try_finding(struct Tally *tally) {
    struct FluentBundle bundle = {0};
    struct FluentPattern pattern = PATTERNS[0], again = PATTERNS[0], other = PATTERNS[5];
    pattern.number = 7;
    count_try(tally, "no bundle", find(&bundle, &pattern) == FLUENT_NO_BUNDLE && pattern.number == 7);
    made(&bundle, "de", 0);
    struct FluentPattern none = PATTERNS[12], part = PATTERNS[13], valueless = PATTERNS[11];
    count_try(tally, "no message", find(&bundle, &none) == FLUENT_NO_MESSAGE && none.number == 0);
    count_try(tally, "no attribute", find(&bundle, &part) == FLUENT_NO_PATTERN && part.number == 0);
    count_try(tally, "no value", find(&bundle, &valueless) == FLUENT_NO_PATTERN && valueless.number == 0);
    struct FluentPattern bad = VALUE("\xff");
    count_try(tally, "no UTF-8", find(&bundle, &bad) == FLUENT_NOT_UTF8 && bad.number == 0);
    count_try(tally, "a value", find(&bundle, &pattern) == FLUENT_READ);
    count_try(tally, "an attribute", find(&bundle, &other) == FLUENT_READ && other.number != pattern.number);
    long blocks = blocks_in_use();
    bool is_right = true;
    for (int round = 0; round < 100; round++)
        is_right &= find(&bundle, &again) == FLUENT_READ && again.number == pattern.number;
    count_try(tally, "found again", is_right && blocks_in_use() == blocks);
    /* Without memory the number is none's, and the text the same. */
    struct FluentPattern refused = PATTERNS[8];
    made(&bundle, "de", 0);
    refuse_after(0);
    uint32_t status = find(&bundle, &refused);
    count_try(tally, "without memory", was_refused() && status == FLUENT_READ);
    struct Replies replies = {.len = 0};
    static const struct FluentArgument argument = {.name = AT("count"), .name_len = 5, .text = AT(""), .integer = 12345, .kind = FLUENT_INTEGER};
    count_try(tally, "its text", is_written(&bundle, &refused, &argument, 1, &replies, sizeof replies.room));
    free_replies(&replies);
    fluent_bundle_free(&bundle);
}

/* Numbers of another bundle, and of one that was made anew: the text is always that of the id. */
static void try_others(struct Tally *tally) {
    static const struct FluentSource one = BYTES("a = A\nb = B\n"), other = BYTES("b = C\na = D\n    .t = E\n");
    static const struct FluentBundleOptions options = FLUENT_BUNDLE_OPTIONS;
    static const struct FluentArgument none = {0};
    struct FluentBundle bundle = {0};
    struct FluentPattern a = VALUE("a"), b = VALUE("b"), t = PART("a", "t");
    uint8_t room[1];
    size_t len = 0;
    struct FluentText errors = {0};
    count_try(tally, "no bundle", fluent_bundle_write(&bundle, &a, &none, 0, room, 1, &len, &errors) == FLUENT_NO_BUNDLE && len == 0);
    bool is_made = fluent_bundle_new_with(&one, 1, &options, &bundle) == FLUENT_READ;
    count_try(tally, "two messages", is_made && find(&bundle, &a) == FLUENT_READ && find(&bundle, &b) == FLUENT_READ);
    count_try(tally, "the first", fluent_bundle_write(&bundle, &a, &none, 0, room, 1, &len, &errors) == FLUENT_READ && len == 1 && *room == 'A');
    count_try(tally, "the second", fluent_bundle_write(&bundle, &b, &none, 0, room, 1, &len, &errors) == FLUENT_READ && *room == 'B');
    count_try(tally, "no room", fluent_bundle_write(&bundle, &a, &none, 0, room, 0, &len, &errors) == FLUENT_NO_ROOM && len == 1 && *room == 'B');
    is_made = fluent_bundle_new_with(&other, 1, &options, &bundle) == FLUENT_READ;
    struct FluentPattern first = VALUE("b");
    count_try(tally, "made anew", is_made && find(&bundle, &first) == FLUENT_READ && first.number == a.number);
    count_try(tally, "a number of before", fluent_bundle_write(&bundle, &a, &none, 0, room, 1, &len, &errors) == FLUENT_READ && *room == 'D');
    count_try(tally, "another", fluent_bundle_write(&bundle, &b, &none, 0, room, 1, &len, &errors) == FLUENT_READ && *room == 'C');
    t.number = SIZE_MAX;
    count_try(tally, "any number", fluent_bundle_write(&bundle, &t, &none, 0, room, 1, &len, &errors) == FLUENT_READ && *room == 'E');
    fluent_bundle_free(&bundle);
}

bool try_patterns(void) {
    struct Tally finding = {"fluent_bundle_find", 0, 0}, writing = {"fluent_bundle_write", 0, 0};
    struct FluentPattern others[PATTERN_COUNT];
    struct FluentBundle other = {0};
    try_finding(&finding);
    try_others(&writing);
    made(&other, "fr", 4);
    for (size_t i = PATTERN_COUNT; i-- > 0;) {
        others[i] = PATTERNS[i];
        find(&other, &others[i]);
    }
    for (size_t i = 0; i < LOCALE_COUNT; i++)
        for (unsigned how = 0; how < 8; how++)
            try_random(&writing, LOCALES[i], how, others);
    fluent_bundle_free(&other);
    bool are_found = print_tally(&finding);
    return print_tally(&writing) && are_found;
}
