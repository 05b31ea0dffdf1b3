/* fluent_calls.h: calls that are read, and answers that are kept. */
#include <stdio.h>
#include <stdlib.h>
#include <string.h>

#include "fluent.h"
#include "tests.h"

/* Texts that a function is called with, and gives. */
static const struct Bytes TEXTS[] = {
    BYTES(""), BYTES("plain"), BYTES("\"quoted\" \\ and \\\" / \\u0041 \\n"), BYTES("a\0b\0"), BYTES("\b\f\n\r\t\x01\x0b\x1e\x1f\x7f"),
    BYTES("\xc2\x80 \xe2\x80\xa8\xe2\x80\xa9 \xef\xbf\xbd \xef\xbb\xbf"), BYTES("\xf0\x9f\x98\x80 \xf4\x8f\xbf\xbf"),
    BYTES("[\"F\",[],{}]"), BYTES("{\"number\":\"1\"}"), BYTES("null"),
};

#define CALL(literal) BYTES("[\"F\"," literal "]")

/* Texts of calls, and what is read of the first positional argument and of the argument `n`. */
struct Read {
    struct Bytes call;
    size_t positional_count, named_count;
    struct FluentArgument positional, named;
};

#define VALUE(value, literal) {.text = (const uint8_t *)(literal), .text_len = sizeof(literal) - 1, .kind = (value)}

static const struct Read READS[] = {
    {CALL("[],{}"), 0, 0, {0}, {0}},
    {CALL("[null],{\"n\":null}"), 1, 1, VALUE(FLUENT_NO_VALUE, ""), VALUE(FLUENT_NO_VALUE, "")},
    {CALL("[{\"number\":\"-1.50\"},\"x\",null],{\"n\":{\"number\":\"3\"}}"), 3, 1, VALUE(FLUENT_DECIMAL, "-1.50"), VALUE(FLUENT_DECIMAL, "3")},
    {CALL("[{\"date\":\"2026-11-28\"}],{\"n\":{\"date\":\"0000-01-01T00:00:00Z\"}}"), 1, 1, VALUE(FLUENT_DATETIME, "2026-11-28"),
     VALUE(FLUENT_DATETIME, "0000-01-01T00:00:00Z")},
    {CALL("[\"\"],{\"m\":\"\",\"n\":\"x\",\"nn\":null}"), 1, 3, VALUE(FLUENT_TEXT, ""), VALUE(FLUENT_TEXT, "x")},
    {CALL("[\"\\\"\\\\\\/\\b\\f\\n\\r\\t\"],{}"), 1, 0, VALUE(FLUENT_TEXT, "\"\\/\b\f\n\r\t"), {0}},
    {CALL("[\"\\u0000\\u001f\\u0041\\u00e9\\u20aC\\uFFFF\"],{}"), 1, 0, VALUE(FLUENT_TEXT, "\0\x1f" "A\xc3\xa9\xe2\x82\xac\xef\xbf\xbf"), {0}},
    {CALL("[\"\\ud83d\\ude00\\uDBFF\\uDFFF\\ud800\\udc00\"],{}"), 1, 0,
     VALUE(FLUENT_TEXT, "\xf0\x9f\x98\x80\xf4\x8f\xbf\xbf\xf0\x90\x80\x80"), {0}},
};

/* Texts that are no calls. */
static const struct Bytes BAD[] = {
    BYTES("null"), BYTES("\"F\""), BYTES("[]"), BYTES("[\"F\"]"), BYTES("[\"F\",[]]"), BYTES("[F,[],{}]"), BYTES("[null,[],{}]"),
    CALL("{},[]"), CALL("[],[]"), CALL("[],{},[]"), CALL("[,],{}"), CALL("[\"a\",],{}"), CALL("[\"a\" \"b\"],{}"), CALL("[1],{}"),
    CALL("[true],{}"), CALL("[nul],{}"), CALL("[nulll],{}"), CALL("[[]],{}"), CALL("[{}],{}"), CALL("[{\"number\":1}],{}"), CALL("[{\"dates\":\"1\"}],{}"), CALL("[{date:\"1\"}],{}"),
    CALL("[{\"number\":null}],{}"), CALL("[{\"numbers\":\"1\"}],{}"), CALL("[{\"number\":\"1\",\"a\":\"b\"}],{}"), CALL("[],{\"a\"}"),
    CALL("[],{\"a\":}"), CALL("[],{\"a\":\"b\",}"), CALL("[],{a:\"b\"}"), CALL("[],{\"a\":{\"b\":\"c\"}}"), CALL("[\"\n\"],{}"),
    CALL("[\"\x1f\"],{}"), CALL("[\"\0\"],{}"), CALL("[\"\\x\"],{}"), CALL("[\"\\\0\"],{}"), CALL("[\"\\u\"],{}"),
    CALL("[\"\\u12\"],{}"), CALL("[\"\\u123g\"],{}"), CALL("[\"\\u 123\"],{}"), CALL("[\"\\ud800\"],{}"), CALL("[\"\\ud800x\"],{}"),
    CALL("[\"\\ud800\\n\"],{}"), CALL("[\"\\ud800\\ud800\"],{}"), CALL("[\"\\ud800\\ue000\"],{}"), CALL("[\"\\udc00\\ud800\"],{}"), CALL("[\"\\udfff\"],{}"),
    BYTES(" [\"F\",[],{}]"), BYTES("[\"F\",[],{}] "), BYTES("[\"F\", [],{}]"), BYTES("[\"F\",[],{}]\0"), BYTES("[\"F\",[],{}][\"F\",[],{}]"),
};

static const char SOURCE[] =
    "one = { F($x, n: 1, s: \"a\\u0022\\\\b\") }\n"
    "five = { F(0) }, { F(1) }, { F(F(2)) }, { F(3, n: 4) }, { F(0) }\n";

static const struct FluentSource FUNCTION = BYTES("F");

/* A text of a call at the end of memory of its own, which the caller frees: a byte that is read after it is found. */
static struct FluentText alone(struct Bytes bytes) {
    uint8_t *copy = malloc(bytes.len ? bytes.len : 1);
    memcpy(copy, bytes.at, bytes.len);
    return (struct FluentText){.held = true, .bytes = copy, .len = bytes.len};
}

static uint32_t read_alone(struct Bytes bytes, struct FluentCall *call) {
    struct FluentText text = alone(bytes);
    uint32_t status = fluent_read_call(&text, call);
    free((void *)text.bytes);
    return status;
}

/* Whether an argument has this kind and this text, and a byte 0 after it. */
static bool is_like(const struct FluentArgument *argument, const struct FluentArgument *wanted) {
    return argument && argument->kind == wanted->kind && argument->text_len == wanted->text_len
        && memcmp(argument->text, wanted->text, wanted->text_len) == 0 && fluent_argument_string(argument)[wanted->text_len] == 0;
}

static void try_reads(struct Tally *tally, struct FluentCall *call) {
    for (size_t i = 0; i < sizeof READS / sizeof *READS; i++) {
        const struct Read *row = &READS[i];
        bool is_read = read_alone(row->call, call) == FLUENT_READ;
        count_try(tally, (const char *)row->call.at, is_read && fluent_is_call_of(call, "F") && !fluent_is_call_of(call, "FF")
            && call->positional_count == row->positional_count && call->named_count == row->named_count
            && (row->positional_count ? is_like(fluent_positional(call, 0), &row->positional) : !fluent_positional(call, 0))
            && (row->named_count ? is_like(fluent_named(call, "n"), &row->named) : !fluent_named(call, "n"))
            && !fluent_positional(call, row->positional_count) && !fluent_named(call, "x"));
    }
}

/* What is no call, and each beginning of one: the call that was read before stays. */
static void try_bad(struct Tally *tally, struct FluentCall *call) {
    const struct FluentCall before = *call;
    const struct FluentText none = {0};
    count_try(tally, "no text", fluent_read_call(&none, call) == FLUENT_BAD_ARGUMENT);
    for (size_t i = 0; i < sizeof BAD / sizeof *BAD; i++)
        count_try(tally, (const char *)BAD[i].at, read_alone(BAD[i], call) == FLUENT_BAD_ARGUMENT);
    for (size_t i = 0; i < sizeof READS / sizeof *READS; i++)
        for (size_t len = 0; len < READS[i].call.len; len++) {
            struct Bytes beginning = {READS[i].call.at, len};
            count_try(tally, "a beginning", read_alone(beginning, call) == FLUENT_BAD_ARGUMENT);
        }
    count_try(tally, "the call before", memcmp(call, &before, sizeof before) == 0);
}

/* The next of some numbers that look like chance, below `limit`. */
static size_t next_chance(size_t limit) {
    static uint64_t state = 1;
    state = state * 6364136223846793005u + 1442695040888963407u;
    return (size_t)(state >> 33) % limit;
}

/* Changed texts of calls, and bytes by chance: each is a call or isn't, and nothing past its end is read. */
static void try_chance(struct Tally *tally, struct FluentCall *call) {
    static const char alphabet[] = "[]{}\",:\\u/nulbertad0dD89cfF\x01\xc3\xa9";
    for (unsigned round = 0; round < 200000; round++) {
        uint8_t bytes[200];
        struct Bytes text = {bytes, 0};
        if (round % 4) {
            const struct Bytes from = READS[next_chance(sizeof READS / sizeof *READS)].call;
            memcpy(bytes, from.at, from.len);
            text.len = from.len;
            for (size_t changes = next_chance(3) + 1; changes; changes--)
                bytes[next_chance(text.len)] = (uint8_t)alphabet[next_chance(sizeof alphabet)];
        } else {
            text.len = next_chance(sizeof bytes);
            for (size_t i = 0; i < text.len; i++)
                bytes[i] = round % 8 ? (uint8_t)next_chance(256) : (uint8_t)alphabet[next_chance(sizeof alphabet)];
        }
        uint32_t status = read_alone(text, call);
        bool is_right = status == FLUENT_BAD_ARGUMENT || status == FLUENT_READ;
        for (size_t i = 0; status == FLUENT_READ && i < call->positional_count; i++)
            is_right &= call->positional[i].text[call->positional[i].text_len] == 0;
        count_try(tally, "a text by chance", is_right);
    }
}

/* Whether a function that gives what it is called with is called with this text, and the text is what is shown. */
static bool goes_round(struct FluentBundle *bundle, struct Bytes text) {
    const struct FluentArgument argument = {
        .name = (const uint8_t *)"x", .name_len = 1, .text = text.at, .text_len = text.len, .kind = FLUENT_TEXT};
    const struct FluentArgument one = VALUE(FLUENT_DECIMAL, "1"), quoted = VALUE(FLUENT_TEXT, "a\"\\b");
    struct FluentAnswers answers = {0};
    struct FluentText shown = {0}, called = {0};
    struct FluentCall call = {0};
    bool is_right = fluent_call(bundle, "one", NULL, &argument, 1, NULL, 0, &shown, NULL, &called) == FLUENT_CALL
        && fluent_read_call(&called, &call) == FLUENT_READ && is_like(fluent_positional(&call, 0), &argument)
        && is_like(fluent_named(&call, "n"), &one) && is_like(fluent_named(&call, "s"), &quoted)
        && fluent_add_answer(&answers, &called, call.positional[0]) == FLUENT_READ;
    /* What was copied is all that is left. */
    fluent_free_call(&call);
    fluent_free_text(&called);
    is_right = is_right && fluent_call(bundle, "one", NULL, &argument, 1, answers.list, answers.count, &shown, NULL, &called) == FLUENT_READ
        && holds(&shown, text) && !called.held;
    fluent_free_answers(&answers);
    fluent_free_text(&shown);
    return is_right;
}

static void try_texts_of_calls(struct Tally *tally, struct FluentBundle *bundle) {
    for (size_t i = 0; i < sizeof TEXTS / sizeof *TEXTS; i++)
        count_try(tally, (const char *)TEXTS[i].at, goes_round(bundle, TEXTS[i]));
    struct Bytes all = {NULL, 0};
    uint8_t *large = malloc(5000000);
    for (size_t i = 0; all.len + 100 < 5000000; i = (i + 1) % (sizeof TEXTS / sizeof *TEXTS)) {
        memcpy(large + all.len, TEXTS[i].at, TEXTS[i].len);
        all.len += TEXTS[i].len;
    }
    all.at = large;
    count_try(tally, "5 MB", goes_round(bundle, all));
    free(large);
}

/* Answers a call: the first argument in angle brackets. */
static uint32_t answer(struct FluentAnswers *answers, const struct FluentText *text) {
    char shown[40];
    struct FluentCall call = {0};
    uint32_t status = fluent_read_call(text, &call);
    if (status == FLUENT_READ) {
        snprintf(shown, sizeof shown, "<%s>", fluent_argument_string(fluent_positional(&call, 0)));
        status = fluent_add_answer(answers, text, fluent_text_argument(NULL, shown));
    }
    fluent_free_call(&call);
    return status;
}

/* Formats the message `five`, and answers its calls. */
static uint32_t format_five(struct FluentBundle *bundle, struct FluentText *text) {
    struct FluentAnswers answers = {0};
    struct FluentText call = {0};
    uint32_t status;
    do {
        status = fluent_call(bundle, "five", NULL, NULL, 0, answers.list, answers.count, text, NULL, &call);
    } while (status == FLUENT_CALL && (status = answer(&answers, &call)) == FLUENT_READ);
    fluent_free_answers(&answers);
    fluent_free_text(&call);
    return status;
}

/* A message with more calls than a list has room for at first, also with each allocation refused in turn. */
static void try_loop(struct Tally *tally, struct FluentBundle *bundle) {
    static const struct Bytes wanted = BYTES("<0>, <1>, <<2>>, <3>, <0>");
    bool is_refused = true;
    for (long count = 0; is_refused; count++) {
        struct FluentText text = {0};
        long blocks = blocks_in_use();
        refuse_after(count);
        uint32_t status = format_five(bundle, &text);
        is_refused = was_refused();
        count_try(tally, "a loop", is_refused ? status == FLUENT_NO_MEMORY && !text.held : status == FLUENT_READ && holds(&text, wanted));
        fluent_free_text(&text);
        count_try(tally, "its blocks", blocks_in_use() == blocks);
    }
}

static void try_kinds(struct Tally *tally, struct FluentBundle *bundle) {
    static const struct Bytes wanted[] = {BYTES("F()"), BYTES("-3"), BYTES("18446744073709551615"), BYTES("0.5"), BYTES("last")};
    const struct FluentText none = {0};
    struct FluentDigits digits;
    struct FluentAnswers answers = {0};
    struct FluentText text = {0}, call = {0};
    count_try(tally, "a call", fluent_call(bundle, "one", NULL, NULL, 0, NULL, 0, &text, NULL, &call) == FLUENT_CALL);
    const struct FluentArgument values[] = {
        fluent_no_value(NULL), fluent_integer_argument(NULL, -3), fluent_unsigned_argument("x", UINT64_MAX),
        fluent_double_argument(NULL, 0.5, &digits), fluent_text_argument(NULL, "last")};
    count_try(tally, "no call", fluent_add_answer(&answers, &none, values[0]) == FLUENT_BAD_ARGUMENT && answers.count == 0);
    /* Of answers to one call the last counts. */
    for (size_t i = 0; i < sizeof values / sizeof *values; i++)
        count_try(tally, "a kind", fluent_add_answer(&answers, &call, values[i]) == FLUENT_READ
            && fluent_call(bundle, "one", NULL, NULL, 0, answers.list, answers.count, &text, NULL, &call) == FLUENT_READ
            && holds(&text, wanted[i]));
    fluent_free_answers(&answers);
    count_try(tally, "none left", answers.list == NULL && answers.count == 0);
    fluent_free_answers(&answers);
    fluent_free_text(&text);
    fluent_free_text(&call);
}

bool try_functions(void) {
    struct Tally read = {"fluent_read_call", 0, 0}, answered = {"fluent_add_answer", 0, 0};
    struct FluentBundleOptions options = fluent_bundle_options("en");
    struct FluentBundle bundle = {0};
    struct FluentCall call = {0};
    options.isolating = false;
    options.plain_numbers = true;
    count_try(&read, "a bundle", fluent_bundle_calling(SOURCE, &options, &FUNCTION, 1, &bundle) == FLUENT_READ);
    try_reads(&read, &call);
    try_bad(&read, &call);
    try_chance(&read, &call);
    fluent_free_call(&call);
    count_try(&read, "no call", !fluent_is_call_of(&call, "") && !fluent_positional(&call, 0) && !fluent_named(&call, ""));
    try_texts_of_calls(&read, &bundle);
    try_loop(&answered, &bundle);
    try_kinds(&answered, &bundle);
    fluent_bundle_free(&bundle);
    return print_tally(&read) & print_tally(&answered);
}
