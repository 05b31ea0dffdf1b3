/* Eight threads over all that threads may share: a bundle under a lock, bundles and texts that go from thread to thread, and at the
 * same time calls that need no bundle, over one source.
 *
 * Prints how many answers came, and ends with 1 if one was wrong. It is run under the sanitizer for threads, if there is one.
 */
#include <pthread.h>
#include <stdbool.h>
#include <stdio.h>
#include <string.h>

#include "fluent.h"

#define THREADS 8
#define ROUNDS 50

static const char SOURCE[] =
    "-brand = Firefox\nhello = Hello, { $name }!\n    .title = { -brand }\n"
    "many = { $n ->\n    [one] One file\n   *[other] { NUMBER($n) } files\n}\n"
    "made = { JOIN(UP(\"a\"), UP(\"b\"), UP($name)) }\nbroken = { $absent } { absent }\n";
static const char TREE[] = "{\"body\":[{\"content\":\"!\",\"type\":\"Junk\"}],\"type\":\"Resource\"}";

/* What the threads share, under the lock. */
static struct {
    pthread_mutex_t lock;
    struct FluentBundle bundle;
    struct FluentText text, errors, call;
    /* A bundle and a text that the next thread takes over. */
    struct FluentBundle passed;
    struct FluentText passed_text;
} shared = {.lock = PTHREAD_MUTEX_INITIALIZER};

static bool holds(const struct FluentText *text, const char *expected) {
    return text->held && text->len == strlen(expected) && !memcmp(text->bytes, expected, text->len);
}

static uint32_t make(struct FluentBundle *bundle, const char *locale) {
    static const struct FluentSource functions[] = {{(const uint8_t *)"UP", 2}, {(const uint8_t *)"JOIN", 4}};
    struct FluentBundleOptions options = FLUENT_BUNDLE_OPTIONS;
    options.locale = (const uint8_t *)locale;
    options.locale_len = strlen(locale);
    options.isolating = false;
    return fluent_bundle_calling(SOURCE, &options, functions, 2, bundle);
}

/* Answers a call of `UP` or `JOIN` by its first letter: the same text for each thread. */
static uint32_t answer(struct FluentAnswers *answers, const struct FluentText *call) {
    bool is_up = call->len > 2 && call->bytes[2] == 'U';
    return fluent_add_answer(answers, call, fluent_text_argument("", is_up ? "X" : "joined"));
}

/* A message with functions, in as many rounds as it needs. */
static bool calls_functions(struct FluentBundle *bundle, struct FluentText *text, struct FluentText *call) {
    const struct FluentArgument name = fluent_text_argument("name", "Jane");
    struct FluentAnswers answers = {0};
    uint32_t status;
    do {
        status = fluent_call(bundle, "made", NULL, &name, 1, answers.list, answers.count, text, NULL, call);
    } while (status == FLUENT_CALL && (status = answer(&answers, call)) == FLUENT_READ);
    fluent_free_answers(&answers);
    return status == FLUENT_READ && holds(text, "joined");
}

/* The calls of that message, which are known before any of them has an answer. */
static bool lists_calls(struct FluentBundle *bundle, struct FluentText *calls) {
    const struct FluentArgument name = fluent_text_argument("name", "Jane");
    const uint8_t *id = (const uint8_t *)"made", *none = (const uint8_t *)"";
    return fluent_bundle_calls(bundle, id, 4, none, 0, &name, 1, &name, 0, calls) == FLUENT_READ
        && holds(calls, "[\"UP\",[\"a\"],{}]\n[\"UP\",[\"b\"],{}]\n[\"UP\",[\"Jane\"],{}]\n");
}

/* Asks a bundle all that can be asked. */
static bool asks(struct FluentBundle *bundle, struct FluentText *text, struct FluentText *errors, struct FluentText *call) {
    const struct FluentArgument n = fluent_integer_argument("n", 3), name = fluent_text_argument("name", "Jane");
    return fluent_format(bundle, "hello", NULL, &name, 1, text, errors) == FLUENT_READ && holds(text, "Hello, Jane!")
        && fluent_format(bundle, "hello", "title", NULL, 0, text, errors) == FLUENT_READ && holds(text, "Firefox")
        && fluent_format(bundle, "many", NULL, &n, 1, text, errors) == FLUENT_READ && holds(text, "3 files")
        && fluent_format(bundle, "broken", NULL, NULL, 0, text, errors) == FLUENT_READ && holds(text, "{$absent} {absent}")
        && calls_functions(bundle, text, call) && lists_calls(bundle, call) && fluent_has(bundle, "many", NULL) == FLUENT_READ
        && fluent_bundle_messages(bundle, text) == FLUENT_READ && holds(text, "hello\nmany\nmade\nbroken\n")
        && fluent_attributes(bundle, "hello", text) == FLUENT_READ && holds(text, "title\n")
        && fluent_variables(bundle, "many", text) == FLUENT_READ && holds(text, "n\n")
        && fluent_bundle_errors(bundle, text) == FLUENT_READ && holds(text, "");
}

/* Calls that need no bundle. Their texts are the thread's own. */
static bool reads(struct FluentText *text) {
    const uint8_t *source = (const uint8_t *)SOURCE;
    const size_t len = sizeof SOURCE - 1;
    const struct FluentSource sources[] = {{source, len}}, tags[] = {{(const uint8_t *)"de", 2}};
    const struct FluentFile file = {
        .name = (const uint8_t *)"a.ftl", .name_len = 5, .text = source, .text_len = len};
    const struct FluentLintOptions options = {
        .functions = sources, .locale = (const uint8_t *)"pl", .locale_len = 2, .notes = true};
    struct FluentCounts counts;
    struct FluentPlace place;
    size_t position, found;
    return fluent_parse(source, len, &counts) == FLUENT_READ && counts.messages == 4
        && fluent_outline(source, len, text, &counts) == FLUENT_READ && counts.terms == 1
        && fluent_write(source, len, true, text) == FLUENT_READ && fluent_write_json(source, len, text) == FLUENT_READ
        && fluent_write_tree((const uint8_t *)TREE, sizeof TREE - 1, true, text) == FLUENT_READ && holds(text, "!")
        && fluent_occurrences(source, len, text) == FLUENT_READ && fluent_tidy(source, len, text, &place) == FLUENT_READ
        && fluent_lint(&file, 1, &file, 0, &options, text) == FLUENT_HAS_ERRORS
        && fluent_has_plural_rules((const uint8_t *)"pl", 2)
        && fluent_negotiate(tags, 1, tags, 1, FLUENT_FILTERING, &position, 1, &found) == FLUENT_READ && found == 1
        && fluent_answer(sources, 1, (const uint8_t *)"de", 2, false, false, (const uint8_t *)"hello\tname=Jane\n", 16, text)
            == FLUENT_READ;
}

/* Takes over the bundle and the text of another thread, and leaves those of this one. */
static bool passes(void) {
    struct FluentBundle bundle = {0};
    struct FluentText text = {0}, errors = {0}, call = {0};
    bool is_right = make(&bundle, "de") == FLUENT_READ && asks(&bundle, &text, &errors, &call);
    pthread_mutex_lock(&shared.lock);
    const struct FluentBundle taken = shared.passed;
    const struct FluentText taken_text = shared.passed_text;
    shared.passed = bundle;
    shared.passed_text = text;
    pthread_mutex_unlock(&shared.lock);
    bundle = taken;
    text = taken_text;
    is_right = is_right && (!bundle.held || asks(&bundle, &text, &errors, &call));
    fluent_bundle_free(&bundle);
    fluent_free_text(&text);
    fluent_free_text(&errors);
    fluent_free_text(&call);
    return is_right;
}

/* The rounds of a thread. It gives how many were right. */
static void *run(void *right) {
    struct FluentText own = {0};
    for (int round = 0; round < ROUNDS; round++) {
        pthread_mutex_lock(&shared.lock);
        bool is_right = asks(&shared.bundle, &shared.text, &shared.errors, &shared.call);
        pthread_mutex_unlock(&shared.lock);
        *(int *)right += is_right && reads(&own) && passes();
    }
    fluent_free_text(&own);
    return NULL;
}

int main(void) {
    pthread_t threads[THREADS];
    int right[THREADS] = {0}, sum = 0;
    if (make(&shared.bundle, "pl") != FLUENT_READ)
        return 1;
    for (int each = 0; each < THREADS; each++)
        if (pthread_create(&threads[each], NULL, run, &right[each]))
            return 1;
    for (int each = 0; each < THREADS; each++) {
        pthread_join(threads[each], NULL);
        sum += right[each];
    }
    fluent_bundle_free(&shared.bundle);
    fluent_bundle_free(&shared.passed);
    fluent_free_text(&shared.passed_text);
    fluent_free_text(&shared.text);
    fluent_free_text(&shared.errors);
    fluent_free_text(&shared.call);
    printf("%d rounds of %d threads, %d wrong\n", sum, THREADS, THREADS * ROUNDS - sum);
    return sum != THREADS * ROUNDS;
}
