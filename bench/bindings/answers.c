/* What one answer costs from C: a call on a bundle that is kept, beside a line more in one call of fluent_answer, which is what the
 * engine itself takes for it. The messages have two placeables and a selector of two variants; the least time of five rounds counts.
 */
#include <stdio.h>
#include <stdlib.h>
#include <string.h>
#include <time.h>

#include "fluent_c.h"

enum { ROUNDS = 5, ANSWERS = 200000 };

static double now(void) {
    struct timespec time;
    clock_gettime(CLOCK_PROCESS_CPUTIME_ID, &time);
    return (double)time.tv_sec + (double)time.tv_nsec / 1e9;
}

static const uint8_t *bytes_of(const char *text) { return (const uint8_t *)text; }

static double least(double a, double b) { return a < b ? a : b; }

/* So many messages. */
static char *messages(int count, size_t *len) {
    char *source = malloc((size_t)count * 200 + 1), *at = source;
    for (int i = 0; i < count; i++)
        at += sprintf(
            at,
            "message-%d = Hello, { $name }, you have { $count ->\n"
            "    [one] one message\n   *[other] { $count } messages\n } of { $all }.\n",
            i);
    *len = (size_t)(at - source);
    return source;
}

/* The seconds that fluent_answer takes for so many equal lines. */
static double lines_take(const struct FluentSource *source, const char *line, size_t count, struct FluentText *answers) {
    size_t len = strlen(line);
    char *lines = malloc(len * count);
    for (size_t i = 0; i < count; i++)
        memcpy(lines + i * len, line, len);
    double best = 1e9;
    for (int round = 0; round < ROUNDS; round++) {
        double from = now();
        if (fluent_answer(source, 1, bytes_of(""), 0, false, false, bytes_of(lines), len * count, answers) != FLUENT_READ)
            exit(1);
        best = least(best, now() - from);
    }
    free(lines);
    return best;
}

/* The seconds that so many calls of fluent_bundle_format take. */
static double calls_take(struct FluentBundle *bundle, const char *id, size_t count, struct FluentText *text) {
    struct FluentText errors = {0};
    double best = 1e9;
    for (int round = 0; round < ROUNDS; round++) {
        double from = now();
        for (size_t i = 0; i < count; i++) {
            const struct FluentArgument arguments[] = {
                {.name = bytes_of("name"), .name_len = 4, .text = bytes_of("Jane"), .text_len = 4, .kind = FLUENT_TEXT},
                {.name = bytes_of("count"), .name_len = 5, .text = bytes_of(""), .integer = 3, .kind = FLUENT_INTEGER},
                {.name = bytes_of("all"), .name_len = 3, .text = bytes_of(""), .integer = 17, .kind = FLUENT_INTEGER},
            };
            if (fluent_bundle_format(bundle, bytes_of(id), strlen(id), bytes_of(""), 0, arguments, 3, text, &errors) != FLUENT_READ)
                exit(2);
        }
        best = least(best, now() - from);
    }
    return best;
}

static void measure(int count) {
    struct FluentSource source;
    char *text = messages(count, &source.len);
    source.text = bytes_of(text);
    char id[40], line[80];
    sprintf(id, "message-%d", count / 2);
    sprintf(line, "%s\tname=Jane\tcount=3\tall=17\n", id);
    struct FluentText answers = {0}, answer = {0};
    struct FluentBundle bundle = {0};
    double from = now();
    if (fluent_bundle_new(&source, 1, bytes_of(""), 0, false, false, &bundle) != FLUENT_READ)
        exit(3);
    double made = now() - from;
    double one = lines_take(&source, line, 1, &answers);
    double engine = (lines_take(&source, line, ANSWERS + 1, &answers) - one) / ANSWERS;
    double call = calls_take(&bundle, id, ANSWERS, &answer) / ANSWERS;
    bool same = answers.len > answer.len && memcmp(memchr(answers.bytes, '\n', answers.len) + 1, answer.bytes, answer.len) == 0;
    printf("%6d messages: kept in %.0f us; a call %.0f ns, the engine %.0f ns, ratio %.2f; from the sources %.1f us%s\n", count,
           made * 1e6, call * 1e9, engine * 1e9, call / engine, one * 1e6, same ? "" : "; the texts differ");
    fluent_bundle_free(&bundle);
    fluent_free_text(&answers);
    fluent_free_text(&answer);
    free(text);
}

int main(void) {
    for (int count = 10; count <= 10000; count *= 10)
        measure(count);
    return 0;
}
