/* Shows the messages of a mail program: asks for three of them in one call, and prints what is answered.
 *
 * Build and run it by run.sh beside this file.
 */
#include <stdio.h>
#include <stdlib.h>
#include <string.h>

#include "fluent_c.h"

static const char SOURCE[] =
    "hello-world = Hello, world!\n"
    "welcome = Welcome, { $name }.\n"
    "unread = { $count ->\n"
    "    [one] One message is unread.\n"
    "   *[other] { $count } messages are unread.\n"
    "}\n";

/* An id a line, and its arguments after tabs. */
static const char REQUESTS[] =
    "hello-world\n"
    "welcome\tname=Jane\n"
    "unread\tcount=3\n"
    "welcome\n";

/* Whose plural rules choose the variants. */
static const char LOCALE[] = "en-GB";

/* The line that begins at `at`, with its line feed. */
static size_t line_at(const char *at, const char *end) {
    const char *feed = memchr(at, '\n', (size_t)(end - at));
    return (size_t)((feed ? feed + 1 : end) - at);
}

/* Prints each text with its errors, and gives how many there were. */
static unsigned print_answers(const char *at, const char *end) {
    unsigned answers = 0;
    while (at < end) {
        size_t head = line_at(at, end);
        answers += 1;
        if (head < 3 || memcmp(at, "ok ", 3) != 0) {
            printf("(%.*s)\n", (int)head - 1, at);
            at += head;
            continue;
        }
        /* The line feed after the numbers ends them. */
        char *after;
        size_t bytes = strtoull(at + 3, &after, 10);
        size_t errors = strtoull(after, NULL, 10);
        at += head;
        printf("%.*s\n", (int)bytes, at);
        at += bytes + 1;
        for (; errors > 0; errors -= 1) {
            size_t error = line_at(at, end);
            printf("  error: %.*s\n", (int)error - 1, at);
            at += error;
        }
    }
    return answers;
}

/* Why there are no answers. */
static const char *refusal(uint32_t answered) {
    switch (answered) {
    case FLUENT_NOT_UTF8:
        return "a source isn't UTF-8";
    case FLUENT_UNKNOWN_LOCALE:
        return "the locale is no tag of a language";
    default:
        return "out of memory";
    }
}

int main(void) {
    const struct FluentSource sources[] = {{(const uint8_t *)SOURCE, sizeof SOURCE - 1}};
    struct FluentText answers = {0};
    uint32_t answered = fluent_answer(
        sources, 1, (const uint8_t *)LOCALE, sizeof LOCALE - 1, false, false,
        (const uint8_t *)REQUESTS, sizeof REQUESTS - 1, &answers);
    if (answered != FLUENT_READ) {
        fprintf(stderr, "%s\n", refusal(answered));
        return 1;
    }
    const char *first = (const char *)answers.bytes;
    unsigned count = print_answers(first, first + answers.len);
    fluent_free_text(&answers);
    return count == 4 ? 0 : 1;
}
