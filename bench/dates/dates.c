/* Times dates from C: dates COUNT
 *
 * Prints nanoseconds of one call: of fluent_write_date in long style and in digits, and of a message of a German bundle with a date, in
 * long style and in digits, and with a text in its place. Only the fastest of five rounds of COUNT calls counts.
 */
#include <stdio.h>
#include <stdlib.h>
#include <string.h>
#include <time.h>

#include "fluent.h"

static const char SOURCE[] = "long = { DATETIME($d, dateStyle: \"long\") }\nshown = { $d }\n";

static double now(void) {
    struct timespec time;
    clock_gettime(CLOCK_MONOTONIC, &time);
    return (double)time.tv_sec * 1e9 + (double)time.tv_nsec;
}

struct Case {
    const char *name, *id;
    struct FluentArgument argument;
    const char *text;
};

static struct FluentBundle bundle;
static struct FluentText text;

/* Makes the call of a case, which is fluent_write_date if it has no id, with an option if that has a name. Gives whether the text is
 * right. */
static bool shows(const struct Case *row) {
    static const struct FluentDate date = {.year = 2026, .month = 11, .day = 28};
    uint32_t status = row->id ? fluent_format(&bundle, row->id, NULL, &row->argument, 1, &text, NULL)
                              : fluent_date_text("de", &date, &row->argument, row->argument.name != NULL, &text);
    return status == FLUENT_READ && strcmp(fluent_string(&text), row->text) == 0;
}

int main(int argc, char **argv) {
    const long count = argc > 1 ? atol(argv[1]) : 1000000;
    struct FluentArgument date = fluent_text_argument("d", "2026-11-28");
    const struct FluentArgument shown = fluent_text_argument("d", "28. November 2026");
    date.kind = FLUENT_DATETIME;
    const struct Case cases[] = {
        {"fluent_write_date, long", NULL, fluent_text_argument("dateStyle", "long"), "28. November 2026"},
        {"fluent_write_date, digits", NULL, {0}, "28.11.2026"},
        {"a message, long", "long", date, "28. November 2026"},
        {"a message, in digits", "shown", date, "28.11.2026"},
        {"a message with a text", "shown", shown, "28. November 2026"},
    };
    struct FluentBundleOptions options = fluent_bundle_options("de");
    bool is_right = true;
    options.isolating = false;
    is_right &= fluent_bundle_with(SOURCE, &options, &bundle) == FLUENT_READ;
    for (size_t each = 0; each < sizeof cases / sizeof *cases; each++) {
        double best = 1e18;
        for (int round = 0; round < 5; round++) {
            double begin = now();
            for (long call = 0; call < count; call++)
                is_right &= shows(&cases[each]);
            double took = (now() - begin) / (double)count;
            best = took < best ? took : best;
        }
        printf("%-25s %6.0f ns\n", cases[each].name, best);
    }
    fluent_free_text(&text);
    fluent_bundle_free(&bundle);
    if (!is_right)
        fprintf(stderr, "a text is wrong\n");
    return is_right ? 0 : 1;
}
