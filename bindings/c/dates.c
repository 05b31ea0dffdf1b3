/* Shows dates in three languages: by fluent_date_text, and by messages.
 *
 * Build and run it by run.sh beside this file.
 */
#include <stdio.h>
#include <string.h>

#include "fluent.h"

static const char SOURCE[] =
    "due = { DATETIME($date, dateStyle: \"full\", timeStyle: \"short\") }\n"
    "day = { $date }\n"
    "month = { DATETIME($date, month: \"long\", year: \"numeric\") }\n"
    "slip = { DATETIME($date, month: \"big\", weekday: \"short\") }\n"
    "wrong = { DATETIME(\"tomorrow\") }\n";

/* Prints the messages of a bundle, after the date in digits. */
static uint32_t print(const char *locale, const struct FluentDate *date) {
    static const char *const ids[] = {"due", "day", "month", "slip", "wrong"};
    struct FluentBundleOptions options = fluent_bundle_options(locale);
    struct FluentBundle bundle = {0};
    struct FluentText text = {0};
    char iso[FLUENT_ISO_ROOM];
    struct FluentArgument argument = fluent_date_argument("date", date, iso);
    uint32_t status = fluent_date_text(locale, date, NULL, 0, &text);
    size_t each;
    options.isolating = false;
    if (status == FLUENT_READ)
        status = fluent_bundle_with(SOURCE, &options, &bundle);
    if (status == FLUENT_READ)
        printf("%s: %s\n", locale, fluent_string(&text));
    for (each = 0; status == FLUENT_READ && each < sizeof ids / sizeof *ids; each++) {
        status = fluent_format(&bundle, ids[each], NULL, &argument, 1, &text, NULL);
        if (status == FLUENT_READ)
            printf("    %s\n", fluent_string(&text));
    }
    fluent_free_text(&text);
    fluent_bundle_free(&bundle);
    return status;
}

int main(void) {
    static const char *const locales[] = {"en", "de", "ja"};
    /* 28 November 2026, 19:26:05 in UTC, on a clock that is an hour ahead. */
    struct FluentDate date = fluent_date_of_time((time_t)1795893965, 3600);
    uint32_t status = FLUENT_READ;
    size_t each;
    for (each = 0; status == FLUENT_READ && each < sizeof locales / sizeof *locales; each++)
        status = print(locales[each], &date);
    if (status != FLUENT_READ)
        fprintf(stderr, "%s\n", fluent_status_text(status));
    return status == FLUENT_READ ? 0 : 1;
}
