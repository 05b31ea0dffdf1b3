/* Shows messages that call functions of this program: what the system is, a date in words, and a share in percent.
 *
 * Build and run it by run.sh beside this file.
 */
#include <stdio.h>
#include <string.h>

#include "fluent.h"

static const char SOURCE[] =
    "settings = { PLATFORM() ->\n"
    "    [windows] Settings\n"
    "   *[other] Preferences\n"
    "}\n"
    "due = Due on { DATE($day, style: \"long\") }, { PERCENT($done) } % done.\n"
    "both = { DATE(\"2026-11-28\") } is { DATE(\"2026-11-28\", style: \"long\") } on { PLATFORM() }.\n"
    "wrong = On { DATE(\"tomorrow\") } it is { TIME() }.\n";

static const struct FluentSource FUNCTIONS[] = {
    {(const uint8_t *)"PLATFORM", 8}, {(const uint8_t *)"DATE", 4}, {(const uint8_t *)"PERCENT", 7}};

/* `DATE(day, style)`: a day such as 2026-11-28, in words if the style is `long`. Without such a day it has no value. */
static struct FluentArgument date(const struct FluentCall *call, char *shown, size_t room) {
    static const char *const months[] = {"January", "February", "March",     "April",   "May",      "June",
                                         "July",    "August",   "September", "October", "November", "December"};
    unsigned year, month, day;
    const char *given = fluent_argument_string(fluent_positional(call, 0));
    if (sscanf(given, "%4u-%2u-%2u", &year, &month, &day) != 3 || month < 1 || month > 12)
        return fluent_no_value(NULL);
    if (strcmp(fluent_argument_string(fluent_named(call, "style")), "long") == 0)
        snprintf(shown, room, "%u %s %u", day, months[month - 1], year);
    else
        snprintf(shown, room, "%u/%u/%u", day, month, year);
    return fluent_text_argument(NULL, shown);
}

/* `PERCENT(share)`: a number a hundred times as large. */
static struct FluentArgument percent(const struct FluentCall *call, struct FluentDigits *digits) {
    double share;
    if (!fluent_argument_double(fluent_positional(call, 0), &share))
        return fluent_no_value(NULL);
    return fluent_double_argument(NULL, 100 * share, digits);
}

/* Answers a call, whose text is `text`. The answer is copied, so it may be in memory that ends with this function. */
static uint32_t answer(struct FluentAnswers *answers, const struct FluentText *text) {
    struct FluentCall call = {0};
    struct FluentDigits digits;
    struct FluentArgument value = fluent_no_value(NULL);
    char shown[40];
    uint32_t status = fluent_read_call(text, &call);
    if (status != FLUENT_READ)
        return status;
    if (fluent_is_call_of(&call, "PLATFORM"))
        value = fluent_text_argument(NULL, "linux");
    else if (fluent_is_call_of(&call, "DATE"))
        value = date(&call, shown, sizeof shown);
    else if (fluent_is_call_of(&call, "PERCENT"))
        value = percent(&call, &digits);
    status = fluent_add_answer(answers, text, value);
    fluent_free_call(&call);
    return status;
}

/* Formats a message, and answers its calls until there is a text. The answers are those of this message alone. */
static uint32_t format(
    struct FluentBundle *bundle, const char *id, const struct FluentArgument *arguments, size_t count, struct FluentText *text) {
    struct FluentAnswers answers = {0};
    struct FluentText call = {0};
    uint32_t status;
    do {
        status = fluent_call(bundle, id, NULL, arguments, count, answers.list, answers.count, text, NULL, &call);
    } while (status == FLUENT_CALL && (status = answer(&answers, &call)) == FLUENT_READ);
    fluent_free_answers(&answers);
    fluent_free_text(&call);
    return status;
}

int main(void) {
    static const char *const ids[] = {"settings", "due", "both", "wrong"};
    struct FluentBundleOptions options = fluent_bundle_options("en-GB");
    struct FluentBundle bundle = {0};
    struct FluentText text = {0};
    struct FluentDigits digits;
    struct FluentArgument arguments[] = {
        fluent_text_argument("day", "2027-01-31"), fluent_double_argument("done", 0.125, &digits)};
    uint32_t status;
    size_t each;
    options.isolating = false;
    status = fluent_bundle_calling(SOURCE, &options, FUNCTIONS, sizeof FUNCTIONS / sizeof *FUNCTIONS, &bundle);
    for (each = 0; status == FLUENT_READ && each < sizeof ids / sizeof *ids; each++) {
        status = format(&bundle, ids[each], arguments, sizeof arguments / sizeof *arguments, &text);
        if (status == FLUENT_READ)
            printf("%s\n", fluent_string(&text));
    }
    if (status != FLUENT_READ)
        fprintf(stderr, "%s\n", fluent_status_text(status));
    fluent_free_text(&text);
    fluent_bundle_free(&bundle);
    return status == FLUENT_READ ? 0 : 1;
}
