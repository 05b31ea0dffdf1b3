/* Arguments from doubles, and doubles from arguments, in whichever locale the program is. fluent.h includes it.
 *
 * All of it is in this header, and is tested, not proved.
 */
#ifndef FLUENT_DOUBLES_H
#define FLUENT_DOUBLES_H

#include <float.h>
#include <stdio.h>
#include <stdlib.h>

#include "fluent.h"

/* Room for the text of any double. */
struct FluentDigits {
    char text[48];
};

/* The digits of a number, without zeros at the end, and the power of ten of the first. */
struct FluentShortest {
    char digits[17];
    int count, power;
};

/* The shortest digits that are read as this double, which isn't below 0 and is finite. */
static inline struct FluentShortest fluent_shortest(double value) {
    struct FluentShortest shortest;
    char shown[40];
    const char *at = shown;
    int places = DBL_DIG - 1;
    /* Fewer digits than these come out as these with zeros at the end. As many as 17 are always enough. */
    for (; places <= 16; places++) {
        snprintf(shown, sizeof shown, "%.*e", places, value);
        if (places == 16 || strtod(shown, NULL) == value)
            break;
    }
    /* What parts the digits is the point of the locale. */
    for (shortest.count = 0; *at != 'e'; at++)
        if (*at >= '0' && *at <= '9' && shortest.count < 17)
            shortest.digits[shortest.count++] = *at;
    shortest.power = atoi(at + 1);
    while (shortest.count > 1 && shortest.digits[shortest.count - 1] == '0')
        shortest.count--;
    return shortest;
}

/* The number whose digits are those between two places, counted from the first, and zeros before and after them. */
static inline uint64_t fluent_digits_between(const struct FluentShortest *shortest, int from, int to) {
    uint64_t number = 0;
    for (; from < to; from++)
        number = 10 * number + (from >= 0 && from < shortest->count ? (uint64_t)(shortest->digits[from] - '0') : 0);
    return number;
}

/* Writes a double below 2^64 as a decimal, rounded to 18 digits after the point. */
static inline void fluent_write_decimal(double value, bool is_negative, struct FluentDigits *digits) {
    const uint64_t one = 1000000000000000000u;
    const struct FluentShortest shortest = fluent_shortest(value);
    const int point = shortest.power + 1;
    uint64_t whole = fluent_digits_between(&shortest, 0, point);
    uint64_t fraction = fluent_digits_between(&shortest, point, point + 18);
    int len;
    fraction += fluent_digits_between(&shortest, point + 18, point + 19) >= 5;
    whole += fraction / one;
    fraction %= one;
    len = snprintf(
        digits->text, sizeof digits->text, "%s%llu.%018llu", is_negative && (whole || fraction) ? "-" : "",
        (unsigned long long)whole, (unsigned long long)fraction);
    while (digits->text[len - 1] == '0')
        len--;
    digits->text[len - (digits->text[len - 1] == '.')] = 0;
}

/* Writes a double that is infinite, no number, or 2^64 or more. */
static inline void fluent_write_other(double value, bool is_negative, struct FluentDigits *digits) {
    const char *sign = is_negative ? "-" : "";
    struct FluentShortest shortest;
    if (value != value || value > DBL_MAX) {
        snprintf(digits->text, sizeof digits->text, "%s%s", sign, value != value ? "nan" : "inf");
        return;
    }
    shortest = fluent_shortest(value);
    snprintf(
        digits->text, sizeof digits->text, "%s%c%s%.*se+%d", sign, shortest.digits[0], shortest.count > 1 ? "." : "",
        shortest.count - 1, shortest.digits + 1, shortest.power);
}

/* An argument that is a number, from a double: the shortest decimal that is read as the same double, such as 0.1, rounded to
 * 18 digits after the point. 1.0 is 1. It is shown with as many digits as the locale shows at most, unless the message asks
 * for others: FLUENT_FLOAT. If it is infinite, isn't a number, or is 2^64 or more on either side of 0, it is a
 * text, such as `inf`, `nan` or `1e+22`. The locale that setlocale has set doesn't matter.
 *
 * The text is in `digits`, which has to last as long as the argument, and nothing is allocated. */
static inline struct FluentArgument fluent_double_argument(const char *name, double value, struct FluentDigits *digits) {
    bool is_negative = value < 0;
    double distance = is_negative ? -value : value;
    bool is_decimal = distance < 18446744073709551616.0;
    struct FluentArgument argument;
    if (is_decimal)
        fluent_write_decimal(distance, is_negative, digits);
    else
        fluent_write_other(distance, is_negative, digits);
    argument = fluent_text_argument(name, digits->text);
    argument.kind = is_decimal ? FLUENT_FLOAT : FLUENT_TEXT;
    return argument;
}

/* Whether an argument of a call is a number, and then `value` is the double nearest to it, in whichever locale. `argument` may
 * be NULL, which is none. If it is none, `value` is unchanged. */
static inline bool fluent_argument_double(const struct FluentArgument *argument, double *value) {
    /* Digits without a point and with a power of ten are read in the same way in each locale. Those past 18 after the point
     * are zeros. */
    char shown[64];
    size_t each, end = 0, places = 0;
    bool is_after = false;
    if (!argument || (argument->kind != FLUENT_DECIMAL && argument->kind != FLUENT_FLOAT))
        return false;
    for (each = 0; each < argument->text_len && end < 40 && places < 18; each++) {
        if (argument->text[each] == '.') {
            is_after = true;
        } else {
            shown[end++] = (char)argument->text[each];
            places += is_after;
        }
    }
    snprintf(shown + end, sizeof shown - end, "e-%u", (unsigned)places);
    *value = strtod(shown, NULL);
    return true;
}

#endif
