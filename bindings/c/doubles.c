/* Writes doubles as arguments, in the locale of the environment, for doubles.py beside this file. Each line of its input is the
 * 16 hexadecimal digits of a double; of its output, the kind of the argument, its text, and the double that is read from it.
 * The first line of the output is the decimal point of the locale.
 */
#include <inttypes.h>
#include <locale.h>
#include <stdio.h>

#include "fluent.h"

static double of_bits(uint64_t bits) {
    double value;
    memcpy(&value, &bits, sizeof value);
    return value;
}

static uint64_t bits_of(double value) {
    uint64_t bits;
    memcpy(&bits, &value, sizeof bits);
    return bits;
}

int main(void) {
    char line[20];
    if (!setlocale(LC_ALL, ""))
        return 1;
    printf("%s\n", localeconv()->decimal_point);
    while (fgets(line, sizeof line, stdin)) {
        struct FluentDigits digits;
        struct FluentArgument argument = fluent_double_argument("x", of_bits(strtoull(line, NULL, 16)), &digits);
        double again = 0;
        bool is_read = fluent_argument_double(&argument, &again);
        printf("%s %s %016" PRIx64 "\n", argument.kind == FLUENT_FLOAT ? "float" : "text", digits.text,
            is_read ? bits_of(again) : 0);
    }
    return 0;
}
