// What fluent.hpp has in common with fluent.h: the words of a status, and doubles as arguments, some whose digits are known, and
// many beside what fluent.h makes of them.
#include <cmath>
#include <cstring>
#include <limits>
#include <random>

#include "check.hpp"
#include "fluent.hpp"
#include "tests.hpp"

// It is C, with C's casts and C's NULL.
#pragma GCC diagnostic push
#pragma GCC diagnostic ignored "-Wold-style-cast"
#pragma GCC diagnostic ignored "-Wzero-as-null-pointer-constant"
#include "fluent.h"
#pragma GCC diagnostic pop

namespace {

std::string text_of(const FluentArgument &argument) {
    std::string text(argument.text, argument.text + argument.text_len);
    return std::to_string(argument.kind) + ' ' + text;
}

std::string digits_of(double number) {
    const fluent::argument argument("n", number);
    return text_of(argument.for_c());
}

void is_that_of_c(double number) {
    FluentDigits digits;
    const fluent::value value(number);
    SAME(digits_of(number), text_of(fluent_double_argument("n", number, &digits)));
    SAME(value.text(), std::string(digits.text));
}

// One number more than there are, so that this fails when the header gets another.
void words_are_those_of_c() {
    for (std::uint32_t number = 0; number <= FLUENT_NOT_TREE + 1; number++)
        SAME(std::string(fluent::words_of(static_cast<fluent::status>(number))), std::string(fluent_status_text(number)));
}

} // namespace

void test_doubles() {
    words_are_those_of_c();
    SAME(digits_of(0.0), "5 0");
    SAME(digits_of(-0.0), "5 0");
    SAME(digits_of(0.1), "5 0.1");
    SAME(digits_of(-1.5), "5 -1.5");
    SAME(digits_of(100.0), "5 100");
    SAME(digits_of(1e19), "5 10000000000000000000");
    SAME(digits_of(1.0 / 3.0), "5 0.3333333333333333");
    SAME(digits_of(1e-18), "5 0.000000000000000001");
    SAME(digits_of(4e-19), "5 0");
    SAME(digits_of(5e-19), "5 0.000000000000000001");
    SAME(digits_of(-4e-19), "5 0");
    SAME(digits_of(18446744073709551616.0), "0 1.8446744073709552e+19");
    SAME(digits_of(-1e22), "0 -1e+22");
    SAME(digits_of(std::numeric_limits<double>::infinity()), "0 inf");
    SAME(digits_of(std::numeric_limits<double>::quiet_NaN()), "0 nan");
    std::mt19937_64 random(1);
    for (int each = 0; each < 20000; each++) {
        const std::uint64_t bits = random();
        double number;
        std::memcpy(&number, &bits, sizeof number);
        if (std::isfinite(number))
            is_that_of_c(number);
        is_that_of_c(static_cast<double>(static_cast<std::int64_t>(bits >> (bits & 63))) / 1000);
        is_that_of_c(static_cast<double>(bits) * 1e-25);
    }
    for (double nines : {0.9999999999999999, 9.999999999999999, 0.99999999999999994, 999999.9999999999})
        is_that_of_c(nines);
}
