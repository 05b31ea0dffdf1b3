/* Tries each call of the library, with each number that it may return, and compares the bytes that it gives. All that is made is
 * freed, and no block may be left.
 *
 * `run.sh` in the folder above builds and runs it, and compares what it prints with `expected`.
 */
#include <stdio.h>
#include <string.h>

#include "tests.h"

void count_try(struct Tally *tally, const char *row, bool is_right) {
    tally->tried += 1;
    tally->wrong += !is_right;
    if (!is_right)
        printf("%s: %s is wrong\n", tally->call, row);
}

bool print_tally(const struct Tally *tally) {
    printf("%s: %u tried, %u wrong\n", tally->call, tally->tried, tally->wrong);
    return tally->wrong == 0;
}

bool holds(const struct FluentText *text, struct Bytes bytes) {
    return text->held && text->len == bytes.len && memcmp(text->bytes, bytes.at, bytes.len) == 0 && text->bytes[text->len] == 0;
}

bool is_same(const struct FluentText *text, const struct FluentText *before, struct Bytes bytes) {
    if (!before->held)
        return !text->held;
    return text->bytes == before->bytes && holds(text, bytes);
}

struct Bytes nested(unsigned levels) {
    static char text[4 + 2 * (MOST_LEVELS + 1) + 4];
    char *at = text;
    at += sprintf(at, "a = ");
    memset(at, '{', levels);
    at += levels;
    at += sprintf(at, "\"x\"");
    memset(at, '}', levels);
    at += levels;
    *at++ = '\n';
    return (struct Bytes){(const uint8_t *)text, (size_t)(at - text)};
}

int main(void) {
    bool (*const groups[])(void) = {
        try_counts,  try_texts, try_outlines,  try_answers, try_bundles, try_options,     try_listing,
        try_formats, try_calls, try_gathering, try_patterns, try_functions, try_languages, try_linting, try_tidying, try_occurrences,
        try_dates, try_dated, try_nodes, try_trees, try_refusals,
    };
    bool is_right = true;
    for (size_t i = 0; i < sizeof groups / sizeof *groups; i++)
        is_right &= groups[i]();
    printf("%ld blocks left\n", blocks_in_use());
    return is_right && blocks_in_use() == 0 ? 0 : 1;
}
