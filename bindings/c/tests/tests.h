/* What the tests of the calls share: bytes, texts, the blocks of memory that are in use, and counts of what was tried.
 *
 * Each file of this folder tries some of the calls, with rows that say what a call is given and what it must return and leave.
 */
#ifndef TESTS_H
#define TESTS_H

#include <stdbool.h>
#include <stddef.h>
#include <stdint.h>

#include "fluent_c.h"

struct Bytes {
    const uint8_t *at;
    size_t len;
};

/* The bytes of a string literal, those of value 0 in it too. */
#define BYTES(literal) {(const uint8_t *)(literal), sizeof(literal) - 1}

/* How many calls were tried, and how many of them were wrong. */
struct Tally {
    const char *call;
    unsigned tried, wrong;
};

/* Counts a try, and says which it is if it was wrong. */
void count_try(struct Tally *tally, const char *row, bool is_right);
/* Prints the counts. Gives whether none was wrong. */
bool print_tally(const struct Tally *tally);

/* Whether a text holds these bytes, and a byte 0 after them. */
bool holds(const struct FluentText *text, struct Bytes bytes);
/* Whether a text is what it was: the same bytes at the same address, or no text as before. `bytes` are those that it had. */
bool is_same(const struct FluentText *text, const struct FluentText *before, struct Bytes bytes);

/* A message `a` whose value is in this number of placeables, one in the other, in memory that lasts until the next call. */
struct Bytes nested(unsigned levels);
/* The most levels that the usual budget of the stack has room for. */
#define MOST_LEVELS 1429

/* The blocks of memory that are in use. */
long blocks_in_use(void);
/* Refuses one allocation: the one that comes after `count` others. */
void refuse_after(long count);
/* Whether it was. None is refused from now on. */
bool was_refused(void);

bool try_counts(void);
bool try_texts(void);
bool try_outlines(void);
bool try_answers(void);
bool try_bundles(void);
bool try_calls(void);
bool try_gathering(void);
bool try_functions(void);
bool try_formats(void);
bool try_languages(void);
bool try_linting(void);
bool try_listing(void);
bool try_options(void);
bool try_patterns(void);
bool try_occurrences(void);
bool try_nodes(void);
bool try_tidying(void);
bool try_trees(void);
bool try_dates(void);
bool try_dated(void);
bool try_refusals(void);

#endif
