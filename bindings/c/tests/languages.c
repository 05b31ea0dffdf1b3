/* fluent_negotiate. */
#include <string.h>

#include "tests.h"

#define MOST 4

struct Row {
    const char *name;
    struct FluentSource requested[MOST], available[MOST];
    uint32_t strategy, status;
    /* For how many positions there is room, how many there are, and those that are put. */
    size_t room, count;
    size_t positions[MOST];
};

#define AUSTRIAN_AND_FRENCH {BYTES("de-AT"), BYTES("fr")}
#define FOUR {BYTES("en-US"), BYTES("de"), BYTES("fr"), BYTES("de-DE")}

static const size_t BEFORE[MOST] = {90, 91, 92, 93};
#define COUNT_BEFORE 94

static const struct Row ROWS[] = {
    {"all that suit", AUSTRIAN_AND_FRENCH, FOUR, FLUENT_FILTERING, FLUENT_READ, 4, 3, {1, 3, 2, 93}},
    {"the best for each", AUSTRIAN_AND_FRENCH, FOUR, FLUENT_MATCHING, FLUENT_READ, 4, 2, {1, 2, 92, 93}},
    {"one", AUSTRIAN_AND_FRENCH, FOUR, FLUENT_LOOKUP, FLUENT_READ, 4, 1, {1, 91, 92, 93}},
    {"less room", AUSTRIAN_AND_FRENCH, FOUR, FLUENT_FILTERING, FLUENT_READ, 2, 3, {1, 3, 92, 93}},
    {"no room", AUSTRIAN_AND_FRENCH, FOUR, FLUENT_FILTERING, FLUENT_READ, 0, 3, {90, 91, 92, 93}},
    {"nothing requested", {{0}}, FOUR, FLUENT_FILTERING, FLUENT_READ, 4, 0, {90, 91, 92, 93}},
    {"nothing available", AUSTRIAN_AND_FRENCH, {{0}}, FLUENT_LOOKUP, FLUENT_READ, 4, 0, {90, 91, 92, 93}},
    {"no tags", {BYTES(""), BYTES("d\xff"), BYTES("fr\0")}, FOUR, FLUENT_FILTERING, FLUENT_READ, 4, 0, {90, 91, 92, 93}},
    {"another script", {BYTES("zh-TW")}, {BYTES("zh"), BYTES("zh_hant")}, FLUENT_FILTERING, FLUENT_READ, 4, 1, {1, 91, 92, 93}},
    {"another strategy", AUSTRIAN_AND_FRENCH, FOUR, 3, FLUENT_BAD_ARGUMENT, 4, COUNT_BEFORE, {90, 91, 92, 93}},
};

static size_t count_of(const struct FluentSource *tags) {
    size_t count = 0;
    while (count < MOST && tags[count].text)
        count++;
    return count;
}

static bool is_right(const struct Row *row) {
    /* The call needs pointers that aren't null even if there are no tags. */
    size_t positions[MOST], count = COUNT_BEFORE;
    memcpy(positions, BEFORE, sizeof positions);
    uint32_t status = fluent_negotiate(
        row->requested, count_of(row->requested), row->available, count_of(row->available), row->strategy, positions, row->room, &count);
    return status == row->status && count == row->count && memcmp(positions, row->positions, sizeof positions) == 0;
}

bool try_languages(void) {
    struct Tally tally = {"fluent_negotiate", 0, 0};
    for (size_t i = 0; i < sizeof ROWS / sizeof *ROWS; i++)
        count_try(&tally, ROWS[i].name, is_right(&ROWS[i]));
    return print_tally(&tally);
}
