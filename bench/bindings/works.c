/* What programs in C do: the text of a message by fluent_bundle_format, into texts that are kept, and by fluent_bundle_write, into
 * memory of the program.
 *
 *   works                  the processor time of each work, the least of some rounds
 *   works ours WORK STEPS  does one work so many times, for who counts its instructions
 *   works works            lists the works
 */
#include <stdio.h>
#include <stdlib.h>
#include <string.h>
#include <time.h>

#include "fluent.h"

enum { ROUNDS = 7, TIMES = 50000, ROOM = 512, MOST = 10 };

#define TWO "m = Hello, { $name }, you have { $count } new messages.\n"

#define TEN "m = { $a } { $b } { $c } { $d } { $e } { $f } { $g } { $h } { $i } { $j }\n"

/* What the arguments of a message are. */
enum Given { NONE, TWO_VARIABLES, TWO_TEXTS, SEVEN_DIGITS, TEN_TEXTS };

struct Work {
    const char *name;
    const char *source;
    enum Given given;
};

static const struct Work works[] = {
    {"a text alone", "m = Hello, this is a message of text alone.\n", TWO_VARIABLES},
    {"two variables", TWO, TWO_VARIABLES},
    {"two texts", "m = Hello, { $name }, you are in { $place } now.\n", TWO_TEXTS},
    {"a number of seven digits", TWO, SEVEN_DIGITS},
    {"a select and a term",
     "-brand = Kozhvadi\nm = { $count ->\n    [one] One page is open in { -brand }.\n"
     "   *[other] { $count } pages are open in { -brand }.\n}\n",
     TWO_VARIABLES},
    {"ten variables", TEN, TEN_TEXTS},
    {"two errors", TWO, NONE},
    {"ten errors", TEN, NONE},
};
enum { WORKS = sizeof works / sizeof *works };

/* What is kept from answer to answer. */
struct Kept {
    struct FluentBundle bundle;
    struct FluentPattern pattern;
    struct FluentText text, errors;
    char room[ROOM + 1];
    size_t len;
};

static double now(void) {
    struct timespec time;
    clock_gettime(CLOCK_PROCESS_CPUTIME_ID, &time);
    return (double)time.tv_sec + (double)time.tv_nsec / 1e9;
}

/* Puts the arguments of a work into a list: how many they are. */
static size_t arguments_of(enum Given given, struct FluentArgument list[MOST]) {
    static const char *const letters[MOST] = {"a", "b", "c", "d", "e", "f", "g", "h", "i", "j"};
    switch (given) {
    case NONE:
        return 0;
    case TWO_TEXTS:
        list[0] = fluent_text_argument("name", "Jane");
        list[1] = fluent_text_argument("place", "Zurich");
        return 2;
    case TEN_TEXTS:
        for (int each = 0; each < MOST; each++)
            list[each] = fluent_text_argument(letters[each], "value");
        return MOST;
    default:
        list[0] = fluent_text_argument("name", "Jane");
        list[1] = fluent_integer_argument("count", given == SEVEN_DIGITS ? 1234567 : 5);
        return 2;
    }
}

static void check(uint32_t status) {
    if (status == FLUENT_READ)
        return;
    fprintf(stderr, "%s\n", fluent_status_text(status));
    exit(1);
}

/* Asks for the text of the message `m`, its arguments made anew. */
static void format(struct Kept *kept, enum Given given) {
    struct FluentArgument list[MOST];
    size_t count = arguments_of(given, list);
    check(fluent_format(&kept->bundle, "m", NULL, list, count, &kept->text, &kept->errors));
}

/* The same, into the room. */
static void write_it(struct Kept *kept, enum Given given) {
    struct FluentArgument list[MOST];
    size_t count = arguments_of(given, list);
    check(fluent_bundle_write(&kept->bundle, &kept->pattern, list, count, (uint8_t *)kept->room, ROOM, &kept->len, &kept->errors));
}

typedef void (*Does)(struct Kept *kept, enum Given given);

/* Does a work so many times, and gives the seconds of the best of as many rounds. */
static double done(const struct Work *work, Does does, long times, int rounds, struct Kept *kept) {
    double best = 1e9;
    memset(kept, 0, sizeof *kept);
    check(fluent_bundle_of(work->source, "en-US", true, &kept->bundle));
    kept->pattern = (struct FluentPattern){.id = (const uint8_t *)"m", .id_len = 1, .attribute = (const uint8_t *)""};
    check(fluent_bundle_find(&kept->bundle, (const uint8_t *)"m", 1, (const uint8_t *)"", 0, &kept->pattern.number));
    for (int round = 0; round < rounds; round++) {
        double from = now();
        for (long each = 0; each < times; each++)
            does(kept, work->given);
        double took = now() - from;
        best = took < best ? took : best;
    }
    return best;
}

static void free_kept(struct Kept *kept) {
    fluent_free_text(&kept->text);
    fluent_free_text(&kept->errors);
    fluent_bundle_free(&kept->bundle);
}

/* The work of a name, and what it does: a name that ends in ", written" writes. */
static const struct Work *work_of(const char *name, Does *does) {
    size_t len = strcspn(name, ",");
    *does = name[len] ? write_it : format;
    for (int each = 0; each < WORKS; each++)
        if (strlen(works[each].name) == len && !strncmp(works[each].name, name, len))
            return &works[each];
    return NULL;
}

/* Does each work, unless `times` is 0, and prints its name and how long it takes. */
static void list(long times) {
    struct Kept kept;
    for (int writes = 0; writes < 2; writes++)
        for (int each = 0; each < WORKS; each++) {
            printf("%s%s", works[each].name, writes ? ", written" : "");
            if (times) {
                double took = done(&works[each], writes ? write_it : format, times, ROUNDS, &kept);
                printf(": %.0f ns", took / (double)times * 1e9);
                free_kept(&kept);
            }
            puts("");
        }
}

int main(int count, char **words) {
    struct Kept kept;
    Does does;
    if (count < 4) {
        list(count == 1 ? TIMES : 0);
        return 0;
    }
    const struct Work *work = work_of(words[2], &does);
    if (!work)
        return 2;
    done(work, does, atol(words[3]), 1, &kept);
    kept.room[kept.len] = 0;
    puts(does == write_it ? kept.room : fluent_string(&kept.text));
    free_kept(&kept);
    return 0;
}
