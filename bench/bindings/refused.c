/* Refuses each allocation of the calls on a bundle in turn, and checks what they answer: that memory ran out, and that all is as it
 * was; or as with ample memory. Then it makes and frees a thousand bundles, and has a million answers from one, and checks that no
 * block is left, that the memory in use doesn't grow, and that from the third answer on none is taken for a text.
 *
 * It is linked with malloc, realloc and free wrapped, so that they count and refuse.
 */
#include <stdio.h>
#include <stdlib.h>
#include <string.h>
#include <sys/resource.h>

#include "fluent_c.h"

void *__real_malloc(size_t size);
void *__real_realloc(void *block, size_t size);
void __real_free(void *block);

/* How many allocations are left until one is refused; below 0 none is. */
static long left = -1;
/* How many blocks are in use. */
static long blocks;
/* How many were taken or grew. */
static long taken;

static bool refused(void) { return left >= 0 && left-- == 0; }

void *__wrap_malloc(size_t size) {
    void *block = refused() ? NULL : __real_malloc(size);
    taken++;
    blocks += block != NULL;
    return block;
}

void *__wrap_realloc(void *block, size_t size) {
    void *moved = refused() ? NULL : __real_realloc(block, size);
    taken++;
    blocks += block == NULL && moved != NULL;
    return moved;
}

void __wrap_free(void *block) {
    blocks -= block != NULL;
    __real_free(block);
}

static const char SOURCE[] =
    "welcome = Welcome, { $name }.\n"
    "unread = { $count ->\n    [one] One message of { -brand }.\n   *[other] { $count } messages of { -brand }.\n}\n"
    "-brand = Kozhvadi\nbroken = { nothing } and { $absent }\n"
    "g@rb@ge\n"
    "welcome = Again\n";

static const uint8_t *bytes_of(const char *text) { return (const uint8_t *)text; }

/* What is kept from call to call. */
struct Kept {
    struct FluentBundle bundle;
    struct FluentText text, errors, report;
};

static void drop(struct Kept *kept) {
    fluent_bundle_free(&kept->bundle);
    fluent_free_text(&kept->text);
    fluent_free_text(&kept->errors);
    fluent_free_text(&kept->report);
}

static uint32_t make(struct Kept *kept) {
    const struct FluentSource sources[] = {{bytes_of(SOURCE), sizeof SOURCE - 1}, {bytes_of("more = More\n"), 12}};
    return fluent_bundle_new(sources, 2, bytes_of("pl"), 2, true, false, &kept->bundle);
}

static uint32_t format(struct Kept *kept, const char *id) {
    const struct FluentArgument arguments[] = {
        {.name = bytes_of("name"), .name_len = 4, .text = bytes_of("Jane"), .text_len = 4, .kind = FLUENT_TEXT},
        {.name = bytes_of("count"), .name_len = 5, .text = bytes_of("1.5"), .text_len = 3, .kind = FLUENT_DECIMAL},
    };
    return fluent_bundle_format(&kept->bundle, bytes_of(id), strlen(id), bytes_of(""), 0, arguments, 2, &kept->text, &kept->errors);
}

static uint32_t welcome(struct Kept *kept) { return format(kept, "welcome"); }
static uint32_t unread(struct Kept *kept) { return format(kept, "unread"); }
static uint32_t broken(struct Kept *kept) { return format(kept, "broken"); }
static uint32_t report(struct Kept *kept) { return fluent_bundle_errors(&kept->bundle, &kept->report); }
static uint32_t has(struct Kept *kept) {
    return fluent_bundle_has(&kept->bundle, bytes_of("welcome"), 7, bytes_of(""), 0);
}

static bool holds(const struct FluentText *text, const char *wanted) {
    return text->held && text->len == strlen(wanted) && memcmp(text->bytes, wanted, text->len) == 0;
}

static const char WELCOME[] = "Welcome, \u2068Jane\u2069.";

/* Whether a call that was refused left all as it was. */
static bool is_unchanged(struct Kept *kept) {
    return (kept->text.held ? holds(&kept->text, WELCOME) : true) && !kept->errors.held && !kept->report.held;
}

/* Refuses each allocation of a call in turn. Gives how many were refused, or -1 if an answer was wrong. */
static long try_call(const char *name, uint32_t (*call)(struct Kept *), bool is_first) {
    long count = 0;
    for (;; count++) {
        struct Kept kept = {{0}, {0}, {0}, {0}};
        if (make(&kept) != FLUENT_READ || (!is_first && welcome(&kept) != FLUENT_READ))
            return -1;
        long before = blocks;
        left = count;
        uint32_t answered = call(&kept);
        bool was_refused = left < 0;
        left = -1;
        /* A growth that is refused is tried again with less, so a call may answer in spite of a refusal. */
        bool good = was_refused && answered == FLUENT_NO_MEMORY
            ? blocks == before && is_unchanged(&kept) && has(&kept) == FLUENT_READ
            : answered == FLUENT_READ;
        drop(&kept);
        if (!good || blocks != 0) {
            printf("%s: allocation %ld: answered %u, %ld blocks left\n", name, count, answered, blocks);
            return -1;
        }
        if (!was_refused)
            return count;
    }
}

static bool try_new(void) {
    long count = 0;
    for (;; count++) {
        struct Kept kept = {{0}, {0}, {0}, {0}};
        left = count;
        uint32_t made = make(&kept);
        bool was_refused = left < 0;
        left = -1;
        bool good = was_refused && made == FLUENT_NO_MEMORY ? !kept.bundle.held && blocks == 0
                                                            : made == FLUENT_READ && welcome(&kept) == FLUENT_READ && holds(&kept.text, WELCOME);
        drop(&kept);
        if (!good || blocks != 0) {
            printf("new: allocation %ld: answered %u, %ld blocks left\n", count, made, blocks);
            return false;
        }
        if (!was_refused)
            break;
    }
    printf("new: %ld refusals\n", count);
    return true;
}

static bool try_all(void) {
    struct {
        const char *name;
        uint32_t (*call)(struct Kept *);
    } const calls[] = {{"welcome", welcome}, {"unread", unread}, {"broken", broken}, {"errors", report}, {"has", has}};
    for (size_t i = 0; i < sizeof calls / sizeof *calls; i++)
        for (int first = 0; first < 2; first++) {
            long count = try_call(calls[i].name, calls[i].call, first == 1);
            if (count < 0)
                return false;
            printf("%s, %s: %ld refusals\n", calls[i].name, first ? "without a text before" : "with a text before", count);
        }
    return true;
}

/* The greatest size of the program in memory so far, in KiB. */
static long greatest_size(void) {
    struct rusage usage;
    return getrusage(RUSAGE_SELF, &usage) == 0 ? usage.ru_maxrss : -1;
}

static bool try_many(long bundles, long answers) {
    long size_before = greatest_size();
    for (long i = 0; i < bundles; i++) {
        struct Kept kept = {{0}, {0}, {0}, {0}};
        if (make(&kept) != FLUENT_READ)
            return false;
        drop(&kept);
        if (blocks != 0)
            return false;
    }
    struct Kept kept = {{0}, {0}, {0}, {0}};
    if (make(&kept) != FLUENT_READ || welcome(&kept) != FLUENT_READ)
        return false;
    /* The second answer takes memory for a second text, and the others take one block less. */
    long taken_before = taken;
    if (welcome(&kept) != FLUENT_READ)
        return false;
    long before = blocks, wanted = taken - taken_before - 1;
    for (long i = 0; i < answers; i++) {
        taken_before = taken;
        if (welcome(&kept) != FLUENT_READ || !holds(&kept.text, WELCOME) || blocks != before || taken - taken_before != wanted)
            return false;
    }
    drop(&kept);
    printf("%ld bundles and %ld answers: %ld blocks left, %ld KiB more at most\n", bundles, answers, blocks,
           greatest_size() - size_before);
    return blocks == 0;
}

/* How many bundles and answers: fewer under valgrind. */
int main(int count, char **words) {
    long bundles = count > 1 ? strtol(words[1], NULL, 10) : 1000;
    long answers = count > 2 ? strtol(words[2], NULL, 10) : 1000000;
    return try_new() && try_all() && try_many(bundles, answers) ? 0 : 1;
}
