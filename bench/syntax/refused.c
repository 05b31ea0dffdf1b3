/* Calls fluent_c on a file again and again, each time with another of its allocations refused, and checks that each call
 * either answers FLUENT_NO_MEMORY and leaves what it was given, or answers as it does with ample memory.
 *
 * It is linked with malloc and realloc wrapped, so that they count and refuse. */
#include "fluent_c.h"

#include <stdio.h>
#include <stdlib.h>
#include <string.h>

void *__real_malloc(size_t size);
void *__real_realloc(void *block, size_t size);

/* How many allocations are left until one is refused; below 0 none is. */
static long left = -1;
static long count;

static bool refused(void) {
    count++;
    if (left < 0)
        return false;
    return left-- == 0;
}

void *__wrap_malloc(size_t size) { return refused() ? NULL : __real_malloc(size); }

void *__wrap_realloc(void *block, size_t size) { return refused() ? NULL : __real_realloc(block, size); }

typedef uint32_t (*Call)(struct FluentSource source, struct FluentText *made);

static uint32_t written(struct FluentSource source, struct FluentText *made) {
    return fluent_write(source.text, source.len, false, made);
}

static uint32_t written_with_junk(struct FluentSource source, struct FluentText *made) {
    return fluent_write(source.text, source.len, true, made);
}

static uint32_t json(struct FluentSource source, struct FluentText *made) {
    return fluent_write_json(source.text, source.len, made);
}

/* Requests of examples/hello.ftl. Of another source each is answered too. */
static uint32_t answered(struct FluentSource source, struct FluentText *made) {
    static const char requests[] =
        "hello-world\nwelcome\tname=Jane\nwelcome\ninbox\tname=Jane\tcount=3\nunread\tcount=1\nfarewell\nbad\tbad\n";
    return fluent_answer(
        &source, 1, (const uint8_t *)"", 0, true, false, (const uint8_t *)requests, sizeof requests - 1, made);
}

static bool equal(const struct FluentText *a, const struct FluentText *b) {
    return a->held == b->held && a->len == b->len && memcmp(a->bytes, b->bytes, a->len) == 0;
}

/* Refuses each allocation of a call in turn. Gives how many there are, or -1 where an answer is wrong. */
static long try_call(Call call, struct FluentSource source) {
    static const uint8_t other[] = "a = b\n";
    struct FluentText before = {0}, wanted = {0}, made = {0};
    struct FluentSource small = {other, sizeof other - 1};
    bool good = written(small, &before) == FLUENT_READ && call(source, &wanted) == FLUENT_READ;
    long tried = 0;
    for (bool ended = false; good && !ended; tried++) {
        good = written(small, &made) == FLUENT_READ;
        left = tried;
        count = 0;
        uint32_t answer = call(source, &made);
        ended = left >= 0;
        left = -1;
        bool same = answer == FLUENT_READ && equal(&made, &wanted);
        bool unchanged = answer == FLUENT_NO_MEMORY && equal(&made, &before);
        good = good && (same || (unchanged && !ended));
    }
    fluent_free_text(&before);
    fluent_free_text(&wanted);
    fluent_free_text(&made);
    return good ? tried - 1 : -1;
}

static struct FluentSource read_file(const char *path) {
    struct FluentSource source = {NULL, 0};
    FILE *file = fopen(path, "rb");
    uint8_t *bytes = __real_malloc(1 << 20);
    if (file && bytes)
        source.len = fread(bytes, 1, 1 << 20, file);
    source.text = bytes;
    return source;
}

int main(int words, char **word) {
    const struct {
        const char *name;
        Call call;
    } calls[] = {{"fluent_write", written}, {"fluent_write with junk", written_with_junk}, {"fluent_write_json", json},
                 {"fluent_answer", answered}};
    int status = 0;
    for (int file = 1; file < words; file++) {
        struct FluentSource source = read_file(word[file]);
        for (size_t i = 0; i < sizeof calls / sizeof *calls; i++) {
            long tried = try_call(calls[i].call, source);
            printf("%s: %s: %ld allocations refused in turn%s\n", word[file], calls[i].name, tried, tried < 0 ? ", WRONG" : "");
            if (tried < 0)
                status = 1;
        }
    }
    return status;
}
