/* Formats the numbers of tests/numerals/rows.txt in their locales, and compares each text with the one that stands there:
 * `numerals FILE`. tools/numbers/written.py says what a line of the file is.
 */
#include <stdio.h>
#include <stdlib.h>

#include "fluent.h"

enum { MOST_FIELDS = 32, MOST_ROWS = 64, SOURCE_SIZE = 1 << 16 };

/* Rows that share their tags. The first field of `tags` is empty; those of a row are a number, its options and its texts. */
struct Block {
    char *tags[MOST_FIELDS], *rows[MOST_ROWS][MOST_FIELDS];
    size_t tag_count, row_count;
};

static unsigned tried = 0, wrong = 0;

static void stop(const char *words) {
    fprintf(stderr, "numerals: %s\n", words);
    exit(2);
}

/* The bytes of a file, with a byte 0 after them. */
static char *read_file(const char *path) {
    FILE *file = fopen(path, "rb");
    if (!file || fseek(file, 0, SEEK_END) != 0)
        stop("the file can't be read");
    long len = ftell(file);
    char *text = len < 0 ? NULL : calloc((size_t)len + 1, 1);
    rewind(file);
    if (!text || fread(text, 1, (size_t)len, file) != (size_t)len)
        stop("the file can't be read");
    fclose(file);
    return text;
}

/* Ends a text at the first byte `at`. Gives what comes after it, or NULL if there is no such byte. */
static char *cut(char *text, char at) {
    char *end = strchr(text, at);
    if (end)
        *end++ = '\0';
    return end;
}

/* Cuts a line at its tabs. Gives how many fields it has. */
static size_t fields_of(char *line, char **fields) {
    size_t count = 0;
    for (char *next; line; line = next) {
        if (count == MOST_FIELDS)
            stop("a line has too many fields");
        next = cut(line, '\t');
        fields[count++] = line;
    }
    return count;
}

/* Writes a message that shows `$n` with options: `name=text` or `name#count`, with `;` between. Gives the end of it. */
static char *write_message(char *at, size_t number, const char *options) {
    at += sprintf(at, "n%zu = { NUMBER($n", number);
    while (*options) {
        size_t len = strcspn(options, ";"), name = strcspn(options, "=#");
        const char *quote = options[name] == '=' ? "\"" : "";
        at += sprintf(at, ", %.*s: %s%.*s%s", (int)name, options, quote, (int)(len - name - 1), options + name + 1, quote);
        options += len + (options[len] == ';');
    }
    return at + sprintf(at, ") }\n");
}

/* Formats the numbers of a block in one of its locales. */
static void try_locale(const struct Block *block, size_t tag, const char *source) {
    struct FluentBundle bundle = {0};
    struct FluentText text = {0}, errors = {0};
    if (fluent_bundle_of(source, block->tags[tag], false, &bundle) != FLUENT_READ)
        stop(block->tags[tag]);
    for (size_t row = 0; row < block->row_count; row++) {
        char *const *fields = block->rows[row];
        const struct FluentArgument number = fluent_decimal_argument("n", fields[0]);
        char id[24];
        sprintf(id, "n%zu", row);
        bool is_right = fluent_format(&bundle, id, NULL, &number, 1, &text, &errors) == FLUENT_READ && !errors.held
            && strcmp(fluent_string(&text), fields[tag + 1]) == 0;
        tried++;
        wrong += !is_right;
        if (!is_right)
            printf("%s, %s %s: %s for %s\n", block->tags[tag], fields[0], fields[1], fluent_string(&text), fields[tag + 1]);
    }
    fluent_free_text(&text);
    fluent_free_text(&errors);
    fluent_bundle_free(&bundle);
}

static void try_block(const struct Block *block) {
    static char source[SOURCE_SIZE];
    char *at = source;
    for (size_t row = 0; row < block->row_count; row++)
        at = write_message(at, row, block->rows[row][1]);
    for (size_t tag = 1; tag < block->tag_count; tag++)
        try_locale(block, tag, source);
}

int main(int count, char **words) {
    static struct Block block;
    if (count != 2)
        stop("it takes one file");
    char *text = read_file(words[1]);
    for (char *line = text, *next; line && *line; line = next) {
        next = cut(line, '\n');
        if (*line == '\t') {
            try_block(&block);
            block.row_count = 0;
            block.tag_count = fields_of(line, block.tags);
        } else if (block.row_count == MOST_ROWS || fields_of(line, block.rows[block.row_count++]) != block.tag_count + 1) {
            stop("a block has too many rows, or a row other texts than its tags");
        }
    }
    try_block(&block);
    free(text);
    printf("numerals.c: %u tried, %u wrong\n", tried, wrong);
    return tried > 0 && wrong == 0 ? 0 : 1;
}
