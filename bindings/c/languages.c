/* Asks for messages in a user's languages: of those that the program has, the ones that suit are asked one after the other.
 *
 * Its argument is the folder whose folders `LOCALE` each have a file main.ftl. Build and run it by run.sh beside this file.
 */
#include <stdio.h>
#include <stdlib.h>
#include <string.h>

#include "fluent_c.h"

#define COUNT(list) (sizeof(list) / sizeof *(list))
#define TAG(literal) {(const uint8_t *)(literal), sizeof(literal) - 1}

/* The program's languages. The first is asked last. */
static const struct FluentSource LANGUAGES[] = {TAG("en-US"), TAG("de"), TAG("fr")};

/* Bundles in the order in which they are asked. */
struct Chain {
    struct FluentBundle bundles[COUNT(LANGUAGES)];
    size_t count;
};

/* Reads the file of a language. The caller frees its text. Without such a file there is no text. */
static struct FluentSource read_file(const char *folder, struct FluentSource language) {
    char path[1000];
    struct FluentSource source = {0};
    snprintf(path, sizeof path, "%s/%.*s/main.ftl", folder, (int)language.len, (const char *)language.text);
    FILE *file = fopen(path, "rb");
    if (!file)
        return source;
    fseek(file, 0, SEEK_END);
    long size = ftell(file);
    rewind(file);
    uint8_t *text = size < 0 ? NULL : malloc((size_t)size + 1);
    if (text)
        source = (struct FluentSource){text, fread(text, 1, (size_t)size, file)};
    fclose(file);
    return source;
}

/* Makes the bundle of a language, and puts it at the end of the chain. */
static uint32_t add_language(struct Chain *chain, const char *folder, struct FluentSource language) {
    struct FluentSource source = read_file(folder, language);
    if (!source.text)
        return FLUENT_NO_BUNDLE;
    uint32_t answered =
        fluent_bundle_new(&source, 1, language.text, language.len, false, false, &chain->bundles[chain->count]);
    free((void *)source.text);
    chain->count += answered == FLUENT_READ;
    return answered;
}

/* Finds the languages that suit those that are requested, the best first, and puts them into the chain. */
static uint32_t choose(struct Chain *chain, const char *folder, const struct FluentSource *requested, size_t requested_count) {
    size_t positions[COUNT(LANGUAGES)], count;
    bool has_last = false;
    uint32_t answered = fluent_negotiate(
        requested, requested_count, LANGUAGES, COUNT(LANGUAGES), FLUENT_FILTERING, positions, COUNT(LANGUAGES), &count);
    for (size_t i = 0; answered == FLUENT_READ && i < count; i++) {
        answered = add_language(chain, folder, LANGUAGES[positions[i]]);
        has_last |= positions[i] == 0;
    }
    return answered == FLUENT_READ && !has_last ? add_language(chain, folder, LANGUAGES[0]) : answered;
}

/* Formats a message by the first bundle that has it. */
static uint32_t format_first(
    struct Chain *chain, const char *id, const struct FluentArgument *arguments, size_t count, struct FluentText *text,
    struct FluentText *errors) {
    uint32_t answered = FLUENT_NO_MESSAGE;
    for (size_t i = 0; i < chain->count && (answered == FLUENT_NO_MESSAGE || answered == FLUENT_NO_PATTERN); i++)
        answered = fluent_bundle_format(
            &chain->bundles[i], (const uint8_t *)id, strlen(id), (const uint8_t *)"", 0, arguments, count, text, errors);
    return answered;
}

int main(int count, char **words) {
    static const struct FluentSource requested[] = {TAG("de-AT"), TAG("fr")};
    static const struct FluentArgument name[] = {
        {.name = (const uint8_t *)"name", .name_len = 4, .text = (const uint8_t *)"Jane", .text_len = 4, .kind = FLUENT_TEXT}};
    static const char *const ids[] = {"welcome", "thanks", "bye", "nothing"};
    struct Chain chain = {0};
    struct FluentText text = {0}, errors = {0};
    uint32_t chosen = choose(&chain, count > 1 ? words[1] : "l10n", requested, COUNT(requested));
    for (size_t i = 0; chosen == FLUENT_READ && i < COUNT(ids); i++) {
        if (format_first(&chain, ids[i], name, COUNT(name), &text, &errors) == FLUENT_READ)
            printf("%.*s\n", (int)text.len, (const char *)text.bytes);
        else
            printf("%s is missing\n", ids[i]);
    }
    for (size_t i = 0; i < chain.count; i++)
        fluent_bundle_free(&chain.bundles[i]);
    fluent_free_text(&text);
    fluent_free_text(&errors);
    return chosen == FLUENT_READ ? 0 : 1;
}
