/* What the choice of languages costs: a negotiation of 5 requests among 200 languages, and a message that the first bundles of a chain
 * lack, for each of these. Its argument is a file with a language a line. The least processor time of five rounds counts.
 */
#include <stdio.h>
#include <stdlib.h>
#include <string.h>
#include <time.h>

#include "fluent_c.h"

#define COUNT(list) (sizeof(list) / sizeof *(list))
#define TAG(literal) {(const uint8_t *)(literal), sizeof(literal) - 1}

enum { ROUNDS = 5, LANGUAGES = 200, NEGOTIATIONS = 200, BUNDLES = 64, CALLS = 20000 };

static const char SOURCE[] = "only = Only here.\n";
static const char OTHER[] = "other = Another message.\n";

static double now(void) {
    struct timespec time;
    clock_gettime(CLOCK_PROCESS_CPUTIME_ID, &time);
    return (double)time.tv_sec + (double)time.tv_nsec / 1e9;
}

/* Reads so many languages. */
static void read_languages(const char *path, char (*names)[16], struct FluentSource *languages) {
    FILE *file = fopen(path, "r");
    for (size_t i = 0; i < LANGUAGES; i++) {
        if (!file || fscanf(file, "%15s", names[i]) != 1)
            exit(1);
        languages[i] = (struct FluentSource){(const uint8_t *)names[i], strlen(names[i])};
    }
    fclose(file);
}

/* The seconds that a negotiation takes. */
static double negotiation_takes(const struct FluentSource *languages) {
    static const struct FluentSource requested[] = {TAG("de-AT"), TAG("fr-CA"), TAG("pt-AO"), TAG("zh-TW"), TAG("sr-Latn")};
    size_t positions[LANGUAGES], count;
    double best = 1e9;
    for (int round = 0; round < ROUNDS; round++) {
        double from = now();
        for (int i = 0; i < NEGOTIATIONS; i++)
            if (fluent_negotiate(requested, COUNT(requested), languages, LANGUAGES, FLUENT_FILTERING, positions, LANGUAGES, &count) !=
                FLUENT_READ)
                exit(1);
        double took = (now() - from) / NEGOTIATIONS;
        best = took < best ? took : best;
    }
    printf("%d requests among %d languages: %.2f ms, %zu found\n", (int)COUNT(requested), LANGUAGES, best * 1e3, count);
    return best;
}

/* The seconds that a message takes which so many bundles lack and the next one has. */
static double message_takes(struct FluentBundle *bundles, size_t lacking, struct FluentBundle *last) {
    struct FluentText text = {0}, errors = {0};
    double best = 1e9;
    for (int round = 0; round < ROUNDS; round++) {
        double from = now();
        for (int i = 0; i < CALLS; i++) {
            for (size_t at = 0; at <= lacking; at++) {
                uint32_t answered = fluent_bundle_format(
                    at < lacking ? &bundles[at] : last, (const uint8_t *)"only", 4, (const uint8_t *)"", 0, NULL, 0, &text, &errors);
                if (answered != (at < lacking ? FLUENT_NO_MESSAGE : FLUENT_READ))
                    exit(1);
            }
        }
        double took = (now() - from) / CALLS;
        best = took < best ? took : best;
    }
    fluent_free_text(&text);
    fluent_free_text(&errors);
    return best;
}

static void make_bundle(struct FluentBundle *bundle, const char *text) {
    struct FluentSource source = {(const uint8_t *)text, strlen(text)};
    if (fluent_bundle_new(&source, 1, (const uint8_t *)"en", 2, false, false, bundle) != FLUENT_READ)
        exit(1);
}

int main(int count, char **words) {
    static char names[LANGUAGES][16];
    static struct FluentSource languages[LANGUAGES];
    static struct FluentBundle bundles[BUNDLES], last;
    if (count != 2)
        return 2;
    read_languages(words[1], names, languages);
    double negotiation = negotiation_takes(languages);
    for (size_t i = 0; i < BUNDLES; i++)
        make_bundle(&bundles[i], OTHER);
    make_bundle(&last, SOURCE);
    double alone = message_takes(bundles, 0, &last);
    printf("a message of the first bundle: %.0f ns\n", alone * 1e9);
    for (size_t lacking = 1; lacking <= BUNDLES; lacking *= 8)
        printf(
            "a message that %zu bundle%s before it lack%s: %.0f ns more for each\n", lacking, lacking == 1 ? "" : "s",
            lacking == 1 ? "s" : "", (message_takes(bundles, lacking, &last) - alone) / (double)lacking * 1e9);
    for (size_t i = 0; i < BUNDLES; i++)
        fluent_bundle_free(&bundles[i]);
    fluent_bundle_free(&last);
    return negotiation > 1e-3;
}
