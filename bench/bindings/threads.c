/* Four threads make a thousand bundles and ask them a million times, and each text is compared with the one that it must be. Prints
 * how many answers were wrong, and how much memory was resident after a tenth of them and at the end. */
#define _POSIX_C_SOURCE 200809L
#include <pthread.h>
#include <stdio.h>
#include <unistd.h>

#include "fluent.h"

enum { THREADS = 4, BUNDLES = 250, ANSWERS = 1000 };

static const char SOURCE[] =
    "-brand = Kozhvadi\n"
    "welcome = Welcome to { -brand }, { $name }.\n"
    "unread = { $count ->\n    [one] One message is unread.\n   *[other] { $count } messages are unread.\n}\n"
    "login =\n    .title = Log in as { $name }\n";

struct Thread {
    pthread_t thread;
    unsigned number, wrong;
    /* Kilobytes after a tenth of the bundles, and at the end. */
    long early, late;
};

/* The bundle that all threads ask, one after the other. */
static struct FluentBundle shared = {0};
static pthread_mutex_t lock = PTHREAD_MUTEX_INITIALIZER;

/* The kilobytes that are resident. */
static long resident(void) {
    long all = 0, pages = 0;
    FILE *file = fopen("/proc/self/statm", "r");
    if (file && fscanf(file, "%ld %ld", &all, &pages) != 2)
        pages = 0;
    if (file)
        fclose(file);
    return pages * (sysconf(_SC_PAGESIZE) / 1024);
}

/* Asks a bundle. Gives whether the text and the errors are right. */
static bool is_right(struct FluentBundle *bundle, unsigned thread, unsigned number, struct FluentText *text, struct FluentText *errors) {
    char name[40], wanted[100];
    snprintf(name, sizeof name, "user %u of %u", number, thread);
    const struct FluentArgument arguments[] = {fluent_text_argument("name", name), fluent_integer_argument("count", number)};
    const char *id = number % 4 == 0 ? "unread" : number % 4 == 1 ? "login" : "welcome";
    /* Every fourth answer lacks its argument. */
    size_t count = number % 4 == 3 ? 0 : 2;
    uint32_t answered = fluent_format(bundle, id, number % 4 == 1 ? "title" : NULL, arguments, count, text, errors);
    if (number % 4 == 0)
        snprintf(wanted, sizeof wanted, "%u messages are unread.", number);
    else if (number % 4 == 1)
        snprintf(wanted, sizeof wanted, "Log in as %s", name);
    else
        snprintf(wanted, sizeof wanted, "Welcome to Kozhvadi, %s.", count ? name : "{$name}");
    return answered == FLUENT_READ && strcmp(fluent_string(text), wanted) == 0
        && strcmp(fluent_string(errors), count ? "" : "Unknown variable: $name\n") == 0;
}

static void *run(void *given) {
    struct Thread *thread = given;
    struct FluentText text = {0}, errors = {0};
    for (unsigned made = 0; made < BUNDLES; made++) {
        struct FluentBundle bundle = {0};
        if (made == BUNDLES / 10)
            thread->early = resident();
        thread->wrong += fluent_bundle_of(SOURCE, "en", false, &bundle) != FLUENT_READ;
        for (unsigned number = 0; number < ANSWERS; number++) {
            bool is_shared = number % 10 == 0;
            if (is_shared)
                pthread_mutex_lock(&lock);
            thread->wrong += !is_right(is_shared ? &shared : &bundle, thread->number, number, &text, &errors);
            if (is_shared)
                pthread_mutex_unlock(&lock);
        }
        fluent_bundle_free(&bundle);
    }
    thread->late = resident();
    fluent_free_text(&text);
    fluent_free_text(&errors);
    return NULL;
}

int main(void) {
    struct Thread threads[THREADS] = {{0}};
    unsigned wrong = fluent_bundle_of(SOURCE, "en", false, &shared) != FLUENT_READ;
    for (unsigned each = 0; each < THREADS; each++) {
        threads[each].number = each;
        wrong += pthread_create(&threads[each].thread, NULL, run, &threads[each]) != 0;
    }
    for (unsigned each = 0; each < THREADS; each++) {
        pthread_join(threads[each].thread, NULL);
        wrong += threads[each].wrong;
        printf("thread %u: %ld KB after a tenth, %ld KB at the end\n", each, threads[each].early, threads[each].late);
    }
    fluent_bundle_free(&shared);
    printf("%u bundles, %u answers, %u wrong\n", THREADS * BUNDLES + 1, THREADS * BUNDLES * ANSWERS, wrong);
    return wrong == 0 ? 0 : 1;
}
