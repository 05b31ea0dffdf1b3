/* Shows the messages of a mail program: counts them, reads them once, and asks for each when it is needed.
 *
 * Build and run it by run.sh beside this file.
 */
#include <stdio.h>
#include <string.h>

#include "fluent_c.h"

static const char SOURCE[] =
    "hello-world = Hello, world!\n"
    "welcome = Welcome, { $name }.\n"
    "unread = { $count ->\n"
    "    [one] One message is unread.\n"
    "   *[other] { $count } messages are unread.\n"
    "}\n"
    "login = Log in\n"
    "    .title = Log in as { $name }\n";

/* What is kept from call to call: the bundle, and the memory that answers are written to. */
struct Messages {
    struct FluentBundle bundle;
    struct FluentText text;
    struct FluentText errors;
};

static const uint8_t *bytes_of(const char *text) { return (const uint8_t *)text; }

static struct FluentArgument text_argument(const char *name, const char *text) {
    return (struct FluentArgument){
        .name = bytes_of(name), .name_len = strlen(name), .text = bytes_of(text), .text_len = strlen(text), .kind = FLUENT_TEXT};
}

static struct FluentArgument integer_argument(const char *name, int64_t integer) {
    return (struct FluentArgument){
        .name = bytes_of(name), .name_len = strlen(name), .text = bytes_of(""), .integer = integer, .kind = FLUENT_INTEGER};
}

/* How many messages a source has. */
static size_t count_messages(const char *source) {
    struct FluentCounts counts = {0};
    return fluent_parse(bytes_of(source), strlen(source), &counts) == FLUENT_READ ? counts.messages : 0;
}

static uint32_t read_messages(struct Messages *messages, const char *source) {
    const struct FluentSource sources[] = {{bytes_of(source), strlen(source)}};
    const char *locale = "en-GB";
    return fluent_bundle_new(sources, 1, bytes_of(locale), strlen(locale), false, false, &messages->bundle);
}

/* Prints a message's value, or its attribute if its name isn't empty, and gives what the call answered. */
static uint32_t print_message(
    struct Messages *messages, const char *id, const char *attribute, const struct FluentArgument *arguments, size_t count) {
    /* The call needs a pointer even if there are no arguments. */
    static const struct FluentArgument none = {0};
    uint32_t answered = fluent_bundle_format(
        &messages->bundle, bytes_of(id), strlen(id), bytes_of(attribute), strlen(attribute), count ? arguments : &none, count,
        &messages->text, &messages->errors);
    if (answered != FLUENT_READ) {
        printf("(%s: %u)\n", id, answered);
        return answered;
    }
    printf("%s\n", (const char *)messages->text.bytes);
    if (messages->errors.held)
        printf("  error: %s", (const char *)messages->errors.bytes);
    return answered;
}

/* Looks a pattern up once, and writes its text for each name into memory of this program. */
static bool print_greetings(struct Messages *messages, const char *const *names, size_t count) {
    struct FluentPattern welcome = {.id = bytes_of("welcome"), .id_len = strlen("welcome"), .attribute = bytes_of("")};
    uint8_t room[64];
    size_t len;
    if (fluent_bundle_find(&messages->bundle, welcome.id, welcome.id_len, welcome.attribute, 0, &welcome.number) != FLUENT_READ)
        return false;
    for (size_t i = 0; i < count; i++) {
        const struct FluentArgument name = text_argument("name", names[i]);
        if (fluent_bundle_write(&messages->bundle, &welcome, &name, 1, room, sizeof room, &len, &messages->errors) != FLUENT_READ)
            return false;
        printf("%.*s\n", (int)len, (const char *)room);
    }
    return true;
}

static void free_messages(struct Messages *messages) {
    fluent_bundle_free(&messages->bundle);
    fluent_free_text(&messages->text);
    fluent_free_text(&messages->errors);
}

int main(void) {
    struct Messages messages = {{0}, {0}, {0}};
    if (read_messages(&messages, SOURCE) != FLUENT_READ)
        return 1;
    printf("%zu messages\n", count_messages(SOURCE));
    const struct FluentArgument jane[] = {text_argument("name", "Jane")};
    const struct FluentArgument three[] = {integer_argument("count", 3)};
    print_message(&messages, "hello-world", "", NULL, 0);
    print_message(&messages, "welcome", "", jane, 1);
    print_message(&messages, "unread", "", three, 1);
    print_message(&messages, "login", "title", jane, 1);
    print_message(&messages, "welcome", "", NULL, 0);
    uint32_t absent = print_message(&messages, "nothing", "", NULL, 0);
    static const char *const names[] = {"John", "Zoe"};
    bool are_greeted = print_greetings(&messages, names, 2);
    free_messages(&messages);
    return absent == FLUENT_NO_MESSAGE && are_greeted && !messages.bundle.held ? 0 : 1;
}
