/* The calls of fluent_handle.h. */
#include "fluent_handle.h"

#include <stdlib.h>
#include <string.h>

#include "fluent.h"

/* Texts that the handle owns. */
struct Sources {
    struct FluentSource *list;
    size_t count, room;
};

struct FluentHandle {
    struct FluentBundle bundle;
    struct FluentBundleOptions options;
    struct Sources sources, functions;
    /* The arguments of the next message. Each has its name and its text in one block, which begins with the name. */
    struct FluentArgument *arguments;
    size_t argument_count, argument_room;
    struct FluentAnswers answers;
    struct FluentText text, errors, call;
    /* The call that has no answer yet. */
    struct FluentCall asked;
};

static const uint8_t *bytes_of(const char *text) { return (const uint8_t *)(text ? text : ""); }

/* Makes room for one more item of a list. Gives the list, or null if memory was refused: the old one is there then. */
static void *grown(void *list, size_t count, size_t *room, size_t size) {
    size_t wanted = *room ? 2 * *room : 4;
    void *made = list;
    if (count < *room)
        return list;
    made = wanted > SIZE_MAX / size ? NULL : realloc(list, wanted * size);
    if (made)
        *room = wanted;
    return made;
}

/* A copy of two texts, one behind the other, or null if memory was refused. */
static uint8_t *copied(const uint8_t *first, size_t len, const uint8_t *second, size_t second_len) {
    uint8_t *copy = second_len > SIZE_MAX - len - 1 ? NULL : malloc(len + second_len + 1);
    if (copy && len)
        memcpy(copy, first, len);
    if (copy && second_len)
        memcpy(copy + len, second, second_len);
    return copy;
}

static uint32_t add_source(struct Sources *sources, const char *text, size_t len) {
    struct FluentSource *list = grown(sources->list, sources->count, &sources->room, sizeof *list);
    uint8_t *copy = list ? copied(bytes_of(text), len, NULL, 0) : NULL;
    if (list)
        sources->list = list;
    if (!copy)
        return FLUENT_NO_MEMORY;
    list[sources->count].text = copy;
    list[sources->count++].len = len;
    return FLUENT_READ;
}

static void free_sources(struct Sources *sources) {
    while (sources->count > 0)
        free((void *)sources->list[--sources->count].text);
    free(sources->list);
}

static void free_arguments(struct FluentHandle *handle) {
    while (handle->argument_count > 0)
        free((void *)handle->arguments[--handle->argument_count].name);
}

/* Ends the rounds of a message. */
static void end_rounds(struct FluentHandle *handle) {
    fluent_free_answers(&handle->answers);
    fluent_free_call(&handle->asked);
    free_arguments(handle);
}

struct FluentHandle *fluent_handle_new(void) {
    struct FluentHandle *handle = calloc(1, sizeof *handle);
    if (handle)
        handle->options = fluent_bundle_options(NULL);
    return handle;
}

void fluent_handle_free(struct FluentHandle *handle) {
    if (!handle)
        return;
    end_rounds(handle);
    free(handle->arguments);
    free_sources(&handle->sources);
    free_sources(&handle->functions);
    if (handle->options.locale_len)
        free((void *)handle->options.locale);
    fluent_free_text(&handle->text);
    fluent_free_text(&handle->errors);
    fluent_free_text(&handle->call);
    fluent_bundle_free(&handle->bundle);
    free(handle);
}

const char *fluent_handle_status(uint32_t status) { return fluent_status_text(status); }

uint32_t fluent_handle_locale(struct FluentHandle *handle, const char *tag, size_t len) {
    uint8_t *copy = len ? copied(bytes_of(tag), len, NULL, 0) : NULL;
    if (len && !copy)
        return FLUENT_NO_MEMORY;
    if (handle->options.locale_len)
        free((void *)handle->options.locale);
    handle->options.locale = copy ? copy : bytes_of(NULL);
    handle->options.locale_len = len;
    return FLUENT_READ;
}

uint32_t fluent_handle_source(struct FluentHandle *handle, const char *text, size_t len) {
    return add_source(&handle->sources, text, len);
}

uint32_t fluent_handle_function(struct FluentHandle *handle, const char *name, size_t len) {
    return add_source(&handle->functions, name, len);
}

void fluent_handle_isolating(struct FluentHandle *handle, bool isolating) { handle->options.isolating = isolating; }

void fluent_handle_overriding(struct FluentHandle *handle, bool overriding) { handle->options.overriding = overriding; }

void fluent_handle_plain_numbers(struct FluentHandle *handle, bool plain) { handle->options.plain_numbers = plain; }

void fluent_handle_stack(struct FluentHandle *handle, size_t bytes) { handle->options.stack = bytes; }

uint32_t fluent_handle_make(struct FluentHandle *handle) {
    static const struct FluentSource none = {0};
    const struct Sources *sources = &handle->sources, *functions = &handle->functions;
    return fluent_bundle_new_calling(
        sources->list ? sources->list : &none, sources->count, &handle->options,
        functions->list ? functions->list : &none, functions->count, &handle->bundle);
}

/* Adds an argument of a kind, whose name and text are copied. */
static uint32_t add_argument(
    struct FluentHandle *handle, struct FluentArgument argument, const char *name, size_t name_len) {
    struct FluentArgument *list =
        grown(handle->arguments, handle->argument_count, &handle->argument_room, sizeof *list);
    uint8_t *copy = list ? copied(bytes_of(name), name_len, argument.text, argument.text_len) : NULL;
    if (list)
        handle->arguments = list;
    if (!copy)
        return FLUENT_NO_MEMORY;
    argument.name = copy;
    argument.name_len = name_len;
    argument.text = copy + name_len;
    list[handle->argument_count++] = argument;
    return FLUENT_READ;
}

/* A text, the digits of a number, or a date, without a name. */
static struct FluentArgument written(const char *text, size_t len, uint32_t kind) {
    struct FluentArgument argument = fluent_text_argument(NULL, NULL);
    argument.text = bytes_of(text);
    argument.text_len = len;
    argument.kind = kind;
    return argument;
}

uint32_t fluent_handle_string(struct FluentHandle *handle, const char *name, size_t name_len, const char *text, size_t len) {
    return add_argument(handle, written(text, len, FLUENT_TEXT), name, name_len);
}

uint32_t fluent_handle_decimal(struct FluentHandle *handle, const char *name, size_t name_len, const char *digits, size_t len) {
    return add_argument(handle, written(digits, len, FLUENT_DECIMAL), name, name_len);
}

uint32_t fluent_handle_integer(struct FluentHandle *handle, const char *name, size_t name_len, int64_t number) {
    return add_argument(handle, fluent_integer_argument(NULL, number), name, name_len);
}

uint32_t fluent_handle_unsigned(struct FluentHandle *handle, const char *name, size_t name_len, uint64_t number) {
    return add_argument(handle, fluent_unsigned_argument(NULL, number), name, name_len);
}

uint32_t fluent_handle_double(struct FluentHandle *handle, const char *name, size_t name_len, double number) {
    struct FluentDigits digits;
    return add_argument(handle, fluent_double_argument(NULL, number, &digits), name, name_len);
}

uint32_t fluent_handle_date(struct FluentHandle *handle, const char *name, size_t name_len, const char *iso, size_t len) {
    return add_argument(handle, written(iso, len, FLUENT_DATETIME), name, name_len);
}

uint32_t fluent_handle_nothing(struct FluentHandle *handle, const char *name, size_t name_len) {
    return add_argument(handle, fluent_no_value(NULL), name, name_len);
}

uint32_t fluent_handle_format(
    struct FluentHandle *handle, const char *id, size_t id_len, const char *attribute, size_t attribute_len) {
    static const struct FluentArgument none = {0};
    const struct FluentAnswers *answers = &handle->answers;
    uint32_t status = fluent_bundle_call(
        &handle->bundle, bytes_of(id), id_len, bytes_of(attribute), attribute_len,
        handle->arguments ? handle->arguments : &none, handle->argument_count, answers->list ? answers->list : &none,
        answers->count, &handle->text, &handle->errors, &handle->call);
    if (status == FLUENT_CALL) {
        uint32_t read = fluent_read_call(&handle->call, &handle->asked);
        if (read == FLUENT_READ)
            return FLUENT_CALL;
        status = read;
    }
    end_rounds(handle);
    return status;
}

const char *fluent_handle_called(const struct FluentHandle *handle) { return handle->asked.name ? handle->asked.name : ""; }

size_t fluent_handle_positional(const struct FluentHandle *handle) { return handle->asked.positional_count; }

size_t fluent_handle_named(const struct FluentHandle *handle) { return handle->asked.named_count; }

/* The argument of an index, or null. */
static const struct FluentArgument *given(const struct FluentHandle *handle, size_t index) {
    size_t positional = handle->asked.positional_count;
    if (index < positional)
        return &handle->asked.positional[index];
    return index - positional < handle->asked.named_count ? &handle->asked.named[index - positional] : NULL;
}

uint32_t fluent_handle_given_kind(const struct FluentHandle *handle, size_t index) {
    const struct FluentArgument *argument = given(handle, index);
    return argument ? argument->kind : FLUENT_NO_VALUE;
}

const char *fluent_handle_given_text(const struct FluentHandle *handle, size_t index) {
    return fluent_argument_string(given(handle, index));
}

size_t fluent_handle_given_len(const struct FluentHandle *handle, size_t index) {
    const struct FluentArgument *argument = given(handle, index);
    return argument ? argument->text_len : 0;
}

const char *fluent_handle_given_name(const struct FluentHandle *handle, size_t index) {
    const struct FluentArgument *argument = given(handle, index);
    return argument && index >= handle->asked.positional_count ? (const char *)argument->name : "";
}

/* Adds the answer to the call that is asked. */
static uint32_t answer(struct FluentHandle *handle, struct FluentArgument value) {
    return handle->asked.name ? fluent_add_answer(&handle->answers, &handle->call, value) : FLUENT_BAD_ARGUMENT;
}

uint32_t fluent_handle_answer_string(struct FluentHandle *handle, const char *text, size_t len) {
    return answer(handle, written(text, len, FLUENT_TEXT));
}

uint32_t fluent_handle_answer_decimal(struct FluentHandle *handle, const char *digits, size_t len) {
    return answer(handle, written(digits, len, FLUENT_DECIMAL));
}

uint32_t fluent_handle_answer_double(struct FluentHandle *handle, double number) {
    struct FluentDigits digits;
    return answer(handle, fluent_double_argument(NULL, number, &digits));
}

uint32_t fluent_handle_answer_date(struct FluentHandle *handle, const char *iso, size_t len) {
    return answer(handle, written(iso, len, FLUENT_DATETIME));
}

uint32_t fluent_handle_answer_nothing(struct FluentHandle *handle) { return answer(handle, fluent_no_value(NULL)); }

uint32_t fluent_handle_has(
    struct FluentHandle *handle, const char *id, size_t id_len, const char *attribute, size_t attribute_len) {
    return fluent_bundle_has(&handle->bundle, bytes_of(id), id_len, bytes_of(attribute), attribute_len);
}

uint32_t fluent_handle_messages(struct FluentHandle *handle) {
    return fluent_bundle_messages(&handle->bundle, &handle->text);
}

uint32_t fluent_handle_attributes(struct FluentHandle *handle, const char *id, size_t id_len) {
    return fluent_bundle_attributes(&handle->bundle, bytes_of(id), id_len, &handle->text);
}

uint32_t fluent_handle_variables(struct FluentHandle *handle, const char *id, size_t id_len) {
    return fluent_bundle_variables(&handle->bundle, bytes_of(id), id_len, &handle->text);
}

uint32_t fluent_handle_source_errors(struct FluentHandle *handle) {
    return fluent_bundle_errors(&handle->bundle, &handle->text);
}

uint32_t fluent_handle_tidy(struct FluentHandle *handle, const char *source, size_t len) {
    struct FluentPlace unwanted = {0};
    return fluent_tidy(bytes_of(source), len, &handle->text, &unwanted);
}

uint32_t fluent_handle_tree(struct FluentHandle *handle, const char *source, size_t len) {
    return fluent_write_json(bytes_of(source), len, &handle->text);
}

uint32_t fluent_handle_written(struct FluentHandle *handle, const char *tree, size_t len, bool with_junk) {
    return fluent_write_tree(bytes_of(tree), len, with_junk, &handle->text);
}

uint32_t fluent_handle_nodes(struct FluentHandle *handle, const char *source, size_t len) {
    return fluent_nodes(bytes_of(source), len, &handle->text);
}

uint32_t fluent_handle_occurrences(struct FluentHandle *handle, const char *source, size_t len) {
    return fluent_occurrences(bytes_of(source), len, &handle->text);
}

const char *fluent_handle_text(const struct FluentHandle *handle) { return fluent_string(&handle->text); }

size_t fluent_handle_text_len(const struct FluentHandle *handle) { return handle->text.held ? handle->text.len : 0; }

const char *fluent_handle_errors(const struct FluentHandle *handle) { return fluent_string(&handle->errors); }

size_t fluent_handle_errors_len(const struct FluentHandle *handle) {
    return handle->errors.held ? handle->errors.len : 0;
}
