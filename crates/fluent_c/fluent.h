/* The calls of fluent_c.h for texts that end in a byte 0, with NULL for what isn't wanted, and the words of a status.
 *
 * All of it is in this header, and is tested, not proved: each call makes one of fluent_c.h, which says what it returns. As
 * free does, fluent_free_text and fluent_bundle_free do nothing with NULL in a program that includes this header. It includes
 * fluent_calls.h, for functions of your program that messages call, fluent_doubles.h, for arguments that are doubles, and
 * fluent_dates.h, for dates.
 */
#ifndef FLUENT_H
#define FLUENT_H

#include <string.h>

#include "fluent_c.h"

/* What a status says. It is for programmers, in English, without a full stop. */
static inline const char *fluent_status_text(uint32_t status) {
    switch (status) {
    case FLUENT_READ:
        return "the call did what it is for";
    case FLUENT_NOT_UTF8:
        return "a text isn't UTF-8";
    case FLUENT_NO_MEMORY:
        return "memory was refused, or it nests too deep for the budget of the stack";
    case FLUENT_UNKNOWN_LOCALE:
        return "the locale is no tag of a language";
    case FLUENT_NO_MESSAGE:
        return "there is no message of the id";
    case FLUENT_NO_PATTERN:
        return "the message has no value, or no attribute of the name";
    case FLUENT_BAD_ARGUMENT:
        return "what was passed isn't valid: an argument's kind or decimal, the size of options, a date, or the text of a call";
    case FLUENT_NO_BUNDLE:
        return "there is no bundle";
    case FLUENT_HAS_ERRORS:
        return "the report has an error, or a warning that counts";
    case FLUENT_DAMAGED:
        return "the source can't be read somewhere";
    case FLUENT_CARRIAGE_RETURN:
        return "the source has a carriage return that ends no line";
    case FLUENT_NOT_TIDY:
        return "the source has no tidy text";
    case FLUENT_CALL:
        return "a call of a function has no answer yet";
    case FLUENT_NOT_JSON:
        return "the text isn't JSON, or is nested too deep";
    case FLUENT_NOT_TREE:
        return "no tree has the value of the JSON text";
    default:
        return "no call returns this number";
    }
}

/* The bytes of a text that may be NULL, which is an empty one. */
static inline const uint8_t *fluent_bytes(const char *text) { return (const uint8_t *)(text ? text : ""); }

static inline size_t fluent_len(const char *text) { return text ? strlen(text) : 0; }

/* A text as a string, which is empty if there is none. It ends before the first byte 0, if an argument had one in it. */
static inline const char *fluent_string(const struct FluentText *text) {
    return text && text->held ? (const char *)text->bytes : "";
}

/* fluent_free_text, which does nothing with NULL. */
static inline void fluent_free_text_or_null(struct FluentText *made) {
    if (made)
        fluent_free_text(made);
}
#define fluent_free_text(made) fluent_free_text_or_null(made)

/* fluent_bundle_free, which does nothing with NULL. */
static inline void fluent_bundle_free_or_null(struct FluentBundle *bundle) {
    if (bundle)
        fluent_bundle_free(bundle);
}
#define fluent_bundle_free(bundle) fluent_bundle_free_or_null(bundle)

/* An argument that is a text. */
static inline struct FluentArgument fluent_text_argument(const char *name, const char *text) {
    struct FluentArgument argument = {0};
    argument.name = fluent_bytes(name);
    argument.name_len = fluent_len(name);
    argument.text = fluent_bytes(text);
    argument.text_len = fluent_len(text);
    argument.kind = FLUENT_TEXT;
    return argument;
}

/* An argument that is a number, written as a decimal such as "1.50". If you have a double, use fluent_double_argument: what
 * printf writes depends on the locale that setlocale has set. */
static inline struct FluentArgument fluent_decimal_argument(const char *name, const char *decimal) {
    struct FluentArgument argument = fluent_text_argument(name, decimal);
    argument.kind = FLUENT_DECIMAL;
    return argument;
}

/* An argument that is an integer. */
static inline struct FluentArgument fluent_integer_argument(const char *name, int64_t integer) {
    struct FluentArgument argument = fluent_text_argument(name, NULL);
    argument.integer = integer;
    argument.kind = FLUENT_INTEGER;
    return argument;
}

/* An argument that is an integer without a sign. */
static inline struct FluentArgument fluent_unsigned_argument(const char *name, uint64_t integer) {
    struct FluentArgument argument = fluent_text_argument(name, NULL);
    argument.unsigned_integer = integer;
    argument.kind = FLUENT_UNSIGNED;
    return argument;
}

/* fluent_bundle_new of one source. A locale that is NULL is the empty one. */
static inline uint32_t fluent_bundle_of(const char *source, const char *locale, bool isolating, struct FluentBundle *made) {
    struct FluentSource only = {0};
    only.text = fluent_bytes(source);
    only.len = fluent_len(source);
    return fluent_bundle_new(&only, 1, fluent_bytes(locale), fluent_len(locale), isolating, false, made);
}

/* The number of the first of these sources that nests too deep for the usual budget of the stack, or `count` if none does.
 * If a call that makes a bundle of them returns FLUENT_NO_MEMORY, leave that one out and make the call again. */
static inline size_t fluent_deep_source(const struct FluentSource *sources, size_t count) {
    struct FluentCounts counts = {0};
    size_t each = 0;
    while (each < count && fluent_parse_runtime(sources[each].text, sources[each].len, &counts) != FLUENT_NO_MEMORY)
        each++;
    return each;
}

/* The line of a source, counted from 1, on which the first message or term begins that nests too deep by itself, or 0 if
 * none does. */
static inline size_t fluent_deep_line(const struct FluentSource *source) {
    struct FluentCounts counts = {0};
    size_t line = 1, start_line = 1, start = 0, at = 0;
    for (; at <= source->len; at++) {
        uint8_t byte = at < source->len ? source->text[at] : 0;
        bool begins = byte == '-' || (byte >= 'a' && byte <= 'z') || (byte >= 'A' && byte <= 'Z');
        if (at == source->len || (at > 0 && source->text[at - 1] == '\n' && begins)) {
            if (fluent_parse_runtime(source->text + start, at - start, &counts) == FLUENT_NO_MEMORY)
                return start_line;
            start = at;
            start_line = line;
        }
        line += byte == '\n';
    }
    return 0;
}

/* The options of FLUENT_BUNDLE_OPTIONS with a locale, which may be NULL. */
static inline struct FluentBundleOptions fluent_bundle_options(const char *locale) {
    struct FluentBundleOptions options = FLUENT_BUNDLE_OPTIONS;
    options.locale = fluent_bytes(locale);
    options.locale_len = fluent_len(locale);
    return options;
}

/* fluent_bundle_new_with of one source. `options` may be NULL for the usual ones. */
static inline uint32_t fluent_bundle_with(
    const char *source, const struct FluentBundleOptions *options, struct FluentBundle *made) {
    struct FluentBundleOptions usual = FLUENT_BUNDLE_OPTIONS;
    struct FluentSource only = {0};
    only.text = fluent_bytes(source);
    only.len = fluent_len(source);
    return fluent_bundle_new_with(&only, 1, options ? options : &usual, made);
}

/* fluent_bundle_format. `attribute` is NULL for the value, `arguments` may be NULL if there are none, and `errors` if you
 * don't want them. */
static inline uint32_t fluent_format(
    struct FluentBundle *bundle, const char *id, const char *attribute, const struct FluentArgument *arguments,
    size_t argument_count, struct FluentText *text, struct FluentText *errors) {
    static const struct FluentArgument none = {0};
    struct FluentText unwanted = {0};
    uint32_t answered = fluent_bundle_format(
        bundle, fluent_bytes(id), fluent_len(id), fluent_bytes(attribute), fluent_len(attribute),
        arguments ? arguments : &none, arguments ? argument_count : 0, text, errors ? errors : &unwanted);
    fluent_free_text(&unwanted);
    return answered;
}

/* An answer that has no value, or such an argument. */
static inline struct FluentArgument fluent_no_value(const char *name) {
    struct FluentArgument argument = fluent_text_argument(name, NULL);
    argument.kind = FLUENT_NO_VALUE;
    return argument;
}

/* fluent_bundle_new_calling of one source. `options` may be NULL for the usual ones. */
static inline uint32_t fluent_bundle_calling(
    const char *source, const struct FluentBundleOptions *options, const struct FluentSource *functions,
    size_t function_count, struct FluentBundle *made) {
    struct FluentBundleOptions usual = FLUENT_BUNDLE_OPTIONS;
    struct FluentSource only = {0};
    only.text = fluent_bytes(source);
    only.len = fluent_len(source);
    return fluent_bundle_new_calling(&only, 1, options ? options : &usual, functions, function_count, made);
}

/* fluent_bundle_call. What may be NULL for fluent_format may be here, and `answers`, if there are none. fluent_calls.h has the
 * loop around it. */
static inline uint32_t fluent_call(
    struct FluentBundle *bundle, const char *id, const char *attribute, const struct FluentArgument *arguments,
    size_t argument_count, const struct FluentArgument *answers, size_t answer_count, struct FluentText *text,
    struct FluentText *errors, struct FluentText *call) {
    static const struct FluentArgument none = {0};
    struct FluentText unwanted = {0};
    uint32_t answered = fluent_bundle_call(
        bundle, fluent_bytes(id), fluent_len(id), fluent_bytes(attribute), fluent_len(attribute),
        arguments ? arguments : &none, arguments ? argument_count : 0, answers ? answers : &none, answers ? answer_count : 0,
        text, errors ? errors : &unwanted, call);
    fluent_free_text(&unwanted);
    return answered;
}

/* fluent_bundle_has. `attribute` is NULL for the value. */
static inline uint32_t fluent_has(struct FluentBundle *bundle, const char *id, const char *attribute) {
    return fluent_bundle_has(bundle, fluent_bytes(id), fluent_len(id), fluent_bytes(attribute), fluent_len(attribute));
}

/* fluent_bundle_attributes. */
static inline uint32_t fluent_attributes(struct FluentBundle *bundle, const char *id, struct FluentText *text) {
    return fluent_bundle_attributes(bundle, fluent_bytes(id), fluent_len(id), text);
}

/* fluent_bundle_variables. */
static inline uint32_t fluent_variables(struct FluentBundle *bundle, const char *id, struct FluentText *text) {
    return fluent_bundle_variables(bundle, fluent_bytes(id), fluent_len(id), text);
}

/* The next line of a list, such as that of fluent_bundle_messages or fluent_outline, or NULL after the last. `len`
 * is the one before, whose line is `line`; begin with NULL. The line ends in a line feed, which `len` doesn't count:
 *
 *     size_t len = 0;
 *     for (const char *id = fluent_next_line(&ids, NULL, &len); id; id = fluent_next_line(&ids, id, &len))
 *         printf("%.*s\n", (int)len, id);
 */
static inline const char *fluent_next_line(const struct FluentText *list, const char *line, size_t *len) {
    const char *next = line ? line + *len + 1 : fluent_string(list);
    const char *end = strchr(next, '\n');
    *len = end ? (size_t)(end - next) : 0;
    return end ? next : NULL;
}

/* fluent_tidy. `place` may be NULL if you don't want it. */
static inline uint32_t fluent_tidy_of(const char *source, struct FluentText *made, struct FluentPlace *place) {
    struct FluentPlace unwanted = {0};
    return fluent_tidy(fluent_bytes(source), fluent_len(source), made, place ? place : &unwanted);
}

/* fluent_outline. `counts` may be NULL if you don't want them. */
static inline uint32_t fluent_outline_of(const char *source, struct FluentText *made, struct FluentCounts *counts) {
    struct FluentCounts unwanted = {0};
    return fluent_outline(fluent_bytes(source), fluent_len(source), made, counts ? counts : &unwanted);
}

/* fluent_occurrences. */
static inline uint32_t fluent_occurrences_of(const char *source, struct FluentText *made) {
    return fluent_occurrences(fluent_bytes(source), fluent_len(source), made);
}

/* fluent_write_tree. */
static inline uint32_t fluent_write_tree_of(const char *json, bool with_junk, struct FluentText *made) {
    return fluent_write_tree(fluent_bytes(json), fluent_len(json), with_junk, made);
}

/* fluent_nodes. */
static inline uint32_t fluent_nodes_of(const char *source, struct FluentText *made) {
    return fluent_nodes(fluent_bytes(source), fluent_len(source), made);
}

/* A file. */
static inline struct FluentFile fluent_file(const char *name, const char *text) {
    struct FluentFile file = {0};
    file.name = fluent_bytes(name);
    file.name_len = fluent_len(name);
    file.text = fluent_bytes(text);
    file.text_len = fluent_len(text);
    return file;
}

/* fluent_lint. `references` may be NULL if there are none, and so may `options`, its functions and its locale. */
static inline uint32_t fluent_lint_of(
    const struct FluentFile *files, size_t count, const struct FluentFile *references, size_t reference_count,
    const struct FluentLintOptions *options, struct FluentText *report) {
    static const struct FluentFile no_file = {0};
    static const struct FluentSource no_function = {0};
    struct FluentLintOptions asked = {0};
    if (options)
        asked = *options;
    if (!asked.functions) {
        asked.functions = &no_function;
        asked.function_count = 0;
    }
    if (!asked.locale) {
        asked.locale = fluent_bytes(NULL);
        asked.locale_len = 0;
    }
    return fluent_lint(
        files ? files : &no_file, files ? count : 0, references ? references : &no_file, references ? reference_count : 0,
        &asked, report);
}

/* The number of the first argument that fluent_format refuses with FLUENT_BAD_ARGUMENT, or `argument_count` if it refuses
 * none. It takes as many calls as there are arguments before that one. */
static inline size_t fluent_bad_argument(
    struct FluentBundle *bundle, const struct FluentArgument *arguments, size_t argument_count) {
    struct FluentText unwanted = {0};
    size_t each = 0;
    while (each < argument_count
        && fluent_format(bundle, NULL, NULL, &arguments[each], 1, &unwanted, NULL) != FLUENT_BAD_ARGUMENT)
        each++;
    fluent_free_text(&unwanted);
    return each;
}

#include "fluent_calls.h"
#include "fluent_doubles.h"
#include "fluent_dates.h"

#endif
