/* Fluent for languages that call C by pointers and numbers alone, such as Lua, Go, Java or Ruby: no struct has to be spelled,
 * and none is passed by value. A handle has a bundle, the arguments of the next message, and the last text.
 *
 *     struct FluentHandle *inbox = fluent_handle_new();
 *     fluent_handle_locale(inbox, "en-GB", 5);
 *     fluent_handle_source(inbox, source, strlen(source));
 *     fluent_handle_make(inbox);
 *     fluent_handle_integer(inbox, "count", 5, 3);
 *     if (fluent_handle_format(inbox, "unread", 6, "", 0) == FLUENT_READ)
 *         puts(fluent_handle_text(inbox));
 *     fluent_handle_free(inbox);
 *
 * It is C over the calls of fluent_c.h, which are proved; it is tested, not proved. A text is its first byte and its length in
 * bytes; if it is empty, the pointer may be null. The calls copy what they are given, and return a number of fluent_c.h, such
 * as FLUENT_READ (0). One call at a time may use a handle, whichever thread makes it. A handle is null only if memory was
 * refused, and no call but fluent_handle_free takes null.
 */
#ifndef FLUENT_HANDLE_H
#define FLUENT_HANDLE_H

#include "fluent_c.h"

#ifdef __cplusplus
extern "C" {
#endif

struct FluentHandle;

/* A handle with no sources and no locale, or null if memory was refused. */
struct FluentHandle *fluent_handle_new(void);

/* Frees a handle, and the texts that it has given. It does nothing with null. */
void fluent_handle_free(struct FluentHandle *handle);

/* What a status says, in English, without a full stop. It lasts as long as the program. */
const char *fluent_handle_status(uint32_t status);

/* Before the bundle is made: its locale, such as "pl"; a source, of which there may be several; the name of a function that
 * messages call. They return FLUENT_READ or FLUENT_NO_MEMORY. */
uint32_t fluent_handle_locale(struct FluentHandle *handle, const char *tag, size_t len);
uint32_t fluent_handle_source(struct FluentHandle *handle, const char *text, size_t len);
uint32_t fluent_handle_function(struct FluentHandle *handle, const char *name, size_t len);

/* Before the bundle is made: whether what is put into a text is between isolation marks, which it is without this call; whether
 * the last of two messages with one id counts; whether numbers are plain; the budget of the stack. */
void fluent_handle_isolating(struct FluentHandle *handle, bool isolating);
void fluent_handle_overriding(struct FluentHandle *handle, bool overriding);
void fluent_handle_plain_numbers(struct FluentHandle *handle, bool plain);
void fluent_handle_stack(struct FluentHandle *handle, size_t bytes);

/* Makes the bundle of the sources so far. It returns the numbers of fluent_bundle_new_calling. After more sources it may be
 * called again: the handle then has the new bundle, and the old one if the call fails. */
uint32_t fluent_handle_make(struct FluentHandle *handle);

/* An argument of the next message: a text; a number as its digits, such as "1.50"; an integer; a double, whichever the locale
 * of the program is; a date as ISO 8601 has it, such as "2026-11-28T20:15:00+01:00"; or no value. They return FLUENT_READ or
 * FLUENT_NO_MEMORY. */
uint32_t fluent_handle_string(struct FluentHandle *handle, const char *name, size_t name_len, const char *text, size_t len);
uint32_t fluent_handle_decimal(struct FluentHandle *handle, const char *name, size_t name_len, const char *digits, size_t len);
uint32_t fluent_handle_integer(struct FluentHandle *handle, const char *name, size_t name_len, int64_t number);
uint32_t fluent_handle_unsigned(struct FluentHandle *handle, const char *name, size_t name_len, uint64_t number);
uint32_t fluent_handle_double(struct FluentHandle *handle, const char *name, size_t name_len, double number);
uint32_t fluent_handle_date(struct FluentHandle *handle, const char *name, size_t name_len, const char *iso, size_t len);
uint32_t fluent_handle_nothing(struct FluentHandle *handle, const char *name, size_t name_len);

/* Formats a message, or an attribute of it if `attribute_len` isn't 0. It returns FLUENT_READ, and the text and its errors are
 * in the handle; or why there is none, as fluent_bundle_format does. Either way the arguments are gone then.
 *
 * It returns FLUENT_CALL if the message calls a function of the program. Look at the call, answer it by one of the calls
 * fluent_handle_answer_.., and make this call again, with the same id: the arguments stay until there is a text. A call that
 * isn't answered is called again. */
uint32_t fluent_handle_format(
    struct FluentHandle *handle, const char *id, size_t id_len, const char *attribute, size_t attribute_len);

/* The function that is called, how many positional and named arguments it gets, and each by its index from 0: its kind, such as
 * FLUENT_TEXT, FLUENT_DECIMAL, FLUENT_DATETIME or FLUENT_NO_VALUE; its text, the digits of a number, or a date as ISO 8601 has it;
 * and its name, which is empty for a positional one. Named ones follow the positional ones. An index that is too large has no value. Texts end in a byte 0, and
 * last until the next call of fluent_handle_format. */
const char *fluent_handle_called(const struct FluentHandle *handle);
size_t fluent_handle_positional(const struct FluentHandle *handle);
size_t fluent_handle_named(const struct FluentHandle *handle);
uint32_t fluent_handle_given_kind(const struct FluentHandle *handle, size_t index);
const char *fluent_handle_given_text(const struct FluentHandle *handle, size_t index);
size_t fluent_handle_given_len(const struct FluentHandle *handle, size_t index);
const char *fluent_handle_given_name(const struct FluentHandle *handle, size_t index);

/* The answer to the call: a text, a number as its digits, a double, a date, or no value. They return FLUENT_READ, FLUENT_NO_MEMORY, or
 * FLUENT_BAD_ARGUMENT if there is no call. */
uint32_t fluent_handle_answer_string(struct FluentHandle *handle, const char *text, size_t len);
uint32_t fluent_handle_answer_decimal(struct FluentHandle *handle, const char *digits, size_t len);
uint32_t fluent_handle_answer_double(struct FluentHandle *handle, double number);
uint32_t fluent_handle_answer_date(struct FluentHandle *handle, const char *iso, size_t len);
uint32_t fluent_handle_answer_nothing(struct FluentHandle *handle);

/* Whether there is such a text: FLUENT_READ if there is, and else as fluent_bundle_has. */
uint32_t fluent_handle_has(
    struct FluentHandle *handle, const char *id, size_t id_len, const char *attribute, size_t attribute_len);

/* Lists: the ids of the messages, the names of a message's attributes, those of the variables that it is shown with, and what is
 * wrong with the sources. The text in the handle is then a line for each. They return what the calls of fluent_c.h do. */
uint32_t fluent_handle_messages(struct FluentHandle *handle);
uint32_t fluent_handle_attributes(struct FluentHandle *handle, const char *id, size_t id_len);
uint32_t fluent_handle_variables(struct FluentHandle *handle, const char *id, size_t id_len);
uint32_t fluent_handle_source_errors(struct FluentHandle *handle);

/* Tools, which need no bundle: the text in the handle is then the tidy text of a source, its tree as JSON, the nodes of
 * its tree, or its occurrences, as fluent_tidy, fluent_write_json, fluent_nodes and fluent_occurrences of fluent_c.h make them;
 * or the source of a tree that is given as JSON, with its junk or without, as fluent_write_tree makes it. */
uint32_t fluent_handle_tidy(struct FluentHandle *handle, const char *source, size_t len);
uint32_t fluent_handle_tree(struct FluentHandle *handle, const char *source, size_t len);
uint32_t fluent_handle_written(struct FluentHandle *handle, const char *tree, size_t len, bool with_junk);
uint32_t fluent_handle_nodes(struct FluentHandle *handle, const char *source, size_t len);
uint32_t fluent_handle_occurrences(struct FluentHandle *handle, const char *source, size_t len);

/* The last text and its length, and the lines of its errors. Each ends in a byte 0, which isn't counted, is empty if there is
 * none, and lasts until the next call that makes one. */
const char *fluent_handle_text(const struct FluentHandle *handle);
size_t fluent_handle_text_len(const struct FluentHandle *handle);
const char *fluent_handle_errors(const struct FluentHandle *handle);
size_t fluent_handle_errors_len(const struct FluentHandle *handle);

#ifdef __cplusplus
}
#endif

#endif
