/* Functions of your program that messages call: what a call asks for, and the answers so far. fluent.h includes it.
 *
 * A message is formatted by this loop, in which `answer` is yours. It reads the call by fluent_read_call, and adds the
 * answer by fluent_add_answer, which copies the text of the call and the answer:
 *
 *     struct FluentAnswers answers = {0};
 *     uint32_t status;
 *     do {
 *         status = fluent_call(&bundle, "today", NULL, NULL, 0, answers.list, answers.count, &text, NULL, &call);
 *     } while (status == FLUENT_CALL && (status = answer(&answers, &call)) == FLUENT_READ);
 *     fluent_free_answers(&answers);
 *
 * All of it is in this header, and is tested, not proved. The example functions.c is such a program.
 */
#ifndef FLUENT_CALLS_H
#define FLUENT_CALLS_H

#include <stdlib.h>
#include <string.h>

#include "fluent.h"

/* The answers to the calls of a message so far, in memory of their own: read `list` and `count`, and change no field.
 *
 * Begin with `struct FluentAnswers answers = {0};`, which has none, and end with fluent_free_answers. They are those of one
 * message and its arguments: another call of a function may need other answers.
 */
struct FluentAnswers {
    /* What fluent_call takes. It is NULL as long as there is no answer, and another list after fluent_add_answer. */
    struct FluentArgument *list FLUENT_ZERO;
    size_t count FLUENT_ZERO;
    size_t room FLUENT_ZERO;
};

/* Adds the answer to a call, whose text is in `call`. The answer is what fluent_text_argument and its like make, with any
 * name, or fluent_no_value. The text of the call and that of the answer are copied.
 *
 * It returns FLUENT_READ; FLUENT_NO_MEMORY; or FLUENT_BAD_ARGUMENT if `call` holds no text. The answers are unchanged then.
 */
static inline uint32_t fluent_add_answer(
    struct FluentAnswers *answers, const struct FluentText *call, struct FluentArgument answer) {
    uint8_t *copy;
    if (!call->held)
        return FLUENT_BAD_ARGUMENT;
    if (answers->count == answers->room) {
        size_t room = answers->room ? 2 * answers->room : 4;
        void *list = room > SIZE_MAX / sizeof answer ? NULL : realloc(answers->list, room * sizeof answer);
        if (!list)
            return FLUENT_NO_MEMORY;
        answers->list = (struct FluentArgument *)list;
        answers->room = room;
    }
    copy = answer.text_len > SIZE_MAX - call->len - 1 ? NULL : (uint8_t *)malloc(call->len + answer.text_len + 1);
    if (!copy)
        return FLUENT_NO_MEMORY;
    memcpy(copy, call->bytes, call->len);
    if (answer.text_len)
        memcpy(copy + call->len, answer.text, answer.text_len);
    answer.name = copy;
    answer.name_len = call->len;
    answer.text = copy + call->len;
    answers->list[answers->count++] = answer;
    return FLUENT_READ;
}

/* Frees the answers. There are none then, and you may add others. It does nothing with NULL. */
static inline void fluent_free_answers(struct FluentAnswers *answers) {
    struct FluentAnswers none = {0};
    size_t each;
    if (!answers)
        return;
    for (each = 0; each < answers->count; each++)
        free((void *)answers->list[each].name);
    free(answers->list);
    *answers = none;
}

/* A call of a function that was read, or none: change no field. Each text has a byte 0 after it, which isn't counted.
 *
 * Begin with `struct FluentCall call = {0};`, which is none. fluent_read_call frees the one before, and fluent_free_call the
 * last. A copy of the struct is no call of its own: use only one of the two.
 */
struct FluentCall {
    /* The name of the function, or NULL if there is no call. */
    const char *name FLUENT_ZERO;
    size_t name_len FLUENT_ZERO;
    /* The positional arguments in their order, without names. An argument is a text, of kind FLUENT_TEXT; a number, of kind
     * FLUENT_DECIMAL, whose text is its digits; a date, of kind FLUENT_DATETIME, whose text is that of ISO 8601; or no value,
     * FLUENT_NO_VALUE, whose text is empty. */
    const struct FluentArgument *positional FLUENT_ZERO;
    size_t positional_count FLUENT_ZERO;
    /* The named arguments, each with its name, after which is a byte 0 too. */
    const struct FluentArgument *named FLUENT_ZERO;
    size_t named_count FLUENT_ZERO;
    void *owner FLUENT_ZERO;
};

/* The text of a call that is being read, and the memory for what is read of it. First nothing is kept, and only counted:
 * `bytes` and `arguments` are NULL. */
struct FluentReading {
    const uint8_t *at FLUENT_ZERO;
    const uint8_t *end FLUENT_ZERO;
    uint8_t *bytes FLUENT_ZERO;
    size_t len FLUENT_ZERO;
    struct FluentArgument *arguments FLUENT_ZERO;
    size_t count FLUENT_ZERO;
};

/* Whether this byte comes next, which is passed over then. */
static inline bool fluent_passes(struct FluentReading *reading, char byte) {
    bool is_next = reading->at < reading->end && *reading->at == (uint8_t)byte;
    reading->at += is_next;
    return is_next;
}

/* Whether these bytes come next, which are passed over then. */
static inline bool fluent_passes_all(struct FluentReading *reading, const char *bytes) {
    while (*bytes && fluent_passes(reading, *bytes))
        bytes++;
    return !*bytes;
}

/* The next byte, which is passed over, or 0 at the end. */
static inline uint8_t fluent_next_byte(struct FluentReading *reading) {
    return reading->at < reading->end ? *reading->at++ : 0;
}

static inline void fluent_keep_byte(struct FluentReading *reading, uint32_t byte) {
    if (reading->bytes)
        reading->bytes[reading->len] = (uint8_t)byte;
    reading->len++;
}

/* Keeps a character as UTF-8. */
static inline void fluent_keep_character(struct FluentReading *reading, uint32_t character) {
    if (character < 0x80) {
        fluent_keep_byte(reading, character);
        return;
    }
    if (character < 0x800) {
        fluent_keep_byte(reading, 0xc0 | character >> 6);
    } else {
        if (character < 0x10000) {
            fluent_keep_byte(reading, 0xe0 | character >> 12);
        } else {
            fluent_keep_byte(reading, 0xf0 | character >> 18);
            fluent_keep_byte(reading, 0x80 | (character >> 12 & 0x3f));
        }
        fluent_keep_byte(reading, 0x80 | (character >> 6 & 0x3f));
    }
    fluent_keep_byte(reading, 0x80 | (character & 0x3f));
}

/* The number that the next four hexadecimal digits are, or one above all of these if they aren't there. */
static inline uint32_t fluent_next_unit(struct FluentReading *reading) {
    static const char digits[] = "0123456789abcdef";
    uint32_t unit = 0;
    int each;
    for (each = 0; each < 4; each++) {
        uint8_t byte = fluent_next_byte(reading);
        const char *digit = byte ? strchr(digits, byte >= 'A' && byte <= 'F' ? byte - 'A' + 'a' : byte) : NULL;
        if (!digit)
            return UINT32_MAX;
        unit = unit << 4 | (uint32_t)(digit - digits);
    }
    return unit;
}

/* Reads what comes after `\u`: a character, or the two halves of one. Gives whether it is right. */
static inline bool fluent_reads_units(struct FluentReading *reading) {
    uint32_t character = fluent_next_unit(reading);
    if (character >= 0xd800 && character < 0xdc00) {
        uint32_t low = fluent_passes_all(reading, "\\u") ? fluent_next_unit(reading) : 0;
        if (low < 0xdc00 || low > 0xdfff)
            return false;
        character = 0x10000 + ((character - 0xd800) << 10) + (low - 0xdc00);
    } else if ((character >= 0xdc00 && character <= 0xdfff) || character > 0xffff) {
        return false;
    }
    fluent_keep_character(reading, character);
    return true;
}

/* Reads what comes after a backslash. Gives whether it is right. */
static inline bool fluent_reads_escape(struct FluentReading *reading) {
    static const char letters[] = "\"\\/bfnrt", characters[] = "\"\\/\b\f\n\r\t";
    uint8_t byte = fluent_next_byte(reading);
    const char *letter = byte ? strchr(letters, byte) : NULL;
    if (!letter)
        return byte == 'u' && fluent_reads_units(reading);
    fluent_keep_byte(reading, (uint8_t)characters[letter - letters]);
    return true;
}

/* Reads a text in quotes, and keeps it with a byte 0 after it. Gives whether it is right. */
static inline bool fluent_reads_text(struct FluentReading *reading, const uint8_t **text, size_t *len) {
    size_t start = reading->len;
    if (!fluent_passes(reading, '"'))
        return false;
    while (!fluent_passes(reading, '"')) {
        uint8_t byte = fluent_next_byte(reading);
        if (byte < 0x20 || (byte == '\\' && !fluent_reads_escape(reading)))
            return false;
        if (byte != '\\')
            fluent_keep_byte(reading, byte);
    }
    *text = reading->bytes ? reading->bytes + start : NULL;
    *len = reading->len - start;
    fluent_keep_byte(reading, 0);
    return true;
}

/* Reads a text, a number, a date or no value. Gives whether it is right. */
static inline bool fluent_reads_value(struct FluentReading *reading, struct FluentArgument *argument) {
    argument->text = fluent_bytes(NULL);
    argument->kind = FLUENT_NO_VALUE;
    if (fluent_passes(reading, 'n'))
        return fluent_passes_all(reading, "ull");
    if (!fluent_passes(reading, '{')) {
        argument->kind = FLUENT_TEXT;
        return fluent_reads_text(reading, &argument->text, &argument->text_len);
    }
    if (!fluent_passes(reading, '"'))
        return false;
    argument->kind = fluent_passes(reading, 'n') ? FLUENT_DECIMAL : FLUENT_DATETIME;
    return fluent_passes_all(reading, argument->kind == FLUENT_DECIMAL ? "umber\":" : "date\":")
        && fluent_reads_text(reading, &argument->text, &argument->text_len) && fluent_passes(reading, '}');
}

/* Reads arguments between brackets, or named ones between braces, and counts them. Gives whether they are right. */
static inline bool fluent_reads_arguments(struct FluentReading *reading, bool are_named, size_t *count) {
    char closing = are_named ? '}' : ']';
    *count = 0;
    if (!fluent_passes(reading, are_named ? '{' : '['))
        return false;
    if (fluent_passes(reading, closing))
        return true;
    do {
        struct FluentArgument argument = {0};
        argument.name = fluent_bytes(NULL);
        if (are_named && !(fluent_reads_text(reading, &argument.name, &argument.name_len) && fluent_passes(reading, ':')))
            return false;
        if (!fluent_reads_value(reading, &argument))
            return false;
        if (reading->arguments)
            reading->arguments[reading->count] = argument;
        reading->count++;
        ++*count;
    } while (fluent_passes(reading, ','));
    return fluent_passes(reading, closing);
}

/* Reads all of a call's text. Gives whether it is right. */
static inline bool fluent_reads_call(struct FluentReading *reading, struct FluentCall *call) {
    const uint8_t *name = NULL;
    bool is_right = fluent_passes(reading, '[') && fluent_reads_text(reading, &name, &call->name_len)
        && fluent_passes(reading, ',') && fluent_reads_arguments(reading, false, &call->positional_count)
        && fluent_passes(reading, ',') && fluent_reads_arguments(reading, true, &call->named_count)
        && fluent_passes(reading, ']') && reading->at == reading->end;
    call->name = (const char *)name;
    return is_right;
}

/* Frees a call that was read, if there is one. There is none then. It does nothing with NULL. */
static inline void fluent_free_call(struct FluentCall *call) {
    struct FluentCall none = {0};
    if (!call)
        return;
    free(call->owner);
    *call = none;
}

/* Reads the text of a call, which fluent_call has put into `text`. All that is read is copied.
 *
 * It returns FLUENT_READ; FLUENT_NO_MEMORY; or FLUENT_BAD_ARGUMENT if the text isn't one of a call. `call` is unchanged then.
 */
static inline uint32_t fluent_read_call(const struct FluentText *text, struct FluentCall *call) {
    struct FluentReading reading = {0};
    struct FluentCall made = {0};
    uint8_t *owner;
    if (!text->held)
        return FLUENT_BAD_ARGUMENT;
    reading.at = text->bytes;
    reading.end = text->bytes + text->len;
    if (!fluent_reads_call(&reading, &made))
        return FLUENT_BAD_ARGUMENT;
    if (reading.count > (SIZE_MAX - reading.len) / sizeof(struct FluentArgument))
        return FLUENT_NO_MEMORY;
    owner = (uint8_t *)malloc(reading.count * sizeof(struct FluentArgument) + reading.len);
    if (!owner)
        return FLUENT_NO_MEMORY;
    reading.at = text->bytes;
    reading.arguments = (struct FluentArgument *)(void *)owner;
    reading.bytes = owner + reading.count * sizeof(struct FluentArgument);
    reading.count = reading.len = 0;
    fluent_reads_call(&reading, &made);
    made.owner = owner;
    made.positional = reading.arguments;
    made.named = reading.arguments + made.positional_count;
    fluent_free_call(call);
    *call = made;
    return FLUENT_READ;
}

/* Whether a call is one of the function of this name. */
static inline bool fluent_is_call_of(const struct FluentCall *call, const char *name) {
    return call->name && call->name_len == strlen(name) && memcmp(call->name, name, call->name_len) == 0;
}

/* The positional argument of this index, from 0, or NULL if there are fewer. */
static inline const struct FluentArgument *fluent_positional(const struct FluentCall *call, size_t index) {
    return index < call->positional_count ? &call->positional[index] : NULL;
}

/* The argument of this name, or NULL if there is none. */
static inline const struct FluentArgument *fluent_named(const struct FluentCall *call, const char *name) {
    size_t each, len = strlen(name);
    for (each = 0; each < call->named_count; each++)
        if (call->named[each].name_len == len && memcmp(call->named[each].name, name, len) == 0)
            return &call->named[each];
    return NULL;
}

/* An argument of a call that was read as a string: its text, or the digits of a number. It is empty without a value, and for
 * NULL. It ends before the first byte 0, if the text has one in it. */
static inline const char *fluent_argument_string(const struct FluentArgument *argument) {
    return argument ? (const char *)argument->text : "";
}

#endif
