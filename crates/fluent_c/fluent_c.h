/* Fluent for C: the texts of messages, from a bundle that you keep or line by line from sources; which of a program's
 * languages suit a user; dates as a language writes them; what is wrong with the files of a catalog; and a source's tidy text, what it has, by names and
 * in numbers, and its tree as text.
 *
 * Link libfluent_c.a with a program that has malloc, realloc and free. A text is its first byte and its length in
 * bytes. One that you pass needs no byte 0 at its end, and the library only reads it. A text of length 0 still needs a
 * pointer that isn't null. One that the library makes has a byte 0 after its last byte, which isn't counted. fluent.h has
 * the calls for texts that end in a byte 0.
 *
 * Each call that returns a number returns one of those below, and its comment says which. If it isn't FLUENT_READ, what
 * you passed for the result is unchanged, unless the comment says otherwise: a text still has the same bytes at the same
 * address. A call frees all that it
 * allocates, except for a text that it hands out and a bundle that it makes.
 *
 * A thread with a stack of 2 MB can make each call. If the placeables, calls and selects of a source or of an answer nest
 * so deep that they would take more than 1.5 MB of stack, the call returns FLUENT_NO_MEMORY; fluent_bundle_new_within makes
 * a bundle with another budget.
 */
#ifndef FLUENT_C_H
#define FLUENT_C_H

#include <stdbool.h>
#include <stddef.h>
#include <stdint.h>

/* In C++ a field that isn't named in `= {0}` is zero too, which compilers want to be told. */
#if defined(__cplusplus) && __cplusplus >= 201402L
#define FLUENT_ZERO {}
#else
#define FLUENT_ZERO
#endif

#ifdef __cplusplus
extern "C" {
#endif

/* The version of this header: a million for the first number, a thousand for the second, and one for the third. */
#define FLUENT_VERSION 1000

/* The version of the library, which is FLUENT_VERSION if it is that of this header. */
uint32_t fluent_version(void);

/* The call did what it is for. A source that was read may still have errors. */
#define FLUENT_READ 0
/* The text isn't UTF-8. */
#define FLUENT_NOT_UTF8 1
/* Memory was refused, or placeables, calls and selects nest too deep for the budget of the stack. */
#define FLUENT_NO_MEMORY 2
/* The locale is no tag of a language. */
#define FLUENT_UNKNOWN_LOCALE 3
/* There is no message of the id. */
#define FLUENT_NO_MESSAGE 4
/* The message has no value, or no attribute of the name. */
#define FLUENT_NO_PATTERN 5
/* An argument's kind isn't one of those below, its decimal is no number, or its text is no date: fluent_bad_argument of
 * fluent.h says which.
 * fluent_negotiate: there is no such strategy. A call that takes options: their size isn't one that the library knows.
 * fluent_write_date: the numbers make no date, no time or no offset. */
#define FLUENT_BAD_ARGUMENT 6
/* There is no bundle. */
#define FLUENT_NO_BUNDLE 7
/* fluent_lint made its report, and it has an error, or a warning if warnings count. */
#define FLUENT_HAS_ERRORS 8
/* The source can't be read somewhere. */
#define FLUENT_DAMAGED 9
/* The source has a carriage return that isn't part of CR LF. */
#define FLUENT_CARRIAGE_RETURN 10
/* The source has no tidy text: what would be written isn't read as the same messages. */
#define FLUENT_NOT_TIDY 11
/* The message calls a function, and the call has no answer yet: fluent_bundle_call has put its text into `call`. */
#define FLUENT_CALL 12
/* The text isn't JSON, is nested more than 127 deep, or has a number past the range of a double. */
#define FLUENT_NOT_JSON 13
/* The JSON text has a value that no tree has. */
#define FLUENT_NOT_TREE 14
/* The text has more bytes than `room`, and `len` says how many: fluent_bundle_write. */
#define FLUENT_NO_ROOM 15

struct FluentCounts {
    size_t messages FLUENT_ZERO;
    size_t terms FLUENT_ZERO;
    /* Standalone comments, of all three kinds: not those of messages and terms. */
    size_t comments FLUENT_ZERO;
    size_t junk FLUENT_ZERO;
    /* One for each junk. */
    size_t errors FLUENT_ZERO;
};

/* Counts the entries and the errors of a source, comments included. It returns FLUENT_READ, also if the source has
 * errors, FLUENT_NOT_UTF8 or FLUENT_NO_MEMORY. */
uint32_t fluent_parse(const uint8_t *text, size_t len, struct FluentCounts *counts);

/* The same for a source that is read for run time, without its comments. It returns the same numbers. */
uint32_t fluent_parse_runtime(const uint8_t *text, size_t len, struct FluentCounts *counts);

/* A text that the library made, or none. The memory is the library's: read the text, and change no field and no byte.
 *
 * Begin with `struct FluentText text = {0};`, which is no text. A call that puts a text there frees the one before, and
 * fluent_free_text frees the last. A copy of the struct is no text of its own: use only one of the two.
 */
struct FluentText {
    /* Whether there is a text. If there is none, the other fields say nothing. */
    bool held FLUENT_ZERO;
    /* The first byte. */
    const uint8_t *bytes FLUENT_ZERO;
    /* How many bytes there are. A byte 0 comes after them. */
    size_t len FLUENT_ZERO;
    void *owner FLUENT_ZERO;
};

/* Lists what a source has by its names: a line for each message and each term, in their order, and after it a line for each
 * of its attributes, in their order. Each line ends in LF:
 *
 *     welcome =      a message with a value
 *     .title         an attribute of it
 *     menu           a message without a value, which has attributes
 *     -brand =       a term, which always has a value
 *
 * A name that the source has twice is there twice. `counts` are those of fluent_parse_runtime, from the same reading. It
 * returns the numbers of fluent_parse; if that isn't FLUENT_READ, `counts` are unchanged, too. */
uint32_t fluent_outline(const uint8_t *text, size_t len, struct FluentText *made, struct FluentCounts *counts);

/* Reads a source and writes its tree back, with its junk or without. It returns the numbers of fluent_parse. */
uint32_t fluent_write(const uint8_t *text, size_t len, bool with_junk, struct FluentText *made);

/* Reads a source and writes its tree, junk included, as JSON: compact, each object's keys in the order of their bytes.
 * It returns the numbers of fluent_parse. */
uint32_t fluent_write_json(const uint8_t *text, size_t len, struct FluentText *made);

/* Writes a tree as the text of a source. The tree is given as JSON, as fluent_write_json writes it, or as your program made or
 * changed it: docs/reference/json.md has the objects and their keys. The order of keys and the blanks between them don't
 * matter. Junk is written, or left out.
 *
 * It returns FLUENT_READ; FLUENT_NOT_JSON; FLUENT_NOT_TREE if a key is missing or unknown, or a value is of another kind than
 * it has to be; FLUENT_NOT_UTF8; or FLUENT_NO_MEMORY.
 *
 * Names and texts are written as they are: a text with a brace is read as something else. To know that a source is read as
 * your tree, compare that with the JSON that fluent_write_json makes of it. */
uint32_t fluent_write_tree(const uint8_t *json, size_t len, bool with_junk, struct FluentText *made);

/* Says where the symbols of a source are: a line of JSON for each definition of a message, a term or an attribute, and for
 * each reference to one, to a variable or to a function, in the order of their offsets. docs/reference/occurrences.md has
 * the keys. A stretch that can't be read has no lines, and the entries around it have theirs. It returns the numbers of
 * fluent_parse. */
uint32_t fluent_occurrences(const uint8_t *text, size_t len, struct FluentText *made);

/* Lists the nodes of a source's tree, junk included, with their places: a line for each node, its kind and the offsets of
 * its first byte and of the one after its last, after the lines of the nodes in it. `a = b` has these:
 *
 *     Identifier 0 1
 *     TextElement 4 5
 *     Pattern 4 5
 *     Message 0 5
 *
 * The nodes in a node are those before it that begin where it does or later, and are in no other. docs/reference/nodes.md
 * has the kinds. It returns the numbers of fluent_parse. */
uint32_t fluent_nodes(const uint8_t *text, size_t len, struct FluentText *made);

/* A source: its first byte, and its length in bytes. */
struct FluentSource {
    const uint8_t *text FLUENT_ZERO;
    size_t len FLUENT_ZERO;
};

/* A place in a source: its line and its column, from 1. A column counts characters. */
struct FluentPlace {
    size_t line FLUENT_ZERO;
    size_t column FLUENT_ZERO;
};

/* Tidies a source: writes it as a formatter writes code, with the messages, the terms and the comments that it has. One
 * blank line stays where there are some, a byte order mark is left out, and lines end in LF.
 *
 * It returns FLUENT_READ, and `made` is the text; FLUENT_DAMAGED if the source can't be read somewhere, and `place` is the
 * first such place, in the source without a byte order mark and with LF for CR LF; FLUENT_CARRIAGE_RETURN; FLUENT_NOT_TIDY if
 * it has one of the few shapes of docs/reference/normal-text.md; FLUENT_NOT_UTF8 or FLUENT_NO_MEMORY. Only FLUENT_DAMAGED
 * changes `place`, and `made` is as it was then. */
uint32_t fluent_tidy(const uint8_t *text, size_t len, struct FluentText *made, struct FluentPlace *place);

/* A file: its name, as findings have it, and its text. */
struct FluentFile {
    const uint8_t *name FLUENT_ZERO;
    size_t name_len FLUENT_ZERO;
    const uint8_t *text FLUENT_ZERO;
    size_t text_len FLUENT_ZERO;
};

/* What fluent_lint looks for, and what it reports. The two pointers aren't null, also if there are no functions or the
 * locale is empty. */
struct FluentLintOptions {
    /* The names of the functions that your program adds. */
    const struct FluentSource *functions FLUENT_ZERO;
    size_t function_count FLUENT_ZERO;
    /* The tag of the locale whose plural categories are looked for. If it is empty, none are. */
    const uint8_t *locale FLUENT_ZERO;
    size_t locale_len FLUENT_ZERO;
    /* Whether notes are reported, too, but for those of the group `texts`. */
    bool notes FLUENT_ZERO;
    /* Whether warnings count for the status. */
    bool strict FLUENT_ZERO;
};

/* Reports what is wrong with the files of a catalog, as the command `ftl lint --format json` does: a line of JSON for each
 * finding, and with `references`, the files that the catalog is translated from, a line of counts for each file.
 * docs/reference/lint.md has the rules, and the keys of the lines.
 *
 * It returns FLUENT_READ if the catalog has no error, and with `strict` no warning, and else FLUENT_HAS_ERRORS: in both
 * cases `report` is the report, which is empty if nothing was found. Else it returns FLUENT_NOT_UTF8 if a name or a text
 * isn't UTF-8, FLUENT_UNKNOWN_LOCALE if the locale is no tag, or FLUENT_NO_MEMORY, and `report` is unchanged.
 * `files` and `references` need pointers that aren't null, also if a count is 0.
 */
uint32_t fluent_lint(
    const struct FluentFile *files,
    size_t count,
    const struct FluentFile *references,
    size_t reference_count,
    const struct FluentLintOptions *options,
    struct FluentText *report
);

/* Answers request lines from the messages and terms of sources, in their order, as the command `ftl run` does.
 *
 * A request line is an id, a dot and the name of an attribute if you ask for one, and arguments `name=value`, each
 * after a tab. The answer to it is a line `ok B E`, the text of B bytes, and E lines of errors; or a line `none` or
 * `bad`. docs/reference/protocol.md has the rules.
 *
 * Sources may call the function NUMBER. The plural rules of `locale` choose variants, and numbers are written as it writes
 * them: it is a tag such as "pl" or "pt-PT". The empty tag has the rules of English, and plain numbers, such as 1234.5.
 * "C" and "POSIX", in letters of any case, have no rules but `other`, as "und" has, and plain numbers; so have these with
 * the codeset UTF-8, with and without its `-`, such as "C.UTF-8" and "POSIX.utf8".
 * A language without rules of its own, such as "oc", has those of "und", too. docs/reference/plurals.md says what a tag is
 * and which have rules, and docs/reference/numerals.md how numbers are written. If `isolating` is true, placeables are
 * between the marks U+2068 and U+2069. Of duplicate ids the last entry counts if `overriding` is true, and else the first.
 * If a source has errors, only its junk is left out.
 *
 * It returns FLUENT_READ, also if a source has errors or a request is bad; FLUENT_NOT_UTF8 if a source isn't UTF-8;
 * FLUENT_UNKNOWN_LOCALE if the locale is no tag; or FLUENT_NO_MEMORY.
 *
 * The sources are read at each call: put as many request lines into one call as there are. `sources` and `locale` need
 * pointers that aren't null, also if `count` or `locale_len` is 0.
 */
uint32_t fluent_answer(
    const struct FluentSource *sources,
    size_t count,
    const uint8_t *locale,
    size_t locale_len,
    bool isolating,
    bool overriding,
    const uint8_t *requests,
    size_t len,
    struct FluentText *answers
);

/* The same with plain numbers, whatever the locale. */
uint32_t fluent_answer_plain(
    const struct FluentSource *sources,
    size_t count,
    const uint8_t *locale,
    size_t locale_len,
    bool isolating,
    bool overriding,
    const uint8_t *requests,
    size_t len,
    struct FluentText *answers
);

/* Frees a text, if there is one. There is none then. `made` isn't null, but in a program that includes fluent.h. */
void fluent_free_text(struct FluentText *made);

/* Whether the language of a locale has plural rules of its own. For a tag such as "oc" it hasn't: every number is `other` then.
 * It hasn't for a text that is no tag, by which no bundle is made. "C" and "POSIX" have those of "und". `locale` isn't null,
 * also if `locale_len` is 0. */
bool fluent_has_plural_rules(const uint8_t *locale, size_t locale_len);

/* How many of a program's languages are used: all that suit any of the user's, to fall back along; the best one for each
 * of the user's; or one, the best for the first of the user's that any suits. */
#define FLUENT_FILTERING 0
#define FLUENT_MATCHING 1
#define FLUENT_LOOKUP 2

/* Finds the languages of a program that are used for those that a user asks for. Each is a tag such as "de-AT" or
 * "zh_Hant_TW"; what is no tag is passed over. docs/reference/languages.md has the rules.
 *
 * If it returns FLUENT_READ, `positions` holds where these languages are in `available`, the best first, as many as it has
 * `room` for, and `count` says how many there are. No position is there twice, so `available_count` places are enough.
 * Else it returns FLUENT_BAD_ARGUMENT if there is no such strategy, or FLUENT_NO_MEMORY; both are unchanged then.
 * `requested`, `available` and `positions` need pointers that aren't null, also if a count is 0.
 */
uint32_t fluent_negotiate(
    const struct FluentSource *requested,
    size_t requested_count,
    const struct FluentSource *available,
    size_t available_count,
    uint32_t strategy,
    size_t *positions,
    size_t room,
    size_t *count
);

/* A bundle that you keep from call to call, or none. The memory is the library's: change no field.
 *
 * Begin with `struct FluentBundle bundle = {0};`, which is no bundle. A call that makes one there frees the one before,
 * and fluent_bundle_free frees the last. A copy of the struct is no bundle of its own: use only one of the two.
 * One call at a time may use a bundle. It may go to another thread, and so may a text: order that by a lock, by the
 * start of a thread, or by its join.
 */
struct FluentBundle {
    /* Whether there is a bundle. If there is none, the other fields say nothing. */
    bool held FLUENT_ZERO;
    void *sources FLUENT_ZERO;
    void *read FLUENT_ZERO;
    void *desk FLUENT_ZERO;
};

/* Reads sources, and makes a bundle of them. It copies them: you may free them once the call returns.
 *
 * `locale`, `isolating` and `overriding` are those of fluent_answer. It returns FLUENT_READ, also if a source has
 * errors; FLUENT_NOT_UTF8 if a source isn't UTF-8; FLUENT_UNKNOWN_LOCALE if the locale is no tag; or
 * FLUENT_NO_MEMORY. `sources` and `locale` need pointers that aren't null, also if `count` or `locale_len` is 0.
 */
uint32_t fluent_bundle_new(
    const struct FluentSource *sources,
    size_t count,
    const uint8_t *locale,
    size_t locale_len,
    bool isolating,
    bool overriding,
    struct FluentBundle *made
);

/* The same with a budget of `stack` bytes in the place of 1.5 MB (1,572,864). It is for each message and term that is
 * read, for each answer of the bundle, and for fluent_bundle_errors. A thread that makes the bundle or asks it needs
 * 400 KB of stack beside it; with 6,291,456, which is what `ftl` has, 8 MB are enough. */
uint32_t fluent_bundle_new_within(
    const struct FluentSource *sources,
    size_t count,
    const uint8_t *locale,
    size_t locale_len,
    bool isolating,
    bool overriding,
    size_t stack,
    struct FluentBundle *made
);

/* The same as fluent_bundle_new_within with plain numbers, whatever the locale. */
uint32_t fluent_bundle_new_plain(
    const struct FluentSource *sources,
    size_t count,
    const uint8_t *locale,
    size_t locale_len,
    bool isolating,
    bool overriding,
    size_t stack,
    struct FluentBundle *made
);

/* How a bundle is made. Begin with `struct FluentBundleOptions options = FLUENT_BUNDLE_OPTIONS;`, and change what you want:
 * then your program goes on as it is when a later header has more fields. */
struct FluentBundleOptions {
    /* The size of the struct in your header, by which the library knows the fields. */
    size_t size FLUENT_ZERO;
    /* The tag of the locale, which is that of fluent_answer. The pointer isn't null, also if the tag is empty. */
    const uint8_t *locale FLUENT_ZERO;
    size_t locale_len FLUENT_ZERO;
    /* The budget of the stack in bytes, which is that of fluent_bundle_new_within; 0 for the usual 1.5 MB. */
    size_t stack FLUENT_ZERO;
    /* Whether placeables are between the marks U+2068 and U+2069. */
    bool isolating FLUENT_ZERO;
    /* Whether the last entry of an id counts, and not the first. */
    bool overriding FLUENT_ZERO;
    /* Whether numbers are plain, whatever the locale. */
    bool plain_numbers FLUENT_ZERO;
};

/* The options of which none was changed: no locale, the usual budget, and isolation marks. */
#define FLUENT_BUNDLE_OPTIONS \
    { sizeof(struct FluentBundleOptions), (const uint8_t *)"", 0, 0, true, false, false }

/* Makes a bundle of sources by options. It returns the numbers of fluent_bundle_new, and FLUENT_BAD_ARGUMENT if the size of
 * the options isn't that of this header's struct: nobody set it, or the program was compiled with a later header than the
 * library is of. A later library takes this size, too, and gives each field that comes later its default. */
uint32_t fluent_bundle_new_with(
    const struct FluentSource *sources,
    size_t count,
    const struct FluentBundleOptions *options,
    struct FluentBundle *made
);

/* The kinds of arguments: a text; a number, written as a decimal such as "3" or "1.50", which keeps its digits after
 * the point; a signed and an unsigned integer. A text stays a text, whatever it looks like: "3" is no number here,
 * though it is one in a request line of fluent_answer. A decimal has a point in every locale: after `setlocale(LC_ALL, "")`
 * printf may write 1234,5, which is refused, so use fluent_double_argument of fluent.h for a double. */
#define FLUENT_TEXT 0
#define FLUENT_DECIMAL 1
#define FLUENT_INTEGER 2
#define FLUENT_UNSIGNED 3
/* No value: an argument that is shown as nothing, or a call that has no answer and is shown as `NAME()`. */
#define FLUENT_NO_VALUE 4
/* A float: a number written as a decimal, whose digits don't say how many are shown. 0.3333333333333333 is shown with as many
 * as the locale shows at most, which are three, unless the message asks for others; with plain numbers it is shown with all. */
#define FLUENT_FLOAT 5
/* A date, with its time and the offset of its clock from UTC if it has them, as ISO 8601 writes it: `2026-11-28`,
 * `2026-11-28T20:15:05.123`, `2026-11-28T20:15:00+01:00`. The bundle shows it as its locale writes dates, and messages set how by
 * `{ DATETIME($date, dateStyle: "long") }`: docs/reference/dates.md. A bundle without a locale that CLDR knows shows it as ISO 8601
 * has it. The year has four digits. fluent_date_argument of fluent.h makes one of a `struct tm` or a `time_t`. */
#define FLUENT_DATETIME 6

/* An argument: its name, without `$`, and its value as its kind says. `text` is read for a text, a decimal, a float and a date;
 * for the others it still needs a pointer that isn't null, and `text_len` is 0. */
struct FluentArgument {
    const uint8_t *name FLUENT_ZERO;
    size_t name_len FLUENT_ZERO;
    const uint8_t *text FLUENT_ZERO;
    size_t text_len FLUENT_ZERO;
    int64_t integer FLUENT_ZERO;
    uint64_t unsigned_integer FLUENT_ZERO;
    uint32_t kind FLUENT_ZERO;
};

/* Formats a message: its value, or its first attribute of a name. If `attribute_len` is 0, it is the value.
 *
 * If the call returns FLUENT_READ, `text` holds the text, and `errors` a line for each error; without an error,
 * `errors` holds no text. You get the text even if there are errors. Of arguments with one name the last counts. The
 * memory of what `text` held is kept with the new text, and the next call writes into it: if you hand over the same
 * `text` again, a call allocates nothing for it as long as that suffices.
 *
 * Else it returns FLUENT_NO_MESSAGE, FLUENT_NO_PATTERN, FLUENT_BAD_ARGUMENT, FLUENT_NO_BUNDLE, FLUENT_NO_MEMORY, or
 * FLUENT_NOT_UTF8 if the id, a name or a text isn't UTF-8; `text` and `errors` are unchanged then. No call changes what
 * the bundle answers. `id`, `attribute` and `arguments` need pointers that aren't null, also if a length is 0.
 */
uint32_t fluent_bundle_format(
    struct FluentBundle *bundle,
    const uint8_t *id,
    size_t id_len,
    const uint8_t *attribute,
    size_t attribute_len,
    const struct FluentArgument *arguments,
    size_t argument_count,
    struct FluentText *text,
    struct FluentText *errors
);

/* Makes a bundle whose messages call functions of your program, as `{ PLATFORM() }` does: fluent_bundle_new_with, and the
 * names of the functions. Format its messages by fluent_bundle_call; by fluent_bundle_format the functions are unknown.
 * fluent_bundle_format, and the calls that list messages, attributes or variables, make an index without the functions when the
 * first of them is called, and keep it: it takes memory and time as the bundle itself did, without the reading.
 *
 * A name that is the id of a message or a term of the sources, or NUMBER, is no function. A function DATETIME takes the place of
 * the one that each bundle has. The names are copied. The call returns the numbers of fluent_bundle_new_with, and
 * FLUENT_NOT_UTF8, too, if a name isn't UTF-8. `functions` needs a pointer that isn't null, also if `function_count` is 0.
 */
uint32_t fluent_bundle_new_calling(
    const struct FluentSource *sources,
    size_t count,
    const struct FluentBundleOptions *options,
    const struct FluentSource *functions,
    size_t function_count,
    struct FluentBundle *made
);

/* Formats a message that calls functions of your program: fluent_bundle_format, with answers to calls.
 *
 * If the message comes to a call that has no answer, it returns FLUENT_CALL, and `call` holds the text of that call; `text`
 * and `errors` are unchanged then. Find the answer, put it among `answers`, and make the call again, until it returns another
 * number. An answer is an argument whose name is the text of the call; its value is what the function gives, or
 * FLUENT_NO_VALUE if it gives none. So a function runs once for each different call of an answer, only if the answer comes to
 * it, and in the order in which it does. It has to give the same value for the same arguments.
 *
 * Copy the text of the call: the memory is that of `call`, and the next call that is put there frees it, while the answers
 * still need the name. Names and texts of answers have to last until the last round. fluent_add_answer of fluent.h copies
 * both, and fluent_read_call reads the text; the example functions.c has the loop.
 *
 * The text of a call is JSON, an array of the function's name, an array of the positional arguments and an object of the named
 * ones: `["PLATFORM",[],{}]`, or `["DATETIME",["2026-11-28"],{"dateStyle":"long"}]`. A text is a text there, a number
 * `{"number":"1.50"}`, whose digits are plain, a date `{"date":"2026-11-28"}` as ISO 8601 has it, and an argument without a
 * value is null. Of an argument's options only the digits after the point are passed on.
 *
 * Else it returns the numbers of fluent_bundle_format, and `call` is unchanged. FLUENT_NOT_UTF8 and FLUENT_BAD_ARGUMENT may
 * also mean an answer. A bundle that another call than fluent_bundle_new_calling made answers as fluent_bundle_format does. Of
 * answers to one call the last counts. `answers` needs a pointer that isn't null, also if `answer_count` is 0.
 */
uint32_t fluent_bundle_call(
    struct FluentBundle *bundle,
    const uint8_t *id,
    size_t id_len,
    const uint8_t *attribute,
    size_t attribute_len,
    const struct FluentArgument *arguments,
    size_t argument_count,
    const struct FluentArgument *answers,
    size_t answer_count,
    struct FluentText *text,
    struct FluentText *errors,
    struct FluentText *call
);

/* Lists calls that have no answer and that a message meets whatever any of them gives: fluent_bundle_call, but `calls` gets the
 * text of each, ended by a line feed. The text of a call has none in it.
 *
 * fluent_bundle_call gives the first of them alone. A program that answers all of them before it makes that call again needs
 * fewer rounds. They are those of the message's own placeables, in their order; one that it has twice is listed twice, and has
 * to be answered once. A call among whose arguments is one without an answer isn't listed yet. The list ends at the first call of
 * a placeable that holds anything but literals, variables and calls of these, such as a select or a term: what comes after it
 * may depend on its answer.
 *
 * It returns FLUENT_READ, also if the text is empty, since each call that is met has an answer, or another call than
 * fluent_bundle_new_calling made the bundle. Else it returns the numbers of fluent_bundle_call, and `calls` is unchanged. */
uint32_t fluent_bundle_calls(
    struct FluentBundle *bundle,
    const uint8_t *id,
    size_t id_len,
    const uint8_t *attribute,
    size_t attribute_len,
    const struct FluentArgument *arguments,
    size_t argument_count,
    const struct FluentArgument *answers,
    size_t answer_count,
    struct FluentText *calls
);

/* Whether a bundle has a message's value, or an attribute of a name. It returns FLUENT_READ if it has, and else
 * FLUENT_NO_MESSAGE, FLUENT_NO_PATTERN, FLUENT_NOT_UTF8 or FLUENT_NO_BUNDLE. It allocates nothing. */
uint32_t fluent_bundle_has(
    struct FluentBundle *bundle,
    const uint8_t *id,
    size_t id_len,
    const uint8_t *attribute,
    size_t attribute_len
);

/* A pattern: a message's value if `attribute_len` is 0, and else its first attribute of that name. No pointer is null. */
struct FluentPattern {
    const uint8_t *id FLUENT_ZERO;
    size_t id_len FLUENT_ZERO;
    const uint8_t *attribute FLUENT_ZERO;
    size_t attribute_len FLUENT_ZERO;
    /* What fluent_bundle_find gave. Any other number is allowed, and only takes a call longer. */
    size_t number FLUENT_ZERO;
};

/* Looks a pattern up, and gives its number in this bundle. It returns the numbers of fluent_bundle_has, and only FLUENT_READ
 * changes `number`. The bundle keeps a reference to each message that was looked up; to look one up again takes no memory.
 * If memory is refused, the number is that of no message. */
uint32_t fluent_bundle_find(
    struct FluentBundle *bundle,
    const uint8_t *id,
    size_t id_len,
    const uint8_t *attribute,
    size_t attribute_len,
    size_t *number
);

/* Writes the text of a pattern into your memory: into the first bytes of `room`, without a byte 0 after them, and how many
 * they are into `len`. `errors` holds a line for each error, or no text.
 *
 * YOU HAVE TO PASS UTF-8: the id, the attribute, and the names and texts of arguments. It isn't checked; with another byte
 * the behaviour is undefined. An id and an attribute that fluent_bundle_find found are UTF-8.
 *
 * The text is that of the id and the attribute, whatever the number is. If the message isn't at its number in this bundle,
 * since the number is of another bundle, or the bundle was made anew, the message is looked up by its id.
 *
 * It returns what fluent_bundle_call returns without answers to calls, with the same text and errors: if another call than
 * fluent_bundle_new_calling made the bundle, these are those of fluent_bundle_format. FLUENT_CALL says that the pattern calls a
 * function: go on by fluent_bundle_call. FLUENT_NO_ROOM says that the text has more than `room_len` bytes, and `len` how many:
 * call again with as many. Unless it returns FLUENT_READ, `room` and `errors` are unchanged. `room` isn't null, also if
 * `room_len` is 0. */
uint32_t fluent_bundle_write(
    struct FluentBundle *bundle,
    const struct FluentPattern *pattern,
    const struct FluentArgument *arguments,
    size_t argument_count,
    uint8_t *room,
    size_t room_len,
    size_t *len,
    struct FluentText *errors
);

/* Lists the messages of a bundle: `text` is their ids, each ended by a line feed, and empty if there is none. They are in
 * the order of the first entries of the ids in the sources, and each is there once. A term isn't listed, and neither is an
 * id of which a term is what counts. It returns FLUENT_READ, FLUENT_NO_BUNDLE or FLUENT_NO_MEMORY. */
uint32_t fluent_bundle_messages(struct FluentBundle *bundle, struct FluentText *text);

/* Lists the attributes of a message: `text` is their names, each ended by a line feed, in the order of the message, and
 * empty if there is none. A name that the message has twice is there twice; fluent_bundle_format takes the first. It
 * returns FLUENT_READ, FLUENT_NO_MESSAGE, FLUENT_NOT_UTF8, FLUENT_NO_BUNDLE or FLUENT_NO_MEMORY. `id` needs a pointer that
 * isn't null, also if `id_len` is 0. */
uint32_t fluent_bundle_attributes(
    struct FluentBundle *bundle,
    const uint8_t *id,
    size_t id_len,
    struct FluentText *text
);

/* Lists the variables that a message is shown with: `text` is their names, each ended by a line feed, and empty if there
 * is none. They are those of its value and its attributes, and those of the messages that it refers to, directly or not.
 * First come its own, then those of the messages that it names, and then those of the messages that these name, each in
 * the order in which it is met and each once. The variables of a term are its own arguments, and aren't listed. The call
 * takes time in proportion to what the message refers to. It returns FLUENT_READ, FLUENT_NO_MESSAGE, FLUENT_NOT_UTF8,
 * FLUENT_NO_BUNDLE or FLUENT_NO_MEMORY. `id` needs a pointer that isn't null, also if `id_len` is 0. */
uint32_t fluent_bundle_variables(
    struct FluentBundle *bundle,
    const uint8_t *id,
    size_t id_len,
    struct FluentText *text
);

/* Reports what is wrong with the sources of a bundle, as the command `ftl check` does: a line for each error, and for
 * each message or term with a duplicate id. The text is empty if there is nothing to report. It returns FLUENT_READ,
 * FLUENT_NO_BUNDLE or FLUENT_NO_MEMORY. */
uint32_t fluent_bundle_errors(struct FluentBundle *bundle, struct FluentText *report);

/* Frees a bundle, if there is one. There is none then. `bundle` isn't null, but in a program that includes fluent.h. */
void fluent_bundle_free(struct FluentBundle *bundle);

/* A date of the Gregorian calendar, with its time if it has one, and the offset of its clock from UTC if that is known. Your
 * program converts time zones: these are the numbers that the clock shows. fluent.h makes one of a `struct tm` or a `time_t`. */
struct FluentDate {
    /* How many seconds the clock is ahead of UTC, less than a day in either direction. It counts if `has_offset` is true. */
    int32_t offset FLUENT_ZERO;
    /* The part of the second, from 0 to 999999999. As the hour, the minute and the second it counts if `has_time` is true. */
    uint32_t nanosecond FLUENT_ZERO;
    /* The year, from -9999 to 9999; 0 is 1 BC. */
    int16_t year FLUENT_ZERO;
    /* The month, from 1 to 12, and the day of the month, from 1. */
    uint8_t month FLUENT_ZERO;
    uint8_t day FLUENT_ZERO;
    /* The hour, from 0 to 23, and the minute and the second, from 0 to 59. */
    uint8_t hour FLUENT_ZERO;
    uint8_t minute FLUENT_ZERO;
    uint8_t second FLUENT_ZERO;
    bool has_time FLUENT_ZERO;
    bool has_offset FLUENT_ZERO;
};

/* Writes a date as the language of a locale does, with the options of DATETIME: arguments of these names, such as `dateStyle`,
 * which are texts, but for `fractionalSecondDigits`, which is a number. docs/reference/dates.md has them. An option that isn't
 * there does nothing, and neither does a value that an option doesn't have. Of options with one name the last counts.
 *
 * It returns FLUENT_READ; FLUENT_UNKNOWN_LOCALE if CLDR doesn't know the locale's language, as that of the empty tag;
 * FLUENT_BAD_ARGUMENT if the numbers make no date, no time or no offset, or for an option that fluent_bundle_format wouldn't
 * take; FLUENT_NOT_UTF8 if an option isn't UTF-8; or FLUENT_NO_MEMORY. `locale` and `options` need pointers that aren't null,
 * also if a length is 0. */
uint32_t fluent_write_date(
    const uint8_t *locale,
    size_t locale_len,
    const struct FluentDate *date,
    const struct FluentArgument *options,
    size_t option_count,
    struct FluentText *made
);

#ifdef __cplusplus
}
#endif

#endif
