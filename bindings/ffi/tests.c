/* Each call of a handle, with each number that it may return. It prints how many checks there were. */
#include <stdio.h>
#include <string.h>

#include "fluent_handle.h"

static unsigned checked, failed;

#define CHECK(holds) check((holds), #holds, __LINE__)

static void check(bool holds, const char *words, int line) {
    checked++;
    if (!holds) {
        failed++;
        fprintf(stderr, "line %d: %s\n", line, words);
    }
}

/* A text whose length is passed, and which has no byte 0 at its end that anybody reads. */
#define TEXT(literal) (literal), sizeof(literal) - 1

static const char SOURCE[] =
    "hello = Hello, { $name }!\n"
    "    .title = Title\n"
    "sum = { $a } { $b } { $c } { $d } { $e } { $f }\n"
    "called = { SHOUT(\"a\\u0000b\", 1.50, $none, style: \"long\", size: 2) } { SHOUT() }\n"
    "half = { HALF($n) ->\n    [one] one\n   *[other] { HALF($n) }\n}\n"
    "due = { DATETIME($day, dateStyle: \"long\") }\n"
    "soon = { SHOUT($day) }\n"
    "hello = Again\n"
    "broken\n";

static bool shows(const struct FluentHandle *handle, const char *text) {
    return strcmp(fluent_handle_text(handle), text) == 0 && fluent_handle_text_len(handle) == strlen(text);
}

static struct FluentHandle *made(const char *locale) {
    struct FluentHandle *handle = fluent_handle_new();
    CHECK(handle != NULL);
    CHECK(fluent_handle_locale(handle, TEXT("pl")) == FLUENT_READ);
    CHECK(fluent_handle_locale(handle, locale, strlen(locale)) == FLUENT_READ);
    CHECK(fluent_handle_source(handle, SOURCE, sizeof SOURCE - 1) == FLUENT_READ);
    CHECK(fluent_handle_source(handle, NULL, 0) == FLUENT_READ);
    CHECK(fluent_handle_function(handle, TEXT("SHOUT")) == FLUENT_READ);
    CHECK(fluent_handle_function(handle, TEXT("HALF")) == FLUENT_READ);
    fluent_handle_isolating(handle, false);
    CHECK(fluent_handle_make(handle) == FLUENT_READ);
    return handle;
}

static void test_texts(void) {
    struct FluentHandle *handle = made("en");
    CHECK(fluent_handle_string(handle, TEXT("name"), TEXT("Jane")) == FLUENT_READ);
    CHECK(fluent_handle_format(handle, TEXT("hello"), NULL, 0) == FLUENT_READ);
    CHECK(shows(handle, "Hello, Jane!") && fluent_handle_errors_len(handle) == 0);
    CHECK(fluent_handle_format(handle, TEXT("hello"), NULL, 0) == FLUENT_READ);
    CHECK(shows(handle, "Hello, {$name}!"));
    CHECK(strcmp(fluent_handle_errors(handle), "Unknown variable: $name\n") == 0);
    CHECK(fluent_handle_errors_len(handle) == strlen("Unknown variable: $name\n"));
    CHECK(fluent_handle_format(handle, TEXT("hello"), TEXT("title")) == FLUENT_READ && shows(handle, "Title"));
    CHECK(fluent_handle_format(handle, TEXT("hello"), TEXT("none")) == FLUENT_NO_PATTERN && shows(handle, "Title"));
    CHECK(fluent_handle_format(handle, NULL, 0, NULL, 0) == FLUENT_NO_MESSAGE);
    CHECK(fluent_handle_format(handle, TEXT("\xff"), NULL, 0) == FLUENT_NOT_UTF8);
    CHECK(fluent_handle_decimal(handle, TEXT("name"), TEXT("1,5")) == FLUENT_READ);
    CHECK(fluent_handle_format(handle, TEXT("hello"), NULL, 0) == FLUENT_BAD_ARGUMENT);
    CHECK(fluent_handle_string(handle, TEXT("a"), NULL, 0) == FLUENT_READ);
    CHECK(fluent_handle_decimal(handle, TEXT("b"), TEXT("1.50")) == FLUENT_READ);
    CHECK(fluent_handle_integer(handle, TEXT("c"), -3) == FLUENT_READ);
    CHECK(fluent_handle_unsigned(handle, TEXT("d"), UINT64_MAX) == FLUENT_READ);
    CHECK(fluent_handle_double(handle, TEXT("e"), 0.125) == FLUENT_READ);
    CHECK(fluent_handle_nothing(handle, TEXT("f")) == FLUENT_READ);
    CHECK(fluent_handle_format(handle, TEXT("sum"), NULL, 0) == FLUENT_READ);
    CHECK(shows(handle, " 1.50 -3 18,446,744,073,709,551,615 0.125 "));
    CHECK(strcmp(fluent_handle_status(FLUENT_NO_MESSAGE), "there is no message of the id") == 0);
    fluent_handle_free(handle);
    fluent_handle_free(NULL);
}

static void test_options(void) {
    struct FluentHandle *handle = made("de");
    CHECK(fluent_handle_integer(handle, TEXT("a"), 1234) == FLUENT_READ);
    CHECK(fluent_handle_format(handle, TEXT("sum"), NULL, 0) == FLUENT_READ);
    CHECK(strncmp(fluent_handle_text(handle), "1.234 ", 6) == 0);
    fluent_handle_plain_numbers(handle, true);
    fluent_handle_overriding(handle, true);
    fluent_handle_stack(handle, 1000000);
    fluent_handle_isolating(handle, true);
    CHECK(fluent_handle_make(handle) == FLUENT_READ);
    CHECK(fluent_handle_integer(handle, TEXT("a"), 1234) == FLUENT_READ);
    CHECK(fluent_handle_format(handle, TEXT("sum"), NULL, 0) == FLUENT_READ);
    CHECK(strncmp(fluent_handle_text(handle), "\xe2\x81\xa8" "1234\xe2\x81\xa9 ", 11) == 0);
    CHECK(fluent_handle_format(handle, TEXT("hello"), NULL, 0) == FLUENT_READ && shows(handle, "Again"));
    CHECK(fluent_handle_locale(handle, TEXT("not a locale")) == FLUENT_READ);
    CHECK(fluent_handle_make(handle) == FLUENT_UNKNOWN_LOCALE);
    CHECK(fluent_handle_format(handle, TEXT("hello"), NULL, 0) == FLUENT_READ);
    CHECK(fluent_handle_locale(handle, NULL, 0) == FLUENT_READ);
    CHECK(fluent_handle_source(handle, TEXT("\xff")) == FLUENT_READ);
    CHECK(fluent_handle_make(handle) == FLUENT_NOT_UTF8);
    fluent_handle_free(handle);
}

static void test_functions(void) {
    struct FluentHandle *handle = made("en");
    CHECK(fluent_handle_answer_nothing(handle) == FLUENT_BAD_ARGUMENT);
    CHECK(strcmp(fluent_handle_called(handle), "") == 0);
    CHECK(fluent_handle_nothing(handle, TEXT("none")) == FLUENT_READ);
    CHECK(fluent_handle_format(handle, TEXT("called"), NULL, 0) == FLUENT_CALL);
    CHECK(fluent_handle_format(handle, TEXT("called"), NULL, 0) == FLUENT_CALL);
    CHECK(strcmp(fluent_handle_called(handle), "SHOUT") == 0);
    CHECK(fluent_handle_positional(handle) == 3 && fluent_handle_named(handle) == 2);
    CHECK(fluent_handle_given_kind(handle, 0) == FLUENT_TEXT && fluent_handle_given_len(handle, 0) == 3);
    CHECK(memcmp(fluent_handle_given_text(handle, 0), "a\0b", 4) == 0);
    CHECK(fluent_handle_given_kind(handle, 1) == FLUENT_DECIMAL && strcmp(fluent_handle_given_text(handle, 1), "1.50") == 0);
    CHECK(fluent_handle_given_kind(handle, 2) == FLUENT_NO_VALUE && strcmp(fluent_handle_given_name(handle, 2), "") == 0);
    CHECK(strcmp(fluent_handle_given_name(handle, 3), "size") == 0 || strcmp(fluent_handle_given_name(handle, 3), "style") == 0);
    CHECK(fluent_handle_given_kind(handle, 5) == FLUENT_NO_VALUE && fluent_handle_given_len(handle, 5) == 0);
    CHECK(strcmp(fluent_handle_given_text(handle, SIZE_MAX), "") == 0);
    CHECK(fluent_handle_answer_string(handle, TEXT("loud")) == FLUENT_READ);
    CHECK(fluent_handle_format(handle, TEXT("called"), NULL, 0) == FLUENT_CALL);
    CHECK(fluent_handle_positional(handle) == 0);
    CHECK(fluent_handle_answer_nothing(handle) == FLUENT_READ);
    CHECK(fluent_handle_format(handle, TEXT("called"), NULL, 0) == FLUENT_READ && shows(handle, "loud SHOUT()"));
    CHECK(strcmp(fluent_handle_called(handle), "") == 0);
    CHECK(fluent_handle_integer(handle, TEXT("n"), 2) == FLUENT_READ);
    CHECK(fluent_handle_format(handle, TEXT("half"), NULL, 0) == FLUENT_CALL);
    CHECK(fluent_handle_answer_double(handle, 1.0) == FLUENT_READ);
    CHECK(fluent_handle_format(handle, TEXT("half"), NULL, 0) == FLUENT_READ && shows(handle, "one"));
    CHECK(fluent_handle_integer(handle, TEXT("n"), 3) == FLUENT_READ);
    CHECK(fluent_handle_format(handle, TEXT("half"), NULL, 0) == FLUENT_CALL);
    CHECK(fluent_handle_answer_decimal(handle, TEXT("1.50")) == FLUENT_READ);
    CHECK(fluent_handle_format(handle, TEXT("half"), NULL, 0) == FLUENT_READ && shows(handle, "1.50"));
    CHECK(fluent_handle_format(handle, TEXT("called"), NULL, 0) == FLUENT_CALL);
    fluent_handle_free(handle);
}

static void test_dates(void) {
    struct FluentHandle *handle = made("de");
    CHECK(fluent_handle_date(handle, TEXT("day"), TEXT("2026-11-28")) == FLUENT_READ);
    CHECK(fluent_handle_format(handle, TEXT("due"), NULL, 0) == FLUENT_READ && shows(handle, "28. November 2026"));
    CHECK(fluent_handle_date(handle, TEXT("day"), TEXT("tomorrow")) == FLUENT_READ);
    CHECK(fluent_handle_format(handle, TEXT("due"), NULL, 0) == FLUENT_BAD_ARGUMENT);
    CHECK(fluent_handle_date(handle, TEXT("day"), TEXT("2026-11-28")) == FLUENT_READ);
    CHECK(fluent_handle_format(handle, TEXT("soon"), NULL, 0) == FLUENT_CALL);
    CHECK(fluent_handle_given_kind(handle, 0) == FLUENT_DATETIME && strcmp(fluent_handle_given_text(handle, 0), "2026-11-28") == 0);
    CHECK(fluent_handle_answer_date(handle, TEXT("2024-02-29")) == FLUENT_READ);
    CHECK(fluent_handle_format(handle, TEXT("soon"), NULL, 0) == FLUENT_READ && shows(handle, "29.2.2024"));
    fluent_handle_free(handle);
}

static void test_lists(void) {
    struct FluentHandle *handle = made("en"), *empty = fluent_handle_new();
    CHECK(fluent_handle_has(handle, TEXT("hello"), NULL, 0) == FLUENT_READ);
    CHECK(fluent_handle_has(handle, TEXT("hello"), TEXT("x")) == FLUENT_NO_PATTERN);
    CHECK(fluent_handle_messages(handle) == FLUENT_READ && shows(handle, "hello\nsum\ncalled\nhalf\ndue\nsoon\n"));
    CHECK(fluent_handle_attributes(handle, TEXT("hello")) == FLUENT_READ && shows(handle, "title\n"));
    CHECK(fluent_handle_variables(handle, TEXT("hello")) == FLUENT_READ && shows(handle, "name\n"));
    CHECK(fluent_handle_variables(handle, TEXT("none")) == FLUENT_NO_MESSAGE);
    CHECK(fluent_handle_source_errors(handle) == FLUENT_READ && strstr(fluent_handle_text(handle), "ExpectedToken"));
    CHECK(fluent_handle_make(empty) == FLUENT_READ && fluent_handle_messages(empty) == FLUENT_READ && shows(empty, ""));
    fluent_handle_free(empty);
    empty = fluent_handle_new();
    CHECK(fluent_handle_messages(empty) == FLUENT_NO_BUNDLE && shows(empty, ""));
    CHECK(fluent_handle_format(empty, TEXT("hello"), NULL, 0) == FLUENT_NO_BUNDLE);
    CHECK(fluent_handle_tidy(empty, TEXT("a=b")) == FLUENT_READ && shows(empty, "a = b\n"));
    CHECK(fluent_handle_tidy(empty, TEXT("a")) == FLUENT_DAMAGED && fluent_handle_tidy(empty, NULL, 0) == FLUENT_READ);
    CHECK(fluent_handle_tree(empty, NULL, 0) == FLUENT_READ);
    CHECK(shows(empty, "{\"body\":[],\"syntax\":\"2\",\"type\":\"Resource\"}"));
    CHECK(fluent_handle_occurrences(empty, TEXT("a = b\n")) == FLUENT_READ);
    CHECK(strstr(fluent_handle_text(empty), "\"name\":\"a\"") != NULL);
    CHECK(fluent_handle_nodes(empty, TEXT("a = b\n")) == FLUENT_READ);
    CHECK(shows(empty, "Identifier 0 1\nTextElement 4 5\nPattern 4 5\nMessage 0 5\n"));
    CHECK(fluent_handle_tree(empty, TEXT("\xff")) == FLUENT_NOT_UTF8);
    const char *tree = "{\"body\":[{\"content\":\"!\",\"type\":\"Junk\"}],\"type\":\"Resource\"}";
    CHECK(fluent_handle_written(empty, tree, strlen(tree), true) == FLUENT_READ && shows(empty, "!"));
    CHECK(fluent_handle_written(empty, tree, strlen(tree), false) == FLUENT_READ && shows(empty, ""));
    CHECK(fluent_handle_written(empty, NULL, 0, false) == FLUENT_NOT_JSON);
    CHECK(fluent_handle_written(empty, TEXT("[]"), false) == FLUENT_NOT_TREE && shows(empty, ""));
    fluent_handle_free(empty);
    fluent_handle_free(handle);
}

int main(void) {
    test_texts();
    test_options();
    test_functions();
    test_dates();
    test_lists();
    printf("%u checks, %u failed\n", checked, failed);
    return failed != 0;
}
