/* The calls of fluent.h, with each number that they may return. It is C and C++, and compiles without a warning as both. */
#include <stdio.h>

#include "fluent.h"

static const char SOURCE[] =
    "a = A\n    .title = T { $x }\nn = { $n ->\n    [one] one\n   *[other] { $n } other\n}\n";

/* The locales of a program that has set none, which have no plural rules but `other`. */
static const char *const POSIX[] = {
    "C", "POSIX", "C.UTF-8", "C.utf8", "C.UTF8", "c.utf-8", "POSIX.UTF-8", "POSIX.utf8", "posix", "und", NULL};

static unsigned tried = 0, wrong = 0;

static void check(const char *what, bool is_right) {
    tried++;
    wrong += !is_right;
    if (!is_right)
        printf("%s is wrong\n", what);
}

static bool holds(const struct FluentText *text, const char *wanted) {
    return text->len == strlen(wanted) && strcmp(fluent_string(text), wanted) == 0;
}

/* Whether an argument is shown so by the message `n`. */
static bool shows(struct FluentBundle *bundle, struct FluentArgument argument, const char *wanted) {
    struct FluentText text = {0};
    bool is_shown = fluent_format(bundle, "n", NULL, &argument, 1, &text, NULL) == FLUENT_READ && holds(&text, wanted);
    fluent_free_text(&text);
    return is_shown;
}

static void try_formats(struct FluentBundle *bundle) {
    struct FluentText text = {0}, errors = {0};
    check("a value", fluent_format(bundle, "a", NULL, NULL, 0, &text, NULL) == FLUENT_READ && holds(&text, "A"));
    check("an attribute", fluent_format(bundle, "a", "title", NULL, 0, &text, &errors) == FLUENT_READ
        && holds(&text, "T {$x}") && holds(&errors, "Unknown variable: $x\n"));
    check("errors that aren't wanted", fluent_format(bundle, "a", "title", NULL, 0, &text, NULL) == FLUENT_READ);
    check("the string of no text", strcmp(fluent_string(NULL), "") == 0);
    check("no errors", fluent_format(bundle, "a", NULL, NULL, 0, &text, &errors) == FLUENT_READ && !errors.held);
    check("no message", fluent_format(bundle, "b", NULL, NULL, 0, &text, NULL) == FLUENT_NO_MESSAGE);
    check("no attribute", fluent_format(bundle, "a", "b", NULL, 0, &text, NULL) == FLUENT_NO_PATTERN);
    check("no UTF-8", fluent_format(bundle, "\xff", NULL, NULL, 0, &text, NULL) == FLUENT_NOT_UTF8);
    fluent_free_text(&text);
    fluent_free_text(&errors);
}

static void try_arguments(struct FluentBundle *bundle) {
    check("an integer", shows(bundle, fluent_integer_argument("n", -3), "-3 other"));
    check("an unsigned integer", shows(bundle, fluent_unsigned_argument("n", UINT64_MAX), "18446744073709551615 other"));
    check("a decimal", shows(bundle, fluent_decimal_argument("n", "1.50"), "1.50 other"));
    check("the decimal 1", shows(bundle, fluent_decimal_argument("n", "1"), "one"));
    check("a text", shows(bundle, fluent_text_argument("n", "1"), "1 other"));
    check("a text that is NULL", shows(bundle, fluent_text_argument("n", NULL), " other"));
    const struct FluentArgument arguments[] = {
        fluent_integer_argument("a", 1), fluent_decimal_argument("b", "1e3"), fluent_decimal_argument("c", "")};
    struct FluentText text = {0};
    check("a bad argument", fluent_format(bundle, "a", NULL, arguments, 3, &text, NULL) == FLUENT_BAD_ARGUMENT && !text.held);
    check("which one", fluent_bad_argument(bundle, arguments, 3) == 1);
    check("none", fluent_bad_argument(bundle, arguments, 1) == 1 && fluent_bad_argument(bundle, NULL, 0) == 0);
}

static void try_options(void) {
    static const char source[] = "n = { NUMBER($n) }\nn = last { $n }\n";
    struct FluentBundle bundle = {0};
    check("the usual options", fluent_bundle_with(source, NULL, &bundle) == FLUENT_READ
        && shows(&bundle, fluent_decimal_argument("n", "1234.5"), "1234.5"));
    struct FluentBundleOptions german = fluent_bundle_options("de");
    check("a locale by options", fluent_bundle_with(source, &german, &bundle) == FLUENT_READ
        && shows(&bundle, fluent_decimal_argument("n", "1234.5"), "1.234,5"));
    struct FluentBundleOptions options = FLUENT_BUNDLE_OPTIONS;
    options.overriding = true;
    check("the last entry", fluent_bundle_with(source, &options, &bundle) == FLUENT_READ
        && shows(&bundle, fluent_integer_argument("n", 1), "last \u2068" "1\u2069"));
    struct FluentBundleOptions none = {0};
    check("options without a size", fluent_bundle_with(source, &none, &bundle) == FLUENT_BAD_ARGUMENT && bundle.held);
    struct FluentBundleOptions posix = fluent_bundle_options(NULL);
    check("no locale by options", posix.locale && posix.locale_len == 0 && posix.isolating && posix.stack == 0);
    fluent_bundle_free(&bundle);
}

/* Whether these are the lines of a list, each before a space. */
static bool lists(const struct FluentText *list, const char *wanted) {
    size_t len = 0;
    for (const char *line = fluent_next_line(list, NULL, &len); line; line = fluent_next_line(list, line, &len)) {
        if (strncmp(wanted, line, len) != 0 || wanted[len] != ' ')
            return false;
        wanted += len + 1;
    }
    return *wanted == 0;
}

static void try_lists(struct FluentBundle *bundle) {
    struct FluentText list = {0};
    check("no list", lists(&list, "") && lists(NULL, ""));
    check("the messages", fluent_bundle_messages(bundle, &list) == FLUENT_READ && lists(&list, "a n "));
    check("attributes", fluent_attributes(bundle, "a", &list) == FLUENT_READ && lists(&list, "title "));
    check("no attributes", fluent_attributes(bundle, "n", &list) == FLUENT_READ && lists(&list, ""));
    check("attributes of no message", fluent_attributes(bundle, NULL, &list) == FLUENT_NO_MESSAGE && holds(&list, ""));
    check("variables", fluent_variables(bundle, "n", &list) == FLUENT_READ && lists(&list, "n "));
    check("variables of no message", fluent_variables(bundle, NULL, &list) == FLUENT_NO_MESSAGE && lists(&list, "n "));
    fluent_free_text(&list);
}

static void try_tidy(void) {
    struct FluentText text = {0};
    struct FluentPlace place = {0};
    check("a tidy text", fluent_tidy_of("a  =  b", &text, NULL) == FLUENT_READ && holds(&text, "a = b\n"));
    check("damage", fluent_tidy_of("a = b\nc\n", &text, &place) == FLUENT_DAMAGED && place.line == 2 && place.column == 2
        && holds(&text, "a = b\n"));
    check("damage whose place isn't wanted", fluent_tidy_of("c", &text, NULL) == FLUENT_DAMAGED);
    check("the tidy text of NULL", fluent_tidy_of(NULL, &text, NULL) == FLUENT_READ && holds(&text, ""));
    fluent_free_text(&text);
}

static void try_outline(void) {
    struct FluentText lines = {0};
    struct FluentCounts counts = {0};
    check("an outline", fluent_outline_of(SOURCE, &lines, &counts) == FLUENT_READ && holds(&lines, "a =\n.title\nn =\n")
        && counts.messages == 2);
    check("an outline whose counts aren't wanted", fluent_outline_of("-t = T\n", &lines, NULL) == FLUENT_READ && holds(&lines, "-t =\n"));
    check("the outline of NULL", fluent_outline_of(NULL, &lines, NULL) == FLUENT_READ && holds(&lines, ""));
    fluent_free_text(&lines);
}

static void try_occurrences(void) {
    struct FluentText lines = {0};
    const char *one = "{\"definition\":true,\"end\":1,\"kind\":\"message\",\"name\":\"a\",\"owner\":null,\"start\":0}\n";
    check("occurrences", fluent_occurrences_of("a = b\n", &lines) == FLUENT_READ && holds(&lines, one));
    check("the occurrences in NULL", fluent_occurrences_of(NULL, &lines) == FLUENT_READ && holds(&lines, ""));
    fluent_free_text(&lines);
}

static void try_nodes(void) {
    struct FluentText lines = {0};
    const char *four = "Identifier 0 1\nTextElement 4 5\nPattern 4 5\nMessage 0 5\n";
    check("nodes", fluent_nodes_of("a = b\n", &lines) == FLUENT_READ && holds(&lines, four));
    check("the nodes in NULL", fluent_nodes_of(NULL, &lines) == FLUENT_READ && holds(&lines, ""));
    fluent_free_text(&lines);
}

static void try_trees(void) {
    struct FluentText source = {0};
    const char *tree = "{\"body\":[{\"content\":\"!\",\"type\":\"Junk\"}],\"syntax\":\"2\",\"type\":\"Resource\"}";
    check("a tree", fluent_write_tree_of(tree, true, &source) == FLUENT_READ && holds(&source, "!"));
    check("a tree without junk", fluent_write_tree_of(tree, false, &source) == FLUENT_READ && holds(&source, ""));
    check("the tree of NULL", fluent_write_tree_of(NULL, false, &source) == FLUENT_NOT_JSON && holds(&source, ""));
    fluent_free_text(&source);
}

static void try_lint(void) {
    struct FluentText report = {0};
    const struct FluentFile files[] = {fluent_file("de.ftl", "hi = { F() }\n"), fluent_file("", NULL)};
    const struct FluentFile reference = fluent_file("en.ftl", "hi = { F() }\n");
    struct FluentLintOptions strict = {0};
    strict.strict = true;
    check("no file", fluent_lint_of(NULL, 0, NULL, 0, NULL, &report) == FLUENT_READ && holds(&report, ""));
    check("a warning", fluent_lint_of(files, 2, NULL, 0, NULL, &report) == FLUENT_READ && report.len > 0);
    check("a warning that counts", fluent_lint_of(files, 2, NULL, 0, &strict, &report) == FLUENT_HAS_ERRORS);
    check("a function of the reference", fluent_lint_of(files, 1, &reference, 1, &strict, &report) == FLUENT_READ);
    fluent_free_text(&report);
}

/* What frees does nothing with NULL, and with what was freed. */
static void try_freeing(struct FluentBundle *bundle) {
    struct FluentText text = {0};
    fluent_free_text(NULL);
    fluent_bundle_free(NULL);
    fluent_free_answers(NULL);
    fluent_free_call(NULL);
    check("a text", fluent_format(bundle, "a", NULL, NULL, 0, &text, NULL) == FLUENT_READ && text.held);
    fluent_free_text(&text);
    fluent_free_text(&text);
    check("no text", !text.held);
    fluent_bundle_free(bundle);
    fluent_bundle_free(bundle);
    check("no bundle", !bundle->held);
}

/* A source whose message `b`, on line 4, has this many placeables, one in the other. */
static const char *nested(size_t levels) {
    static char text[4000];
    char *end = text + sprintf(text, "c = d\n\n# Deep\nb = ");
    memset(end, '{', levels);
    memset(end + levels, '1', 1);
    memset(end + levels + 1, '}', levels);
    strcpy(end + 2 * levels + 1, "\ne = f\n");
    return text;
}

static void try_depth(void) {
    struct FluentSource sources[2] = {{0}, {0}};
    struct FluentBundle bundle = {0};
    const char *texts[] = {"a = A\n", nested(1430)};
    for (size_t each = 0; each < 2; each++) {
        sources[each].text = fluent_bytes(texts[each]);
        sources[each].len = fluent_len(texts[each]);
    }
    check("a source that nests too deep", fluent_bundle_of(texts[1], NULL, false, &bundle) == FLUENT_NO_MEMORY);
    check("which one", fluent_deep_source(sources, 2) == 1 && fluent_deep_source(sources, 1) == 1);
    check("its line", fluent_deep_line(&sources[1]) == 4 && fluent_deep_line(&sources[0]) == 0);
    sources[1].text = fluent_bytes(nested(1429));
    sources[1].len = fluent_len(nested(1429));
    check("none of them", fluent_deep_source(sources, 2) == 2 && fluent_deep_line(&sources[1]) == 0);
    fluent_bundle_free(&bundle);
}

int main(void) {
    struct FluentBundle bundle = {0};
    struct FluentCounts counts = {0};
    check("a locale", fluent_bundle_of(SOURCE, "x", false, &bundle) == FLUENT_UNKNOWN_LOCALE && !bundle.held);
    for (const char *const *locale = POSIX; *locale; locale++)
        check(*locale, fluent_bundle_of(SOURCE, *locale, false, &bundle) == FLUENT_READ
            && shows(&bundle, fluent_integer_argument("n", 1), "1 other"));
    check("rules of its own", fluent_has_plural_rules(fluent_bytes("pt_AO"), 5));
    check("rules of the root", !fluent_has_plural_rules(fluent_bytes("oc"), 2)
        && fluent_bundle_of(SOURCE, "oc", false, &bundle) == FLUENT_READ
        && shows(&bundle, fluent_integer_argument("n", 1), "1 other"));
    check("rules of a program without a locale", fluent_has_plural_rules(fluent_bytes("C"), 1));
    check("no tag has rules", !fluent_has_plural_rules(fluent_bytes("pl pl"), 5));
    check("the version", fluent_version() == FLUENT_VERSION);
    check("a bundle", fluent_bundle_of(SOURCE, NULL, false, &bundle) == FLUENT_READ && bundle.held);
    check("counts", fluent_parse(fluent_bytes(SOURCE), fluent_len(SOURCE), &counts) == FLUENT_READ && counts.messages == 2);
    try_formats(&bundle);
    try_arguments(&bundle);
    try_options();
    try_depth();
    try_lists(&bundle);
    try_tidy();
    try_outline();
    try_occurrences();
    try_nodes();
    try_trees();
    try_lint();
    check("a value is there", fluent_has(&bundle, "a", NULL) == FLUENT_READ);
    check("an attribute isn't", fluent_has(&bundle, "n", "title") == FLUENT_NO_PATTERN);
    try_freeing(&bundle);
    check("a bundle isn't there", fluent_has(&bundle, "a", NULL) == FLUENT_NO_BUNDLE);
    for (uint32_t status = FLUENT_READ; status <= FLUENT_NOT_TREE; status++)
        check("the words of a status", strcmp(fluent_status_text(status), fluent_status_text(99)) != 0);
    printf("fluent.h: %u tried, %u wrong\n", tried, wrong);
    return wrong == 0 ? 0 : 1;
}
