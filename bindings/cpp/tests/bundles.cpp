// One bundle: its answers, its lists, what it throws, and how it is moved.
#include <type_traits>

#include "check.hpp"
#include "fluent.hpp"
#include "tests.hpp"

namespace {

const char messages_source[] =
    "hello = Hello, { $name }!\n"
    "    .title = A greeting\n"
    "    .about = To { $name } from { $other }\n"
    "unread = { $count ->\n"
    "    [one] One message\n"
    "   *[other] { $count } messages\n"
    "}\n"
    "-brand = Kozhvadi\n"
    "alone =\n"
    "    .title = No value\n"
    "share = { $share }\n";

std::string joined(const std::vector<std::string> &lines) {
    std::string made;
    for (const std::string &line : lines)
        made += line + ';';
    return made;
}

fluent::settings without_marks(const char *locale) { return fluent::settings(locale).with_isolating(false); }

void answers() {
    const fluent::bundle marked(messages_source, "en");
    SAME(marked.format("hello", {{"name", "Jane"}}), "Hello, \u2068Jane\u2069!");
    const fluent::bundle bundle(messages_source, without_marks("en"));
    SAME(bundle.format("hello", {{"name", "Jane"}}), "Hello, Jane!");
    SAME(bundle.format("hello", {{"name", std::string("Jane")}}, "title"), "A greeting");
    SAME(bundle.format("unread", {{"count", 1}}), "One message");
    SAME(bundle.format("unread", {{"count", 1234u}}), "1,234 messages");
    SAME(bundle.format("unread", {{"count", fluent::decimal{"1.0"}}}), "1.0 messages");
    SAME(bundle.format("unread", {{"count", "1"}}), "1 messages");
    SAME(bundle.format("unread", {{"count", true ? 'a' : 'b'}}), "97 messages");
    const std::vector<fluent::argument> kept{{"name", "Jane"}, {"other", "Ann"}};
    SAME(bundle.format("hello", kept, "about"), "To Jane from Ann");
    SAME(bundle.format("share", {{"share", INT64_MIN}}), "-9,223,372,036,854,775,808");
    SAME(bundle.format("share", {{"share", UINT64_MAX}}), "18,446,744,073,709,551,615");
    SAME(bundle.format("share", {{"share", 0.5}}), "0.5");
    SAME(bundle.format("share", {{"share", 1e22}}), "1e+22");
    SAME(bundle.format("share", {{"share", fluent::value()}}), "");
    SAME(bundle.format("share", {{"share", fluent::value("text")}}), "text");
    const fluent::bundle polish(std::vector<std::string_view>{messages_source, "last = koniec\n"}, without_marks("pl"));
    SAME(polish.format("unread", {{"count", 1234567.5}}), "1\u00a0234\u00a0567,5 messages");
    SAME(polish.format("last"), "koniec");
    const fluent::bundle listed({"a = 1\n", "b = 2\n"});
    SAME(listed.format("a") + listed.format("b"), "12");
}

void errors() {
    const fluent::bundle bundle(messages_source, without_marks("en"));
    const auto given = bundle.try_format("hello");
    SAME(given.has_value(), true);
    SAME(given->text, "Hello, {$name}!");
    SAME(joined(given->errors), "Unknown variable: $name;");
    SAME(bundle.try_format("missing").why() == fluent::status::no_message, true);
    SAME(bundle.try_format("missing").value_or({"?", {}}).text, "?");
    SAME(bundle.try_format("alone").why() == fluent::status::no_pattern, true);
    THROWS(no_message, bundle.format("missing"));
    THROWS(no_message, bundle.try_format("-brand").value());
    THROWS(no_pattern, bundle.format("hello", {}, "missing"));
    THROWS(bad_argument, bundle.format("hello", {{"name", fluent::decimal{"1,5"}}}));
    THROWS(not_utf8, bundle.format("hello", {{"name", "\xff"}}));
    THROWS(not_utf8, fluent::bundle("a = \xff\n"));
    THROWS(unknown_locale, fluent::bundle(messages_source, "not a locale"));
    try {
        bundle.format("missing");
    } catch (const std::exception &thrown) {
        SAME(std::string(thrown.what()), "the message 'missing': there is no message of the id");
    }
    const fluent::bundle damaged("a = 1\nb\na = 2\n");
    SAME(damaged.errors().size(), 2u);
    SAME(damaged.format("a"), "1");
    SAME(fluent::bundle("a = 1\na = 2\n", fluent::settings().with_overriding(true)).format("a"), "2");
    const fluent::bundle plain("a = { 1234.5 }\n", without_marks("de").with_plain_numbers(true).with_stack(2000000));
    SAME(plain.format("a"), "1234.5");
    SAME(bundle.errors().size(), 0u);
}

void lists() {
    const fluent::bundle bundle(messages_source, "en");
    SAME(joined(bundle.messages()), "hello;unread;alone;share;");
    SAME(joined(bundle.attributes("hello")), "title;about;");
    SAME(joined(bundle.attributes("unread")), "");
    SAME(joined(bundle.variables("hello")), "name;other;");
    THROWS(no_message, bundle.variables("missing"));
    SAME(bundle.has("hello"), true);
    SAME(bundle.has("alone"), false);
    SAME(bundle.has("alone", "title"), true);
    SAME(bundle.has("missing"), false);
}

void moves() {
    static_assert(!std::is_constructible_v<fluent::argument, const char *, bool>);
    static_assert(!std::is_constructible_v<fluent::value, bool>);
    static_assert(!std::is_copy_constructible_v<fluent::bundle> && !std::is_copy_assignable_v<fluent::bundle>);
    static_assert(std::is_nothrow_move_constructible_v<fluent::bundle>);
    static_assert(std::is_nothrow_move_assignable_v<fluent::bundle>);
    static_assert(!std::is_copy_constructible_v<fluent::localization> && std::is_move_constructible_v<fluent::localization>);
    fluent::bundle first(messages_source, without_marks("en")), other("a = 1\n");
    fluent::bundle second(std::move(first));
    SAME(second.format("hello", {{"name", "Jane"}}), "Hello, Jane!");
    SAME(first.has("hello"), false);
    SAME(first.try_format("hello").why() == fluent::status::no_bundle, true);
    THROWS(no_bundle, first.messages());
    other = std::move(second);
    SAME(other.has("a"), false);
    SAME(other.has("hello"), true);
    first = std::move(other);
    SAME(first.has("hello"), true);
}

// An empty text and an empty list have null pointers in C++.
void null_pointers() {
    const std::string_view none;
    SAME(none.data() == nullptr, true);
    const fluent::bundle empty(none), nothing(std::vector<std::string_view>{}), two(std::vector<std::string_view>{none, none});
    SAME(empty.messages().size() + nothing.messages().size() + two.messages().size(), 0u);
    THROWS(no_message, empty.format(none, std::vector<fluent::argument>{}, none));
    SAME(empty.has(none, none), false);
    THROWS(no_message, empty.attributes(none));
    const fluent::bundle bundle("a = [{ $b }]\n", without_marks(""));
    SAME(bundle.format("a", {{"b", none}}), "[]");
    SAME(bundle.format("a", {{none, none}}), "[{$b}]");
    SAME(bundle.format("a", {{"b", nullptr}}), "[]");
    const char *const missing = nullptr;
    SAME(bundle.format("a", {{"b", fluent::value(missing)}}), "[]");
    SAME(fluent::negotiate({}, {}).size(), 0u);
    SAME(fluent::negotiate({""}, {""}).size(), 0u);
}

} // namespace

void test_bundles() {
    answers();
    errors();
    lists();
    moves();
    null_pointers();
}
