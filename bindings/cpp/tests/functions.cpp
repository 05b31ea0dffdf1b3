// Functions of the program that messages call.
#include "check.hpp"
#include "fluent.hpp"
#include "tests.hpp"

namespace {

const char calling_source[] =
    "platform = { PLATFORM() }\n"
    "due = { DATE(\"2026-11-28\", style: \"long\") }\n"
    "given = { SHOW($first, $second, key: 1.50) }\n"
    "nested = { JOIN(JOIN(\"a\", \"b\"), \"c\") }\n"
    "twice = { COUNT() } { COUNT() } { COUNT(1) }\n"
    "odd = { SHOW(\"quote \\\" and \\\\ and \\u00e9 \\U01F602\", $control) }\n"
    "nothing = { NONE() }\n"
    "chosen = { NUMBER_OF(1) ->\n"
    "    [one] one\n"
    "   *[other] other\n"
    "}\n"
    "thrown = { THROW() }\n"
    "inner = { INNER() }\n"
    "unknown = { UNKNOWN() }\n"
    "plain = Plain\n";

// The arguments of a call, in brackets.
fluent::value show(const fluent::call &call) {
    std::string shown;
    for (const fluent::value &each : call.positional)
        shown += '[' + each.text() + ']';
    for (const auto &[name, each] : call.named)
        shown += name + "=[" + each.text() + ']';
    return shown;
}

fluent::bundle made(int &count, const fluent::bundle *&inner) {
    fluent::settings settings("en");
    settings.isolating = false;
    return fluent::bundle(
        calling_source, settings,
        {
            {"PLATFORM", [](const fluent::call &) { return "linux"; }},
            {"DATE", [](const fluent::call &call) { return call.at("style").text() + ' ' + call.at(0).text(); }},
            {"SHOW", show},
            {"JOIN", [](const fluent::call &call) { return call.at(0).text() + call.at(1).text(); }},
            {"COUNT", [&count](const fluent::call &) { return ++count; }},
            {"NONE", [](const fluent::call &) { return fluent::value(); }},
            {"NUMBER_OF", [](const fluent::call &call) { return *call.at(0).number(); }},
            {"THROW", [](const fluent::call &) -> fluent::value { throw std::logic_error("thrown"); }},
            {"INNER", [&inner](const fluent::call &) { return inner->format("plain"); }},
        });
}

} // namespace

void test_functions() {
    int count = 0;
    const fluent::bundle *inner = nullptr;
    const fluent::bundle bundle = made(count, inner);
    inner = &bundle;
    SAME(bundle.format("platform"), "linux");
    SAME(bundle.format("due"), "long 2026-11-28");
    SAME(bundle.format("given", {{"first", "text"}, {"second", 2.5}}), "[text][2.5]key=[1.50]");
    SAME(bundle.format("given", {{"first", fluent::value()}, {"second", -3}}), "[][-3]key=[1.50]");
    SAME(bundle.format("nested"), "abc");
    SAME(bundle.format("twice"), "1 1 2");
    const std::string control("\0\x01\n\t\r\b\f/", 8);
    SAME(bundle.format("odd", {{"control", control}}), "[quote \" and \\ and \u00e9 \U0001F602][" + control + ']');
    const auto nothing = bundle.try_format("nothing");
    SAME(nothing->text, "NONE()");
    SAME(bundle.format("chosen"), "one");
    bool is_thrown = false;
    try {
        bundle.format("thrown");
    } catch (const std::logic_error &) {
        is_thrown = true;
    }
    SAME(is_thrown, true);
    SAME(bundle.format("inner"), "Plain");
    SAME(bundle.try_format("unknown")->errors.size(), 1u);
    SAME(fluent::value("1").number().has_value(), false);
    SAME(*fluent::value(1.25).number(), 1.25);
    SAME(fluent::value(std::uint64_t{7}).text(), "7");
    SAME(fluent::value().has_value(), false);
}
