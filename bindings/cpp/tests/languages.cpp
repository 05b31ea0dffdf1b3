// Languages: which suit a user, which the system asks for, and texts that come from the next one.
#include <cstdlib>

#include "check.hpp"
#include "fluent.hpp"
#include "tests.hpp"

namespace {

std::string spaced(const std::vector<std::string> &tags) {
    std::string made;
    for (const std::string &tag : tags)
        made += tag + ' ';
    return made;
}

// The languages that the system asks for, if these variables are set.
std::string asked(const char *language, const char *all, const char *messages, const char *lang) {
    setenv("LANGUAGE", language, 1);
    setenv("LC_ALL", all, 1);
    setenv("LC_MESSAGES", messages, 1);
    setenv("LANG", lang, 1);
    return spaced(fluent::system_languages());
}

void of_the_system() {
    SAME(fluent::tag_of_posix("de_AT.UTF-8@euro"), "de-AT");
    SAME(fluent::tag_of_posix("sr_RS@latin"), "sr-Latn-RS");
    SAME(fluent::tag_of_posix("sr@latin"), "sr-Latn");
    SAME(fluent::tag_of_posix("ca_ES@valencia"), "ca-ES-valencia");
    SAME(fluent::tag_of_posix("C.UTF-8"), "");
    SAME(fluent::tag_of_posix(""), "");
    SAME(asked("de_AT:fr", "", "", "de_AT.UTF-8"), "de-AT fr ");
    SAME(asked(":de::C:fr:", "", "", "de_AT.UTF-8"), "de fr ");
    SAME(asked("", "", "pl_PL.UTF-8", "de_AT.UTF-8"), "pl-PL ");
    SAME(asked("", "fr", "pl", "de"), "fr ");
    SAME(asked("de", "C", "", "de"), "");
    SAME(asked("", "", "", ""), "");
}

void negotiated() {
    SAME(spaced(fluent::negotiate({"de-AT", "fr"}, {"en-US", "de", "fr"})), "de fr ");
    SAME(spaced(fluent::negotiate({"de-AT", "fr"}, {"en-US", "de", "fr"}, fluent::strategy::lookup)), "de ");
    SAME(spaced(fluent::negotiate({"pl"}, {"en-US", "de"})), "");
}

void loaded(const std::string &folder) {
    fluent::settings settings;
    settings.isolating = false;
    const auto texts = fluent::localization::load(folder, {"main.ftl", "missing.ftl"}, {"de-AT", "fr"}, "en-US", settings);
    SAME(spaced(texts.locales()), "de fr en-US ");
    SAME(texts.format("welcome", {{"name", "Jane"}}), "Willkommen, Jane.");
    SAME(texts.format("missing"), "missing");
    SAME(texts.try_format("missing").why() == fluent::status::no_message, true);
    SAME(texts.of("fr")->has("missing"), false);
    SAME(texts.of("pl") == nullptr, true);
    THROWS(not_utf8, texts.format("\xff"));
    bool is_thrown = false;
    try {
        fluent::localization::load(folder + "/nowhere", {"main.ftl"}, {}, "en-US");
    } catch (const std::filesystem::filesystem_error &) {
        is_thrown = true;
    }
    SAME(is_thrown, true);
    THROWS(no_message, fluent::localization::load(folder, {"missing.ftl"}, {}, "en-US"));
}

void added() {
    fluent::localization texts;
    SAME(texts.format("hello"), "hello");
    texts.add("de", {"hello = Hallo\nonly =\n    .title = Titel\n"});
    texts.add("x-none", {"count = { $n }\n"}, fluent::settings().with_isolating(false));
    texts.add("en", {"hello = Hello\nbye = Bye\nonly = Only\n"});
    SAME(texts.format("hello"), "Hallo");
    SAME(texts.try_format("bye")->locale, "en");
    SAME(texts.format("only"), "Only");
    SAME(texts.format("only", {}, "title"), "Titel");
    SAME(texts.has("only", "title"), true);
    SAME(texts.has("nothing"), false);
    SAME(texts.format("count", {{"n", 1234.5}}), "1234.5");
    THROWS(not_utf8, texts.add("fr", {"a = \xff\n"}));
    SAME(spaced(texts.locales()), "de x-none en ");
}

} // namespace

void test_languages(const std::string &folder) {
    of_the_system();
    negotiated();
    loaded(folder);
    added();
}
