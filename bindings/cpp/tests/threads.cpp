// Eight threads over all that threads may share: a bundle, with and without functions, and texts in several languages,
// of which each thread also has its own.
#include <thread>

#include "check.hpp"
#include "fluent.hpp"
#include "tests.hpp"

namespace {

constexpr int THREADS = 8, ROUNDS = 500;

// Calls `run(thread)` in threads, and waits for them.
template <class Run>
void in_threads(Run run) {
    std::vector<std::thread> threads;
    for (int thread = 0; thread < THREADS; thread++)
        threads.emplace_back([&run, thread] { run(thread); });
    for (std::thread &thread : threads)
        thread.join();
}

void of_a_bundle() {
    std::atomic<int> calls{0};
    fluent::settings settings("en");
    settings.isolating = false;
    const fluent::bundle bundle(
        "plain = { $n } of thread { $thread }\n    .title = Title\n"
        "called = { DOUBLE($n) } of thread { $thread }\n",
        settings, {{"DOUBLE", [&calls](const fluent::call &call) {
                        ++calls;
                        return 2 * *call.at(0).number();
                    }}});
    in_threads([&bundle](int thread) {
        const std::string of = " of thread " + std::to_string(thread);
        for (int each = 0; each < ROUNDS; each++) {
            SAME(bundle.format("plain", {{"n", each}, {"thread", thread}}), std::to_string(each) + of);
            const std::string doubled = bundle.format("called", {{"n", each}, {"thread", thread}});
            if (2 * each < 1000)
                SAME(doubled, std::to_string(2 * each) + of);
            SAME(bundle.has("plain"), true);
            SAME(bundle.try_format("plain", {{"thread", thread}})->errors.front(), "Unknown variable: $n");
        }
        SAME(bundle.messages().size(), 2U);
        SAME(bundle.attributes("plain").front(), "title");
        SAME(bundle.variables("called").size(), 2U);
        SAME(bundle.errors().size(), 0U);
    });
    SAME(calls.load(), THREADS * ROUNDS);
}

void of_languages() {
    const fluent::settings settings = fluent::settings().with_isolating(false);
    fluent::localization texts;
    texts.add("de", {"hello = Hallo, { $name }\n"}, settings);
    texts.add("en", {"hello = Hello\nbye = Bye, { $name }\non = { DATETIME($day, dateStyle: \"long\") }\n"}, settings);
    in_threads([&texts, &settings](int thread) {
        const std::string name = "thread " + std::to_string(thread);
        const std::string day = "November " + std::to_string(1 + thread) + ", 2026";
        fluent::localization own;
        own.add("en", {"hello = Hello, { $name }\n"}, settings);
        for (int each = 0; each < ROUNDS; each++) {
            SAME(texts.format("hello", {{"name", name}}), "Hallo, " + name);
            SAME(texts.format("bye", {{"name", name}}), "Bye, " + name);
            SAME(texts.try_format("bye", {{"name", name}})->locale, "en");
            SAME(texts.format("on", {{"day", fluent::date(2026, 11, static_cast<unsigned>(1 + thread))}}), day);
            SAME(texts.has("nothing"), false);
            SAME(own.format("hello", {{"name", name}}), "Hello, " + name);
        }
        SAME(texts.of("en")->messages().size(), 3U);
        SAME(fluent::negotiate({"de-AT"}, texts.locales()).front(), "de");
    });
}

} // namespace

void test_threads() {
    of_a_bundle();
    of_languages();
}
