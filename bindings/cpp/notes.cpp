// A program for notes with a menu, in the languages of its user.
//
//     notes FOLDER
//
// FOLDER has a folder for each language, such as `de`, with a file notes.ftl. The languages are those that the system asks
// for; a text that they lack is in English. The keys of the menu are texts too, so each language has its own. A line of input
// is a key, or a key, a blank and a note. Build and run it by run.sh beside this file.
#include <iostream>
#include <string>
#include <vector>

#include "fluent.hpp"

namespace {

// What the menu offers: each is a message, whose attribute is its key.
enum class action { add, remove, quit, unknown };

struct menu_item {
    action does;
    const char *message;
};

constexpr menu_item menu[] = {
    {action::add, "menu-new"},
    {action::remove, "menu-remove"},
    {action::quit, "menu-quit"},
};

// The texts of the program. Only here is it known how they are found.
class texts {
public:
    explicit texts(const std::filesystem::path &folder)
        : texts_(fluent::localization::load(
              folder, {"notes.ftl"}, fluent::system_languages(), "en",
              // A terminal shows isolation marks on the screen. A window of a toolkit doesn't: there, leave them.
              fluent::settings().with_isolating(false), {{"USER", user}})) {}

    template <class... Arguments>
    std::string operator()(std::string_view id, const Arguments &...arguments) const {
        return texts_.format(id, std::vector<fluent::argument>{arguments...});
    }

    std::string key_of(const menu_item &item) const { return texts_.format(item.message, {}, "key"); }

    action action_of(std::string_view key) const {
        for (const menu_item &item : menu)
            if (key_of(item) == key)
                return item.does;
        return action::unknown;
    }

    // What translators should mend, for the log of the program.
    void report_to(std::ostream &log) const {
        for (const std::string &locale : texts_.locales())
            for (const std::string &line : texts_.of(locale)->errors())
                log << locale << ": " << line << '\n';
    }

private:
    // A function that texts call.
    static fluent::value user(const fluent::call &) {
        const char *name = std::getenv("USER");
        return name ? fluent::value(name) : fluent::value("friend");
    }

    fluent::localization texts_;
};

// The window: here it is the terminal.
class window {
public:
    explicit window(const texts &texts) : text_(texts) {}

    void show(const std::vector<std::string> &notes) const {
        std::cout << "== " << text_("window-title", fluent::argument("file", "notes.txt")) << " ==\n";
        for (const menu_item &item : menu)
            std::cout << '[' << text_.key_of(item) << "] " << text_(item.message) << "  ";
        std::cout << '\n' << text_("notes", fluent::argument("count", notes.size())) << '\n';
        for (std::size_t each = 0; each < notes.size(); each++)
            std::cout << text_("note", fluent::argument("number", each + 1), fluent::argument("text", notes[each])) << '\n';
        const double share = static_cast<double>(notes.size()) / 8;
        std::cout << text_("room", fluent::argument("share", share)) << '\n';
    }

    void say(const std::string &text) const { std::cout << text << '\n'; }

private:
    const texts &text_;
};

// Removes the note of a number, counted from 1. Gives whether there is one.
bool remove(std::vector<std::string> &notes, const std::string &number) {
    const std::size_t place = std::strtoul(number.c_str(), nullptr, 10);
    if (place < 1 || place > notes.size())
        return false;
    notes.erase(notes.begin() + static_cast<std::ptrdiff_t>(place) - 1);
    return true;
}

void run(const texts &text) {
    const window window(text);
    std::vector<std::string> notes;
    window.show(notes);
    for (std::string line; std::getline(std::cin, line);) {
        const std::string key = line.substr(0, line.find(' '));
        const std::string rest = line.substr(std::min(key.size() + 1, line.size()));
        switch (text.action_of(key)) {
        case action::add:
            notes.push_back(rest);
            break;
        case action::remove:
            if (!remove(notes, rest))
                window.say(text("no-such-note", fluent::argument("number", rest)));
            break;
        case action::quit:
            return window.say(text("goodbye"));
        case action::unknown:
            window.say(text("unknown-key", fluent::argument("key", key)));
            break;
        }
        window.show(notes);
    }
}

} // namespace

int main(int count, char **words) {
    if (count != 2) {
        std::cerr << "usage: notes FOLDER\n";
        return 2;
    }
    try {
        const texts text(words[1]);
        text.report_to(std::cerr);
        run(text);
    } catch (const std::exception &thrown) {
        std::cerr << "notes: " << thrown.what() << '\n';
        return 1;
    }
}
