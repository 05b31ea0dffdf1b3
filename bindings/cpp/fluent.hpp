// Fluent for C++17: the texts of messages, as std::string, in the languages of a program's user.
//
// One header over fluent_c.h, and nothing to build: it is tested, and the calls below it are proved. A bundle has the
// texts of one language, and a localization those of several, the one that a user prefers first. Both are moved and never
// copied, and any thread may ask them. What can't be done is an exception, fluent::error; each call that throws one has
// its like, whose name begins with `try_`, which gives an expected instead.
//
//     fluent::bundle inbox("unread = { $count } messages are unread.\n", "en-GB");
//     std::cout << inbox.format("unread", {{"count", 3}}) << '\n';
//
// It needs a standard library that writes doubles by std::to_chars: that of GCC 11, or a later one.
#ifndef FLUENT_HPP
#define FLUENT_HPP

#include <algorithm>
#include <charconv>
#include <chrono>
#include <cmath>
#include <cstddef>
#include <cstdint>
#include <cstdlib>
#include <filesystem>
#include <fstream>
#include <functional>
#include <initializer_list>
#include <iterator>
#include <limits>
#include <map>
#include <memory>
#include <mutex>
#include <optional>
#include <random>
#include <stdexcept>
#include <string>
#include <string_view>
#include <type_traits>
#include <utility>
#include <variant>
#include <vector>

#include "fluent_c.h"

namespace fluent {

// What a call returns: the numbers of fluent_c.h, which says when each comes.
enum class status : std::uint32_t {
    read = FLUENT_READ,
    not_utf8 = FLUENT_NOT_UTF8,
    no_memory = FLUENT_NO_MEMORY,
    unknown_locale = FLUENT_UNKNOWN_LOCALE,
    no_message = FLUENT_NO_MESSAGE,
    no_pattern = FLUENT_NO_PATTERN,
    bad_argument = FLUENT_BAD_ARGUMENT,
    no_bundle = FLUENT_NO_BUNDLE,
    has_errors = FLUENT_HAS_ERRORS,
    damaged = FLUENT_DAMAGED,
    carriage_return = FLUENT_CARRIAGE_RETURN,
    not_tidy = FLUENT_NOT_TIDY,
    call = FLUENT_CALL,
    not_json = FLUENT_NOT_JSON,
    not_tree = FLUENT_NOT_TREE,
};

// What a status says. It is for programmers, in English, without a full stop.
inline const char *words_of(status why) noexcept {
    switch (why) {
    case status::read:
        return "the call did what it is for";
    case status::not_utf8:
        return "a text isn't UTF-8";
    case status::no_memory:
        return "memory was refused, or it nests too deep for the budget of the stack";
    case status::unknown_locale:
        return "the locale is no tag of a language";
    case status::no_message:
        return "there is no message of the id";
    case status::no_pattern:
        return "the message has no value, or no attribute of the name";
    case status::bad_argument:
        return "what was passed isn't valid: an argument's kind or decimal, the size of options, a date, or the text of a call";
    case status::no_bundle:
        return "there is no bundle";
    case status::has_errors:
        return "the report has an error, or a warning that counts";
    case status::damaged:
        return "the source can't be read somewhere";
    case status::carriage_return:
        return "the source has a carriage return that ends no line";
    case status::not_tidy:
        return "the source has no tidy text";
    case status::call:
        return "a call of a function has no answer yet";
    case status::not_json:
        return "the text isn't JSON, or is nested too deep";
    case status::not_tree:
        return "no tree has the value of the JSON text";
    }
    return "no call returns this number";
}

// What is thrown if something can't be done: a status, and of what it is.
class error : public std::runtime_error {
public:
    explicit error(status why) : std::runtime_error(words_of(why)), why_(why) {}
    error(status why, const std::string &of) : std::runtime_error(of + ": " + words_of(why)), why_(why) {}

    status why() const noexcept { return why_; }

private:
    status why_;
};

// What a call gives, or the status that says why it gives nothing.
template <class T>
class expected {
public:
    expected(T given) : held_(std::in_place_index<0>, std::move(given)) {}
    expected(status why) : held_(std::in_place_index<1>, why) {}

    bool has_value() const noexcept { return held_.index() == 0; }
    explicit operator bool() const noexcept { return has_value(); }

    // Why nothing is given: status::read if something is.
    status why() const noexcept { return has_value() ? status::read : *std::get_if<1>(&held_); }

    // What is given. Without it they throw an error.
    T &value() & { return checked(), *std::get_if<0>(&held_); }
    const T &value() const & { return checked(), *std::get_if<0>(&held_); }
    T &&value() && { return checked(), std::move(*std::get_if<0>(&held_)); }

    // What is given, which has to be there.
    T &operator*() noexcept { return *std::get_if<0>(&held_); }
    const T &operator*() const noexcept { return *std::get_if<0>(&held_); }
    T *operator->() noexcept { return std::get_if<0>(&held_); }
    const T *operator->() const noexcept { return std::get_if<0>(&held_); }

    // What is given, or another in its place.
    T value_or(T other) const & { return has_value() ? **this : std::move(other); }
    T value_or(T other) && { return has_value() ? std::move(**this) : std::move(other); }

private:
    void checked() const {
        if (!has_value())
            throw error(why());
    }

    std::variant<T, status> held_;
};

// A number as its digits, such as "1.50", which keeps its digits after the point.
struct decimal {
    std::string digits;
};

namespace detail {

// The first byte of a text. An empty one may have a null pointer, which the library isn't given.
inline const std::uint8_t *bytes(std::string_view text) noexcept {
    return reinterpret_cast<const std::uint8_t *>(text.data() ? text.data() : "");
}

inline FluentSource source(std::string_view text) noexcept {
    FluentSource made{};
    made.text = bytes(text);
    made.len = text.size();
    return made;
}

// The first of a list. An empty one may have a null pointer, which the library isn't given.
template <class T>
const T *first(const std::vector<T> &list) noexcept {
    static const T none{};
    return list.empty() ? &none : list.data();
}

template <class Texts>
std::vector<FluentSource> sources(const Texts &texts) {
    std::vector<FluentSource> made;
    for (std::string_view text : texts)
        made.push_back(source(text));
    return made;
}

inline status status_of(std::uint32_t number) noexcept { return static_cast<status>(number); }

// A text that the library made, or none.
class text {
public:
    text() noexcept = default;
    text(text &&other) noexcept : text_(std::exchange(other.text_, {})) {}
    text &operator=(text &&other) noexcept { return std::swap(text_, other.text_), *this; }
    ~text() { fluent_free_text(&text_); }

    FluentText *put() noexcept { return &text_; }
    std::string_view view() const noexcept {
        return text_.held ? std::string_view(reinterpret_cast<const char *>(text_.bytes), text_.len) : std::string_view();
    }

private:
    FluentText text_{};
};

// Each line of a text. The last line feed ends one, and begins none.
inline std::vector<std::string> lines(std::string_view text) {
    std::vector<std::string> made;
    for (std::size_t end = text.find('\n'); end != text.npos; end = text.find('\n')) {
        made.emplace_back(text.substr(0, end));
        text.remove_prefix(end + 1);
    }
    return made;
}

// Adds one to a number by its digits.
inline void add_one(std::string &digits) {
    std::size_t at = digits.size();
    while (at > 0 && digits[at - 1] == '9')
        digits[--at] = '0';
    if (at == 0)
        digits.insert(digits.begin(), '1');
    else
        ++digits[at - 1];
}

// The digits of a double that is at least 0 and below 2^64: the shortest decimal that is read as the same double, rounded
// to 18 digits after the point. `shown` is it with a power of ten, such as 1.5e-07.
inline std::string plain_digits(std::string_view shown) {
    constexpr std::size_t most = 18;
    const std::size_t sign = shown.find('e');
    int power = 0;
    const std::size_t begin = sign + (shown[sign + 1] == '+' ? 2 : 1);
    std::from_chars(shown.data() + begin, shown.data() + shown.size(), power);
    std::string digits(shown.substr(0, 1));
    if (sign > 2)
        digits += shown.substr(2, sign - 2);
    if (power < 0)
        digits.insert(0, static_cast<std::size_t>(-power), '0');
    std::size_t whole = power < 0 ? 1 : static_cast<std::size_t>(power) + 1;
    digits.resize(std::max(digits.size(), whole), '0');
    if (digits.size() > whole + most) {
        const bool is_up = digits[whole + most] >= '5';
        digits.resize(whole + most);
        const std::size_t before = digits.size();
        if (is_up)
            add_one(digits);
        whole += digits.size() - before;
    }
    digits.insert(whole, 1, '.');
    digits.erase(digits.find_last_not_of('0') + 1);
    if (digits.back() == '.')
        digits.pop_back();
    return digits;
}

// The digits of a double, which don't say how many of them are shown.
struct float_digits {
    std::string digits;
};

// A double by its digits, or as a text if it is infinite, no number, or 2^64 or more on either side of 0.
inline std::variant<float_digits, std::string> of_double(double number) {
    if (std::isnan(number))
        return std::string("nan");
    const double distance = std::fabs(number);
    const std::string sign = number < 0 ? "-" : "";
    if (std::isinf(number))
        return sign + "inf";
    char shown[40];
    const auto end = std::to_chars(shown, shown + sizeof shown, distance, std::chars_format::scientific).ptr;
    const std::string_view written(shown, static_cast<std::size_t>(end - shown));
    if (distance >= 18446744073709551616.0)
        return sign + std::string(written);
    const std::string digits = plain_digits(written);
    return float_digits{digits == "0" ? digits : sign + digits};
}

template <class T>
constexpr bool is_signed_number = std::is_integral_v<T> && std::is_signed_v<T> && !std::is_same_v<T, bool>;
template <class T>
constexpr bool is_unsigned_number = std::is_integral_v<T> && std::is_unsigned_v<T> && !std::is_same_v<T, bool>;

} // namespace detail

// A date, its time if it has one, and how it is shown. Your program converts time zones: a date has the numbers that its
// clock shows, and how far that is ahead of UTC, if that is known.
//
//     const auto now = fluent::date(std::chrono::system_clock::now(), std::chrono::hours(1));
//     inbox.format("received", {{"date", now.with("dateStyle", "long")}});
class date {
public:
    // The options by their names: texts, and numbers for `fractionalSecondDigits`.
    using named = std::map<std::string, std::variant<std::string, std::int64_t>, std::less<>>;

    // A date without a time. The year 0 is 1 BC.
    date(int year, unsigned month, unsigned day) noexcept {
        numbers_.year = bounded<std::int16_t>(year);
        numbers_.month = bounded<std::uint8_t>(month);
        numbers_.day = bounded<std::uint8_t>(day);
    }
    // The date and the time that a clock shows which is this much ahead of UTC. Of a zoned_time it is `get_sys_time()` and
    // `get_info().offset`.
    explicit date(
        std::chrono::system_clock::time_point when, std::chrono::seconds ahead = std::chrono::seconds(0)) noexcept {
        using namespace std::chrono;
        const auto since = duration_cast<nanoseconds>(when.time_since_epoch());
        auto second = duration_cast<seconds>(since);
        if (second > since)
            second -= seconds(1);
        const std::int64_t shown = second.count() + ahead.count();
        const std::int64_t days = shown / 86400 - (shown % 86400 < 0), of_day = shown - days * 86400;
        *this = of_days(days).at(of_day / 3600, of_day / 60 % 60, of_day % 60, (since - second).count()).on(ahead);
    }
#if __cplusplus >= 202002L
    explicit date(const std::chrono::year_month_day &day) noexcept
        : date(int(day.year()), unsigned(day.month()), unsigned(day.day())) {}
#endif

    // The date with a time.
    date at(std::int64_t hour, std::int64_t minute, std::int64_t second = 0, std::int64_t nanosecond = 0) const {
        date made = *this;
        made.numbers_.hour = bounded<std::uint8_t>(hour);
        made.numbers_.minute = bounded<std::uint8_t>(minute);
        made.numbers_.second = bounded<std::uint8_t>(second);
        made.numbers_.nanosecond = bounded<std::uint32_t>(nanosecond);
        made.numbers_.has_time = true;
        return made;
    }
    // The date on a clock that is this much ahead of UTC.
    date on(std::chrono::seconds ahead) const {
        date made = *this;
        made.numbers_.offset = bounded<std::int32_t>(ahead.count());
        made.numbers_.has_offset = true;
        return made;
    }
    // The date with an option of `DATETIME`, such as `dateStyle`. An option that isn't there does nothing, and neither does a
    // value that it doesn't have.
    date with(std::string_view name, std::string_view text) const {
        date made = *this;
        if (is_value(name, text))
            made.options_.insert_or_assign(std::string(name), std::string(text));
        return made;
    }
    date with(std::string_view name, std::int64_t number) const {
        date made = *this;
        if (name == "fractionalSecondDigits" && number >= 1 && number <= 3)
            made.options_.insert_or_assign(std::string(name), number);
        return made;
    }

    // The date as the locale of a tag writes it, or as ISO 8601 does if its language isn't known; or why there is none:
    // status::bad_argument for numbers that make no date, or status::no_memory.
    expected<std::string> try_text(std::string_view locale) const;

    // What fluent_c.h takes.
    const FluentDate &numbers() const noexcept { return numbers_; }
    const named &options() const noexcept { return options_; }

    // What ISO 8601 has for the date, such as 2026-11-28T20:15:05+01:00.
    std::string iso() const {
        const FluentDate &of = numbers_;
        std::string made = (of.year < 0 ? "-" : "") + digits(of.year < 0 ? -of.year : of.year, 4) + '-' + digits(of.month, 2) + '-' +
            digits(of.day, 2);
        if (!of.has_time)
            return made;
        made += 'T' + digits(of.hour, 2) + ':' + digits(of.minute, 2) + ':' + digits(of.second, 2);
        if (of.nanosecond)
            made += '.' + digits(of.nanosecond, 9);
        if (!of.has_offset)
            return made;
        const std::int64_t ahead = std::int64_t{of.offset} < 0 ? -std::int64_t{of.offset} : of.offset;
        if (ahead == 0)
            return made + 'Z';
        made += (of.offset < 0 ? '-' : '+') + digits(ahead / 3600, 2) + ':' + digits(ahead / 60 % 60, 2);
        return ahead % 60 ? made + ':' + digits(ahead % 60, 2) : made;
    }

private:
    // A number, or one that no date has.
    template <class T>
    static T bounded(std::int64_t number) noexcept {
        const bool is = number >= std::int64_t{std::numeric_limits<T>::min()} && number <= std::int64_t{std::numeric_limits<T>::max()};
        return is ? static_cast<T>(number) : std::numeric_limits<T>::max();
    }

    static std::string digits(std::int64_t number, std::size_t count) {
        const std::string made = std::to_string(number);
        return made.size() < count ? std::string(count - made.size(), '0') + made : made;
    }

    // The date that is this number of days after 1 January 1970.
    static date of_days(std::int64_t days) noexcept {
        // Days since 1 March of the year 0, in cycles of 400 years, of which a year begins in March.
        const std::int64_t from = days + 719468, cycle = from / 146097 - (from % 146097 < 0), day = from - cycle * 146097;
        const std::int64_t year = (day - day / 1460 + day / 36524 - day / 146096) / 365;
        const std::int64_t of_year = day - (365 * year + year / 4 - year / 100), month = (5 * of_year + 2) / 153;
        date made(0, 0, 0);
        made.numbers_.year = bounded<std::int16_t>(cycle * 400 + year + (month > 9));
        made.numbers_.month = bounded<std::uint8_t>(month < 10 ? month + 3 : month - 9);
        made.numbers_.day = bounded<std::uint8_t>(of_year - (153 * month + 2) / 5 + 1);
        return made;
    }

    // Whether an option has a value of this name.
    static bool is_value(std::string_view name, std::string_view text) noexcept {
        struct option {
            std::string_view names, values;
        };
        constexpr option options[] = {
            {" dateStyle timeStyle ", " full long medium short "},
            {" hourCycle ", " h11 h12 h23 h24 "},
            {" hour12 ", " true false "},
            {" weekday era dayPeriod ", " narrow short long "},
            {" year day hour minute second ", " numeric 2-digit "},
            {" month ", " numeric 2-digit narrow short long "},
            {" timeZoneName ", " short long shortOffset longOffset shortGeneric longGeneric "},
        };
        const auto has = [](std::string_view words, std::string_view word) {
            for (std::size_t at = words.find(word); !word.empty() && at != words.npos; at = words.find(word, at + 1))
                if (words[at - (at > 0)] == ' ' && at + word.size() < words.size() && words[at + word.size()] == ' ')
                    return true;
            return false;
        };
        return std::any_of(std::begin(options), std::end(options), [&](const option &each) {
            return has(each.names, name) && has(each.values, text);
        });
    }

    FluentDate numbers_{};
    named options_;
};

// A text, a number, a date or no value: what a message passes to a function, and what the function gives. It owns its text.
class value {
public:
    // No value.
    value() noexcept = default;
    value(std::string text) : held_(std::move(text)) {}
    value(std::string_view text) : held_(std::string(text)) {}
    value(const char *text) : held_(std::string(text ? text : "")) {}
    value(decimal number) : held_(std::move(number)) {}
    value(fluent::date date) : held_(std::move(date)) {}
    value(double number) {
        std::visit([this](auto &&made) { held_ = std::move(made); }, detail::of_double(number));
    }
    template <class I, std::enable_if_t<detail::is_signed_number<I>, int> = 0>
    value(I number) : held_(std::int64_t{number}) {}
    template <class U, std::enable_if_t<detail::is_unsigned_number<U>, int> = 0>
    value(U number) : held_(std::uint64_t{number}) {}
    // A truth value is no number: pass a text, or choose the message by it.
    template <class B, std::enable_if_t<std::is_same_v<B, bool>, int> = 0>
    value(B) = delete;

    bool has_value() const noexcept { return held_.index() != 0; }
    bool is_text() const noexcept { return std::holds_alternative<std::string>(held_); }
    // The date, or a null pointer if the value is none.
    const fluent::date *date() const noexcept { return std::get_if<fluent::date>(&held_); }

    // The text, the digits of a number, or a date as ISO 8601 has it. Without a value it is empty.
    std::string text() const {
        if (const auto *text = std::get_if<std::string>(&held_))
            return *text;
        if (const auto *number = std::get_if<decimal>(&held_))
            return number->digits;
        if (const auto *number = std::get_if<detail::float_digits>(&held_))
            return number->digits;
        if (const auto *number = std::get_if<std::int64_t>(&held_))
            return std::to_string(*number);
        if (const auto *number = std::get_if<std::uint64_t>(&held_))
            return std::to_string(*number);
        return date() ? date()->iso() : std::string();
    }

    // The double that is nearest to a number. A text is none, whatever it looks like.
    std::optional<double> number() const {
        if (!has_value() || is_text() || date())
            return std::nullopt;
        const std::string digits = text();
        double read = 0;
        std::from_chars(digits.data(), digits.data() + digits.size(), read);
        return read;
    }

    using kinds =
        std::variant<std::monostate, std::string, decimal, detail::float_digits, std::int64_t, std::uint64_t, fluent::date>;
    const kinds &held() const noexcept { return held_; }

private:
    kinds held_;
};

// An argument of a message: its name, without `$`, and its value. A text isn't copied, so it has to last as long as the
// argument does.
class argument {
public:
    argument(std::string_view name, std::string_view text) noexcept : name_(name), text_(text) { made_.kind = FLUENT_TEXT; }
    argument(std::string_view name, const char *text) noexcept : argument(name, std::string_view(text ? text : "")) {}
    argument(std::string_view name, const std::string &text) noexcept : argument(name, std::string_view(text)) {}
    argument(std::string_view name, const decimal &number) noexcept : argument(name, std::string_view(number.digits)) {
        made_.kind = FLUENT_DECIMAL;
    }
    argument(std::string_view name, double number) : name_(name) {
        const auto made = detail::of_double(number);
        made_.kind = std::holds_alternative<std::string>(made) ? FLUENT_TEXT : FLUENT_FLOAT;
        digits_ = made_.kind == FLUENT_TEXT ? std::get<std::string>(made) : std::get<detail::float_digits>(made).digits;
    }
    template <class I, std::enable_if_t<detail::is_signed_number<I>, int> = 0>
    argument(std::string_view name, I number) noexcept : name_(name) {
        made_.kind = FLUENT_INTEGER;
        made_.integer = number;
    }
    template <class U, std::enable_if_t<detail::is_unsigned_number<U>, int> = 0>
    argument(std::string_view name, U number) noexcept : name_(name) {
        made_.kind = FLUENT_UNSIGNED;
        made_.unsigned_integer = number;
    }
    // A truth value is no number: pass a text, or choose the message by it.
    template <class B, std::enable_if_t<std::is_same_v<B, bool>, int> = 0>
    argument(std::string_view name, B) = delete;
    argument(std::string_view name, fluent::date date) : name_(name), date_(std::move(date)) { made_.kind = FLUENT_NO_VALUE; }
    argument(std::string_view name, const value &given) : name_(name) { take(given.held()); }

    // The date, if the argument is one.
    const std::optional<fluent::date> &date() const noexcept { return date_; }

    // What fluent_c.h takes, for which a date has no value. It is of use as long as this argument is.
    FluentArgument for_c() const noexcept {
        const std::string_view text = digits_.empty() ? text_ : std::string_view(digits_);
        FluentArgument made = made_;
        made.name = detail::bytes(name_);
        made.name_len = name_.size();
        made.text = detail::bytes(text);
        made.text_len = text.size();
        return made;
    }

private:
    void take(const value::kinds &held) {
        made_.kind = FLUENT_NO_VALUE;
        if (const auto *text = std::get_if<std::string>(&held)) {
            made_.kind = FLUENT_TEXT;
            text_ = *text;
        } else if (const auto *number = std::get_if<decimal>(&held)) {
            made_.kind = FLUENT_DECIMAL;
            text_ = number->digits;
        } else if (const auto *real = std::get_if<detail::float_digits>(&held)) {
            made_.kind = FLUENT_FLOAT;
            text_ = real->digits;
        } else if (const auto *integer = std::get_if<std::int64_t>(&held)) {
            made_.kind = FLUENT_INTEGER;
            made_.integer = *integer;
        } else if (const auto *natural = std::get_if<std::uint64_t>(&held)) {
            made_.kind = FLUENT_UNSIGNED;
            made_.unsigned_integer = *natural;
        } else if (const auto *date = std::get_if<fluent::date>(&held)) {
            date_ = *date;
        }
    }

    std::string_view name_;
    std::string_view text_;
    // What a double is written as, and else empty.
    std::string digits_;
    std::optional<fluent::date> date_;
    FluentArgument made_{};
};

inline expected<std::string> date::try_text(std::string_view locale) const {
    std::vector<argument> options;
    for (const auto &[name, option] : options_) {
        if (const auto *text = std::get_if<std::string>(&option))
            options.emplace_back(name, *text);
        else
            options.emplace_back(name, std::get<std::int64_t>(option));
    }
    std::vector<FluentArgument> given;
    for (const argument &each : options)
        given.push_back(each.for_c());
    detail::text made;
    const std::uint32_t told = fluent_write_date(
        detail::bytes(locale), locale.size(), &numbers_, detail::first(given), given.size(), made.put());
    if (told == FLUENT_UNKNOWN_LOCALE) {
        // A locale that is known says whether there is such a date.
        const std::uint32_t is = fluent_write_date(
            detail::bytes("en"), 2, &numbers_, detail::first(given), given.size(), made.put());
        return is == FLUENT_READ ? expected<std::string>(iso()) : expected<std::string>(detail::status_of(is));
    }
    if (told != FLUENT_READ)
        return detail::status_of(told);
    return std::string(made.view());
}

namespace detail {

// The dates of one answer. To the library each is a text that nobody knows: it is told again in the arguments of
// functions, and in the answer it is replaced by the date as the locale writes it.
class dates {
public:
    // The text that stands for a date.
    std::string mark(const date &given) {
        static const std::string secret = std::to_string(std::random_device{}()) + std::to_string(std::random_device{}());
        dates_.push_back(given);
        std::string made = std::string(bound) + secret + '-' + std::to_string(dates_.size() - 1) + std::string(bound);
        marks_.push_back(made);
        return made;
    }

    // The date that a text stands for, or a null pointer.
    const date *found(std::string_view text) const noexcept {
        for (std::size_t each = 0; each < marks_.size(); each++)
            if (marks_[each] == text)
                return &dates_[each];
        return nullptr;
    }

    // A text in which each date is shown.
    expected<std::string> shown(std::string text, std::string_view locale) const {
        for (std::size_t each = 0; each < marks_.size(); each++) {
            std::size_t at = text.find(marks_[each]);
            if (at == text.npos)
                continue;
            const expected<std::string> made = dates_[each].try_text(locale);
            if (!made)
                return made.why();
            for (; at != text.npos; at = text.find(marks_[each], at + made->size()))
                text.replace(at, marks_[each].size(), *made);
        }
        return text;
    }

private:
    // No text has this character, U+FDD0, by the rules of Unicode.
    static constexpr std::string_view bound = "\xef\xb7\x90";

    std::vector<date> dates_;
    std::vector<std::string> marks_;
};

} // namespace detail

// What a message passes to a function, as in `{ DATE("2026-11-28", style: "long") }`.
struct call {
    std::string name;
    std::vector<value> positional;
    std::map<std::string, value, std::less<>> named;

    // The positional argument of an index, from 0. If there are fewer, it has no value.
    value at(std::size_t index) const { return index < positional.size() ? positional[index] : value(); }

    // The argument of a name. If there is none, it has no value.
    value at(std::string_view argument) const {
        const auto found = named.find(argument);
        return found == named.end() ? value() : found->second;
    }
};

// A function of your program that messages call. It has to give the same value for the same arguments. What it throws
// passes through `format`, and the bundle can be asked again.
using function = std::function<value(const call &)>;

// Functions by their names, which are written in capital letters: {{"PLATFORM", platform}}.
using functions = std::map<std::string, function, std::less<>>;

namespace detail {

// Reads the text of a call, which the library wrote: a JSON array of the function's name, an array of the positional
// arguments, and an object of the named ones.
class call_reader {
public:
    call_reader(std::string_view text, const dates &known) noexcept : rest_(text), known_(known) {}

    call read() {
        call made;
        expect('[');
        made.name = string();
        expect(',');
        expect('[');
        while (goes_on(']'))
            made.positional.push_back(any());
        expect(',');
        expect('{');
        while (goes_on('}')) {
            std::string name = string();
            expect(':');
            made.named.insert_or_assign(std::move(name), any());
        }
        expect(']');
        return made;
    }

private:
    char next() {
        if (rest_.empty())
            throw error(status::bad_argument);
        const char byte = rest_.front();
        rest_.remove_prefix(1);
        return byte;
    }

    void expect(char byte) {
        if (next() != byte)
            throw error(status::bad_argument);
    }

    // Whether another item comes before this bracket, which is passed over.
    bool goes_on(char closing) {
        if (rest_.empty())
            throw error(status::bad_argument);
        if (rest_.front() == closing)
            return rest_.remove_prefix(1), false;
        if (rest_.front() == ',')
            rest_.remove_prefix(1);
        return true;
    }

    // Four hexadecimal digits.
    std::uint32_t unit() {
        std::uint32_t made = 0;
        const std::string_view digits = rest_.substr(0, 4);
        if (std::from_chars(digits.data(), digits.data() + digits.size(), made, 16).ptr != digits.data() + 4)
            throw error(status::bad_argument);
        rest_.remove_prefix(4);
        return made;
    }

    // What comes after `\u`: a character, or the two halves of one.
    std::uint32_t character() {
        const std::uint32_t high = unit();
        if (high < 0xd800 || high >= 0xdc00)
            return high;
        expect('\\');
        expect('u');
        return 0x10000 + ((high - 0xd800) << 10) + (unit() - 0xdc00);
    }

    static void push(std::string &text, std::uint32_t character) {
        const auto put = [&text](std::uint32_t byte) { text.push_back(static_cast<char>(byte)); };
        if (character < 0x80)
            return put(character);
        if (character < 0x800) {
            put(0xc0 | character >> 6);
        } else if (character < 0x10000) {
            put(0xe0 | character >> 12);
            put(0x80 | (character >> 6 & 0x3f));
        } else {
            put(0xf0 | character >> 18);
            put(0x80 | (character >> 12 & 0x3f));
            put(0x80 | (character >> 6 & 0x3f));
        }
        put(0x80 | (character & 0x3f));
    }

    void push_escape(std::string &text) {
        constexpr std::string_view letters = "\"\\/bfnrt", characters = "\"\\/\b\f\n\r\t";
        const char letter = next();
        const std::size_t at = letters.find(letter);
        if (letter == 'u')
            push(text, character());
        else if (at != letters.npos)
            text.push_back(characters[at]);
        else
            throw error(status::bad_argument);
    }

    std::string string() {
        std::string text;
        expect('"');
        for (char byte = next(); byte != '"'; byte = next()) {
            if (byte == '\\')
                push_escape(text);
            else
                text.push_back(byte);
        }
        return text;
    }

    // A text, or the date that it stands for, a number `{"number":"1.50"}`, or null.
    value any() {
        if (rest_.substr(0, 4) == "null")
            return rest_.remove_prefix(4), value();
        if (rest_.substr(0, 1) != "{") {
            std::string text = string();
            const date *found = known_.found(text);
            return found ? value(*found) : value(std::move(text));
        }
        expect('{');
        string();
        expect(':');
        decimal number{string()};
        expect('}');
        return number;
    }

    std::string_view rest_;
    const dates &known_;
};

// The function `DATETIME` that each bundle has: a date with the options of a call, or no value if there is no date.
inline value date_called(const call &asked) {
    const value first = asked.at(std::size_t{0});
    if (!first.date())
        return value();
    date made = *first.date();
    for (const auto &[name, option] : asked.named) {
        if (option.is_text())
            made = made.with(name, option.text());
        else if (const std::optional<double> number = option.number(); number && *number >= 1 && *number < 4)
            made = made.with(name, static_cast<std::int64_t>(*number));
    }
    return made;
}

// The answers to the calls of one message so far. A list keeps each where it is.
class answers {
public:
    void add(std::string_view call, value answer) {
        kept_.push_back(std::make_unique<kept>(kept{std::string(call), std::move(answer)}));
        list_.push_back(argument(kept_.back()->call, kept_.back()->answer).for_c());
    }
    // Adds a date, for which a text stands.
    void add(std::string_view call, const value &answer, dates &known) {
        if (answer.date())
            add(call, known.mark(*answer.date()));
        else
            add(call, answer);
    }

    const FluentArgument *first() const noexcept { return detail::first(list_); }
    std::size_t size() const noexcept { return list_.size(); }

private:
    struct kept {
        std::string call;
        value answer;
    };
    std::vector<std::unique_ptr<kept>> kept_;
    std::vector<FluentArgument> list_;
};

} // namespace detail

// How a bundle is made. Change what you want: `fluent::settings("en-GB").with_isolating(false)`.
struct settings {
    settings() = default;
    // Those of a locale: a tag such as "pl" or "pt-PT". The empty one has the rules of English, and plain numbers.
    settings(std::string_view tag) : locale(tag) {}
    settings(const char *tag) : locale(tag) {}
    settings(const std::string &tag) : locale(tag) {}

    std::string locale;
    // Whether what is put into a text is between the marks U+2068 and U+2069, which keep apart texts that are written from
    // left to right and from right to left.
    bool isolating = true;
    // Whether the last entry of an id counts, and not the first.
    bool overriding = false;
    // Whether numbers are plain, such as 1234.5, whatever the locale.
    bool plain_numbers = false;
    // The budget of the stack in bytes, or 0 for the usual 1.5 MB: fluent_c.h says what it is for.
    std::size_t stack = 0;

    // These settings with one that is another.
    settings with_isolating(bool is) const { return with(&settings::isolating, is); }
    settings with_overriding(bool is) const { return with(&settings::overriding, is); }
    settings with_plain_numbers(bool is) const { return with(&settings::plain_numbers, is); }
    settings with_stack(std::size_t bytes) const { return with(&settings::stack, bytes); }

private:
    template <class T>
    settings with(T settings::*member, T other) const {
        settings made(*this);
        made.*member = other;
        return made;
    }
};

// The text of a message, and a line for each error in it. There is a text even if there are errors: an argument that is
// missing is shown as `{$name}`.
struct answer {
    std::string text;
    std::vector<std::string> errors;
};

// The texts of one language, from sources in the syntax of Fluent. Any thread may ask a bundle: calls take turns. It is
// moved, never copied; one that was moved from has no messages.
class bundle {
public:
    // The bundle of a source. Where the source can't be read, that stretch alone is left out: `errors` lists them.
    // Throws an error for status::unknown_locale, not_utf8 or no_memory.
    explicit bundle(std::string_view source, const settings &how = {}, functions called = {})
        : bundle(make_of(std::vector<std::string_view>{source}, how, std::move(called))) {}

    // The bundle of several sources, in their order.
    explicit bundle(
        const std::vector<std::string_view> &sources, const settings &how = {}, functions called = {})
        : bundle(make_of(sources, how, std::move(called))) {}
    explicit bundle(
        std::initializer_list<std::string_view> sources, const settings &how = {}, functions called = {})
        : bundle(make_of(std::vector<std::string_view>(sources), how, std::move(called))) {}

    // The same without exceptions.
    static expected<bundle> try_make(
        const std::vector<std::string_view> &sources, const settings &how = {}, functions called = {}) {
        auto made = std::make_unique<state>();
        made->functions = std::move(called);
        std::vector<FluentSource> names;
        made->tells_dates = made->functions.emplace("DATETIME", detail::date_called).second;
        if (!how.plain_numbers)
            made->locale = how.locale;
        for (const auto &each : made->functions)
            names.push_back(detail::source(each.first));
        const std::vector<FluentSource> texts = detail::sources(sources);
        const FluentBundleOptions options = options_of(how);
        const std::uint32_t made_as = fluent_bundle_new_calling(
            detail::first(texts), texts.size(), &options, detail::first(names), names.size(), &made->bundle);
        if (made_as != FLUENT_READ)
            return detail::status_of(made_as);
        return bundle(std::move(made));
    }

    bundle(bundle &&) noexcept = default;
    bundle &operator=(bundle &&) noexcept = default;
    bundle(const bundle &) = delete;
    bundle &operator=(const bundle &) = delete;
    ~bundle() = default;

    // The text of a message's value, or of its first attribute of a name. Errors in it are passed over.
    // Throws an error for status::no_message, no_pattern, bad_argument, not_utf8 or no_memory.
    std::string format(
        std::string_view id, std::initializer_list<argument> arguments = {}, std::string_view attribute = {}) const {
        return checked(id, ask(id, for_c(arguments), attribute)).text;
    }
    std::string format(
        std::string_view id, const std::vector<argument> &arguments, std::string_view attribute = {}) const {
        return checked(id, ask(id, for_c(arguments), attribute)).text;
    }

    // The text with its errors, or why there is none. Only what a function of yours throws is thrown.
    expected<answer> try_format(
        std::string_view id, std::initializer_list<argument> arguments = {}, std::string_view attribute = {}) const {
        return ask(id, for_c(arguments), attribute);
    }
    expected<answer> try_format(
        std::string_view id, const std::vector<argument> &arguments, std::string_view attribute = {}) const {
        return ask(id, for_c(arguments), attribute);
    }

    // Whether a message has a value, or an attribute of a name.
    bool has(std::string_view id, std::string_view attribute = {}) const {
        return state_ && FLUENT_READ == locked([&](FluentBundle *asked) {
            return fluent_bundle_has(asked, detail::bytes(id), id.size(), detail::bytes(attribute), attribute.size());
        });
    }

    // The ids of all messages, in the order of the sources.
    std::vector<std::string> messages() const {
        return listed("the messages", [](FluentBundle *asked, FluentText *list) { return fluent_bundle_messages(asked, list); });
    }

    // The names of a message's attributes.
    std::vector<std::string> attributes(std::string_view id) const {
        return listed(id, [id](FluentBundle *asked, FluentText *list) {
            return fluent_bundle_attributes(asked, detail::bytes(id), id.size(), list);
        });
    }

    // The names of the variables that a message is shown with.
    std::vector<std::string> variables(std::string_view id) const {
        return listed(id, [id](FluentBundle *asked, FluentText *list) {
            return fluent_bundle_variables(asked, detail::bytes(id), id.size(), list);
        });
    }

    // What is wrong with the sources: a line for each stretch that can't be read, and for each id that was taken.
    std::vector<std::string> errors() const {
        return listed("the errors", [](FluentBundle *asked, FluentText *list) { return fluent_bundle_errors(asked, list); });
    }

private:
    // What a bundle has, at one place while the bundle is moved.
    struct state {
        state() = default;
        state(const state &) = delete;
        state &operator=(const state &) = delete;
        ~state() { fluent_bundle_free(&bundle); }

        std::mutex turn;
        FluentBundle bundle{};
        // The memory of the last answer is used for the next.
        detail::text text, errors;
        fluent::functions functions;
        // The locale that writes dates, and none if they are written plainly.
        std::string locale;
        // Whether `DATETIME` is that of each bundle, so that an argument that is no date is an error.
        bool tells_dates = false;
    };

    // What the library takes of arguments, and what of that is in memory of its own.
    struct passed {
        std::vector<FluentArgument> list;
        std::vector<std::unique_ptr<std::string>> marks;
        detail::dates dates;
    };

    explicit bundle(std::unique_ptr<state> made) noexcept : state_(std::move(made)) {}

    static bundle make_of(
        const std::vector<std::string_view> &sources, const settings &how, functions called) {
        expected<bundle> made = try_make(sources, how, std::move(called));
        if (!made)
            throw error(made.why(), "a bundle of the locale '" + how.locale + "'");
        return std::move(*made);
    }

    static FluentBundleOptions options_of(const settings &how) noexcept {
        FluentBundleOptions options{};
        options.size = sizeof options;
        options.locale = detail::bytes(how.locale);
        options.locale_len = how.locale.size();
        options.stack = how.stack;
        options.isolating = how.isolating;
        options.overriding = how.overriding;
        options.plain_numbers = how.plain_numbers;
        return options;
    }

    template <class Arguments>
    static passed for_c(const Arguments &arguments) {
        passed made;
        made.list.reserve(arguments.size());
        for (const argument &each : arguments) {
            made.list.push_back(each.for_c());
            if (each.date()) {
                made.marks.push_back(std::make_unique<std::string>(made.dates.mark(*each.date())));
                made.list.back().kind = FLUENT_TEXT;
                made.list.back().text = detail::bytes(*made.marks.back());
                made.list.back().text_len = made.marks.back()->size();
            }
        }
        return made;
    }

    static answer checked(std::string_view id, expected<answer> given) {
        if (!given)
            throw error(given.why(), "the message '" + std::string(id) + "'");
        return std::move(*given);
    }

    // Asks the library when it is this thread's turn.
    template <class Asking>
    std::uint32_t locked(Asking asking) const {
        const std::lock_guard<std::mutex> turn(state_->turn);
        return asking(&state_->bundle);
    }

    template <class Asking>
    std::vector<std::string> listed(std::string_view of, Asking asking) const {
        detail::text list;
        if (!state_)
            throw error(status::no_bundle, std::string(of));
        const std::uint32_t told = locked([&](FluentBundle *asked) { return asking(asked, list.put()); });
        if (told != FLUENT_READ)
            throw error(detail::status_of(told), std::string(of));
        return detail::lines(list.view());
    }

    // Formats a message. Functions are called while no turn is held, so they may ask this bundle.
    expected<answer> ask(std::string_view id, passed arguments, std::string_view attribute) const {
        if (!state_)
            return status::no_bundle;
        detail::answers answers;
        std::vector<std::string> errors;
        for (;;) {
            detail::text text;
            expected<answer> given = round(id, arguments.list, attribute, answers, text);
            if (given) {
                given->errors.insert(given->errors.begin(), errors.begin(), errors.end());
                return shown(std::move(*given), arguments.dates);
            }
            if (given.why() != status::call)
                return given;
            const call asked = detail::call_reader(text.view(), arguments.dates).read();
            const auto found = state_->functions.find(asked.name);
            const value made = found == state_->functions.end() ? value() : found->second(asked);
            if (state_->tells_dates && asked.name == "DATETIME" && !made.date() && asked.at(std::size_t{0}).has_value())
                errors.push_back("DATETIME(): the argument is no date");
            answers.add(text.view(), made, arguments.dates);
        }
    }

    // An answer in which each date is shown.
    expected<answer> shown(answer given, const detail::dates &dates) const {
        expected<std::string> text = dates.shown(std::move(given.text), state_->locale);
        if (!text)
            return text.why();
        return answer{std::move(*text), std::move(given.errors)};
    }

    // Asks the library once, with the answers so far.
    expected<answer> round(
        std::string_view id, const std::vector<FluentArgument> &arguments, std::string_view attribute,
        const detail::answers &answers, detail::text &call) const {
        const std::lock_guard<std::mutex> turn(state_->turn);
        const std::uint32_t told = fluent_bundle_call(
            &state_->bundle, detail::bytes(id), id.size(), detail::bytes(attribute), attribute.size(),
            detail::first(arguments), arguments.size(), answers.first(), answers.size(), state_->text.put(),
            state_->errors.put(), call.put());
        if (told != FLUENT_READ)
            return detail::status_of(told);
        return answer{std::string(state_->text.view()), detail::lines(state_->errors.view())};
    }

    std::unique_ptr<state> state_;
};

// How many of a program's languages are used: all that suit any of the user's, the best for each of the user's, or one.
enum class strategy : std::uint32_t { filtering = FLUENT_FILTERING, matching = FLUENT_MATCHING, lookup = FLUENT_LOOKUP };

// The languages of a program that suit those that a user asks for, the best first. Each is a tag such as "de-AT".
inline std::vector<std::string> negotiate(
    const std::vector<std::string> &requested, const std::vector<std::string> &available,
    strategy how = strategy::filtering) {
    const std::vector<FluentSource> asked = detail::sources(requested), there = detail::sources(available);
    std::vector<std::size_t> positions(available.size() + 1);
    std::size_t count = 0;
    const std::uint32_t told = fluent_negotiate(
        detail::first(asked), asked.size(), detail::first(there), there.size(), static_cast<std::uint32_t>(how),
        positions.data(), available.size(), &count);
    if (told != FLUENT_READ)
        throw error(detail::status_of(told), "the languages");
    std::vector<std::string> used;
    for (std::size_t each = 0; each < count; each++)
        used.push_back(available[positions[each]]);
    return used;
}

// The tag that the name of a POSIX locale stands for: "de_AT.UTF-8@euro" is "de-AT". It is empty for C and POSIX.
inline std::string tag_of_posix(std::string_view name) {
    const std::size_t at = name.find('@');
    const std::string_view modifier = at == name.npos ? std::string_view() : name.substr(at + 1);
    std::string tag(name.substr(0, std::min(at, name.find('.'))));
    std::replace(tag.begin(), tag.end(), '_', '-');
    if (tag == "C" || tag == "POSIX")
        return {};
    const std::size_t language = std::min(tag.find('-'), tag.size());
    if (modifier == "latin")
        tag.insert(language, "-Latn");
    else if (modifier == "cyrillic")
        tag.insert(language, "-Cyrl");
    else if (modifier == "devanagari")
        tag.insert(language, "-Deva");
    else if (modifier == "valencia")
        tag += "-valencia";
    return tag;
}

// The languages that the user of a POSIX system asks for, as gettext finds them: those of LANGUAGE, and else the one of
// LC_ALL, LC_MESSAGES or LANG. There are none in the locale C.
inline std::vector<std::string> system_languages() {
    const auto set = [](const char *name) {
        const char *held = std::getenv(name);
        return std::string(held ? held : "");
    };
    std::string own;
    for (const char *name : {"LC_ALL", "LC_MESSAGES", "LANG"})
        own = own.empty() ? set(name) : own;
    own = tag_of_posix(own);
    std::vector<std::string> asked;
    std::string listed = own.empty() ? std::string() : set("LANGUAGE");
    for (std::size_t end = 0; !listed.empty(); listed.erase(0, std::min(end, listed.size() - 1) + 1)) {
        end = listed.find(':');
        std::string tag = tag_of_posix(listed.substr(0, end));
        if (!tag.empty())
            asked.push_back(std::move(tag));
    }
    if (asked.empty() && !own.empty())
        asked.push_back(own);
    return asked;
}

// The text of a message, its errors, and the locale that it is of.
struct localized_answer {
    std::string text;
    std::vector<std::string> errors;
    std::string locale;
};

// Texts in several languages, the one that a user prefers first: a message that it lacks comes from the next one that has
// it. Any thread may ask.
class localization {
public:
    localization() = default;
    localization(localization &&) noexcept = default;
    localization &operator=(localization &&) noexcept = default;
    localization(const localization &) = delete;
    localization &operator=(const localization &) = delete;
    ~localization() = default;

    // Adds a language, which is asked after those before it. In a locale without plural rules each number is `other`, and
    // is written plainly. `how.locale` isn't read.
    void add(
        const std::string &locale, const std::vector<std::string_view> &sources, settings how = {},
        functions called = {}) {
        how.locale = locale;
        expected<bundle> made = bundle::try_make(sources, how, called);
        if (made.why() == status::unknown_locale) {
            how.locale = "und";
            how.plain_numbers = true;
            made = bundle::try_make(sources, how, std::move(called));
        }
        if (!made)
            throw error(made.why(), "the texts of the locale '" + locale + "'");
        locales_.push_back(locale);
        bundles_.push_back(std::move(*made));
    }

    // The files `FOLDER/LOCALE/FILE` of the locales that suit those that are asked for, such as system_languages().
    // `last` is asked after them. A file that a locale lacks is passed over, and so is a byte order mark.
    //
    // Throws an error for status::no_message if no folder of a locale has one of the files, std::filesystem::filesystem_error
    // if there is no such folder, and what `add` throws.
    static localization load(
        const std::filesystem::path &folder, const std::vector<std::string> &files,
        const std::vector<std::string> &requested, const std::string &last, const settings &how = {},
        const functions &called = {}) {
        const std::vector<std::string> available = locales_in(folder, files);
        if (available.empty())
            throw error(status::no_message, "the files of a locale in '" + folder.string() + "'");
        std::vector<std::string> used = negotiate(requested, available);
        const bool has_last = std::find(used.begin(), used.end(), last) != used.end();
        if (!has_last && std::find(available.begin(), available.end(), last) != available.end())
            used.push_back(last);
        localization made;
        for (const std::string &locale : used) {
            const std::vector<std::string> texts = texts_of(folder / locale, files);
            made.add(locale, {texts.begin(), texts.end()}, how, called);
        }
        return made;
    }

    // The locales, in the order in which they are asked.
    const std::vector<std::string> &locales() const noexcept { return locales_; }

    // The bundle of a locale, or null if there is none.
    const bundle *of(std::string_view locale) const noexcept {
        const auto found = std::find(locales_.begin(), locales_.end(), locale);
        return found == locales_.end() ? nullptr : &bundles_[static_cast<std::size_t>(found - locales_.begin())];
    }

    // Whether any language has a message with a value, or with an attribute of a name.
    bool has(std::string_view id, std::string_view attribute = {}) const {
        return std::any_of(bundles_.begin(), bundles_.end(), [&](const bundle &each) { return each.has(id, attribute); });
    }

    // The text of a message's value, or of its first attribute of a name, in the first language that has it. If none has,
    // it is the id, since a window with an id in it is of more use than none. Only status::no_memory, not_utf8 and
    // bad_argument are thrown.
    std::string format(
        std::string_view id, std::initializer_list<argument> arguments = {}, std::string_view attribute = {}) const {
        return shown(id, try_format(id, std::vector<argument>(arguments), attribute));
    }
    std::string format(
        std::string_view id, const std::vector<argument> &arguments, std::string_view attribute = {}) const {
        return shown(id, try_format(id, arguments, attribute));
    }

    // The text with its errors and its locale, or why there is none: status::no_message if no language has it.
    expected<localized_answer> try_format(
        std::string_view id, std::initializer_list<argument> arguments = {}, std::string_view attribute = {}) const {
        return try_format(id, std::vector<argument>(arguments), attribute);
    }
    expected<localized_answer> try_format(
        std::string_view id, const std::vector<argument> &arguments, std::string_view attribute = {}) const {
        for (std::size_t each = 0; each < bundles_.size(); each++) {
            expected<answer> given = bundles_[each].try_format(id, arguments, attribute);
            if (given)
                return localized_answer{std::move(given->text), std::move(given->errors), locales_[each]};
            if (given.why() != status::no_message && given.why() != status::no_pattern)
                return given.why();
        }
        return status::no_message;
    }

private:
    static std::string shown(std::string_view id, expected<localized_answer> given) {
        if (given)
            return std::move(given->text);
        if (given.why() != status::no_message)
            throw error(given.why(), "the message '" + std::string(id) + "'");
        return std::string(id);
    }

    // The folders whose name is a tag, and which have one of the files.
    static std::vector<std::string> locales_in(
        const std::filesystem::path &folder, const std::vector<std::string> &files) {
        std::vector<std::string> found;
        for (const auto &each : std::filesystem::directory_iterator(folder)) {
            std::string name = each.path().filename().string();
            const bool has_file = std::any_of(files.begin(), files.end(), [&](const std::string &file) {
                return std::filesystem::is_regular_file(each.path() / file);
            });
            if (has_file && !negotiate({name}, {name}).empty())
                found.push_back(std::move(name));
        }
        std::sort(found.begin(), found.end());
        return found;
    }

    // The texts of those of these files that are there, without a byte order mark.
    static std::vector<std::string> texts_of(
        const std::filesystem::path &folder, const std::vector<std::string> &files) {
        std::vector<std::string> texts;
        for (const std::string &file : files) {
            std::ifstream stream(folder / file, std::ios::binary);
            if (!stream)
                continue;
            std::string text{std::istreambuf_iterator<char>(stream), std::istreambuf_iterator<char>()};
            if (text.compare(0, 3, "\xef\xbb\xbf") == 0)
                text.erase(0, 3);
            texts.push_back(std::move(text));
        }
        return texts;
    }

    std::vector<std::string> locales_;
    std::vector<bundle> bundles_;
};

} // namespace fluent

#endif
