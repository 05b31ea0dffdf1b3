// Answers lines by ICU's LocaleMatcher, that of UTS 35. A line is what is requested and what is available, with a tab between them
// and commas between tags; the answer is the position of the available tag that suits best, or -1. `compare.sh` builds it.
#include <iostream>
#include <sstream>
#include <string>
#include <unicode/localematcher.h>
#include <vector>

static std::vector<icu::Locale> locales(const std::string &tags, UErrorCode &status) {
    std::vector<icu::Locale> all;
    std::stringstream left(tags);
    for (std::string tag; std::getline(left, tag, ',');)
        all.push_back(icu::Locale::forLanguageTag(tag.c_str(), status));
    return all;
}

int main() {
    for (std::string line; std::getline(std::cin, line);) {
        UErrorCode status = U_ZERO_ERROR;
        size_t tab = line.find('\t');
        auto requested = locales(line.substr(0, tab), status), available = locales(line.substr(tab + 1), status);
        auto matcher =
            icu::LocaleMatcher::Builder().setSupportedLocales(available.begin(), available.end()).setNoDefaultLocale().build(status);
        icu::Locale::RangeIterator<std::vector<icu::Locale>::iterator> all(requested.begin(), requested.end());
        auto result = matcher.getBestMatchResult(all, status);
        std::cout << (U_FAILURE(status) ? -2 : result.getSupportedIndex()) << '\n';
    }
}
