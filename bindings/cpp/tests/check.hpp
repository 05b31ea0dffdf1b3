// What the tests share: a check that counts, and says where it fails.
#ifndef CHECK_HPP
#define CHECK_HPP

#include <atomic>
#include <iostream>
#include <sstream>
#include <string>

inline std::atomic<int> checked{0}, failed{0};

// Counts a comparison of what came with what has to come.
template <class Came, class Expected>
void is_same(const Came &came, const Expected &expected, const char *file, int line) {
    ++checked;
    if (came == expected)
        return;
    ++failed;
    std::ostringstream told;
    told << std::boolalpha << file << ':' << line << ": " << came << ", not " << expected << '\n';
    std::cerr << told.str();
}

#define SAME(came, expected) is_same((came), (expected), __FILE__, __LINE__)

// Counts an expression that has to throw a fluent::error with this status.
#define THROWS(status_of, expression)                                                                                  \
    do {                                                                                                               \
        bool is_right = false;                                                                                         \
        try {                                                                                                          \
            (void)(expression);                                                                                        \
        } catch (const fluent::error &thrown) {                                                                        \
            is_right = thrown.why() == fluent::status::status_of;                                                      \
        }                                                                                                              \
        SAME(is_right, true);                                                                                          \
    } while (false)

#endif
