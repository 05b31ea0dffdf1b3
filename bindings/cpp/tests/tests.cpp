// Runs the tests, and counts them. Its argument is the folder that has the folders of languages.
#include "tests.hpp"
#include "check.hpp"

int main(int count, char **words) {
    if (count != 2)
        return 2;
    test_bundles();
    test_functions();
    test_dates();
    test_doubles();
    test_languages(words[1]);
    test_threads();
    std::cout << checked << " checks, " << failed << " failed\n";
    return failed == 0 ? 0 : 1;
}
