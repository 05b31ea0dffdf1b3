#ifndef TESTS_HPP
#define TESTS_HPP

#include <string>

void test_bundles();
void test_functions();
void test_dates();
void test_doubles();
// The folder has the folders of languages.
void test_languages(const std::string &folder);
void test_threads();

#endif
