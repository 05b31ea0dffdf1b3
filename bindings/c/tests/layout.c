/* Where the fields of the header's structs are. A program that is compiled with one header and runs with another library
 * needs them there. The tests of the packages for Rust and Python read these lines, and tools/house/check.py knows if one
 * is missing.
 */
#include "tests.h"

#define SIZE(type, size) _Static_assert(sizeof(struct type) == (size), "the size of " #type)
#define AT(type, field, offset) _Static_assert(offsetof(struct type, field) == (offset), "the place of " #field " in " #type)

SIZE(FluentCounts, 40);
AT(FluentCounts, messages, 0);
AT(FluentCounts, terms, 8);
AT(FluentCounts, comments, 16);
AT(FluentCounts, junk, 24);
AT(FluentCounts, errors, 32);

SIZE(FluentText, 32);
AT(FluentText, held, 0);
AT(FluentText, bytes, 8);
AT(FluentText, len, 16);
AT(FluentText, owner, 24);

SIZE(FluentSource, 16);
AT(FluentSource, text, 0);
AT(FluentSource, len, 8);

SIZE(FluentPlace, 16);
AT(FluentPlace, line, 0);
AT(FluentPlace, column, 8);

SIZE(FluentFile, 32);
AT(FluentFile, name, 0);
AT(FluentFile, name_len, 8);
AT(FluentFile, text, 16);
AT(FluentFile, text_len, 24);

SIZE(FluentLintOptions, 40);
AT(FluentLintOptions, functions, 0);
AT(FluentLintOptions, function_count, 8);
AT(FluentLintOptions, locale, 16);
AT(FluentLintOptions, locale_len, 24);
AT(FluentLintOptions, notes, 32);
AT(FluentLintOptions, strict, 33);

SIZE(FluentBundle, 32);
AT(FluentBundle, held, 0);
AT(FluentBundle, sources, 8);
AT(FluentBundle, read, 16);
AT(FluentBundle, desk, 24);

SIZE(FluentBundleOptions, 40);
AT(FluentBundleOptions, size, 0);
AT(FluentBundleOptions, locale, 8);
AT(FluentBundleOptions, locale_len, 16);
AT(FluentBundleOptions, stack, 24);
AT(FluentBundleOptions, isolating, 32);
AT(FluentBundleOptions, overriding, 33);
AT(FluentBundleOptions, plain_numbers, 34);

SIZE(FluentArgument, 56);
AT(FluentArgument, name, 0);
AT(FluentArgument, name_len, 8);
AT(FluentArgument, text, 16);
AT(FluentArgument, text_len, 24);
AT(FluentArgument, integer, 32);
AT(FluentArgument, unsigned_integer, 40);
AT(FluentArgument, kind, 48);

SIZE(FluentPattern, 40);
AT(FluentPattern, id, 0);
AT(FluentPattern, id_len, 8);
AT(FluentPattern, attribute, 16);
AT(FluentPattern, attribute_len, 24);
AT(FluentPattern, number, 32);

SIZE(FluentDate, 20);
AT(FluentDate, offset, 0);
AT(FluentDate, nanosecond, 4);
AT(FluentDate, year, 8);
AT(FluentDate, month, 10);
AT(FluentDate, day, 11);
AT(FluentDate, hour, 12);
AT(FluentDate, minute, 13);
AT(FluentDate, second, 14);
AT(FluentDate, has_time, 15);
AT(FluentDate, has_offset, 16);
