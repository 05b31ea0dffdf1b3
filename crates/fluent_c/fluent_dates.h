/* Dates: of the numbers of a `struct tm`, of a `time_t` and of ISO 8601, as a language writes them, as arguments of messages, and
 * as the answers to calls of a DATETIME of your own. fluent.h includes it.
 *
 * A message shows a date by `{ $date }`, or by `{ DATETIME($date, dateStyle: "long") }`:
 *
 *     struct FluentDate date = fluent_date_of_time(time, offset);
 *     char iso[FLUENT_ISO_ROOM];
 *     struct FluentArgument argument = fluent_date_argument("date", &date, iso);
 *
 * All of it is in this header, and is tested, not proved. The example dates.c is such a program.
 */
#ifndef FLUENT_DATES_H
#define FLUENT_DATES_H

#include <stdlib.h>
#include <string.h>
#include <time.h>

#include "fluent.h"

/* How many bytes fluent_date_iso writes at most, with a byte 0. */
#define FLUENT_ISO_ROOM 48

/* fluent_write_date. `locale` and `options` may be NULL if there are none. */
static inline uint32_t fluent_date_text(
    const char *locale, const struct FluentDate *date, const struct FluentArgument *options, size_t option_count,
    struct FluentText *made) {
    static const struct FluentArgument none = {0};
    return fluent_write_date(
        fluent_bytes(locale), fluent_len(locale), date, options ? options : &none, options ? option_count : 0, made);
}

/* A number as a byte: 255, which no date and no time has, if it isn't one. */
static inline uint8_t fluent_date_byte(long long number) {
    return number < 0 || number > 255 ? 255 : (uint8_t)number;
}

/* The date of these numbers, without a time. One that fluent_write_date refuses stays one that it refuses. */
static inline struct FluentDate fluent_date_of(long long year, long long month, long long day) {
    struct FluentDate date = {0};
    date.year = year < INT16_MIN ? INT16_MIN : year > INT16_MAX ? INT16_MAX : (int16_t)year;
    date.month = fluent_date_byte(month);
    date.day = fluent_date_byte(day);
    return date;
}

/* The date with this time. */
static inline struct FluentDate fluent_date_at(struct FluentDate date, long long hour, long long minute, long long second) {
    date.hour = fluent_date_byte(hour);
    date.minute = fluent_date_byte(minute);
    date.second = fluent_date_byte(second);
    date.has_time = true;
    return date;
}

/* The date on a clock that is this number of seconds ahead of UTC, less than a day in either direction. */
static inline struct FluentDate fluent_date_on(struct FluentDate date, long long offset) {
    date.offset = offset < INT32_MIN ? INT32_MIN : offset > INT32_MAX ? INT32_MAX : (int32_t)offset;
    date.has_offset = true;
    return date;
}

/* The date and the time of a `struct tm`, as localtime or gmtime makes it. Its weekday and its day of the year don't count. A
 * leap second is the second before it. What is ahead of UTC isn't known then: fluent_date_on adds it, for example
 * `tm.tm_gmtoff` where the system has it. */
static inline struct FluentDate fluent_date_of_tm(const struct tm *tm) {
    struct FluentDate date = fluent_date_of(1900LL + tm->tm_year, 1LL + tm->tm_mon, tm->tm_mday);
    return fluent_date_at(date, tm->tm_hour, tm->tm_min, tm->tm_sec == 60 ? 59 : tm->tm_sec);
}

/* The date and the time that a clock shows which is this number of seconds ahead of UTC, at a time of POSIX: seconds since 1970. */
static inline struct FluentDate fluent_date_of_time(time_t time, int32_t offset) {
    /* Far from the years that a date has there is none, and the sums below stay small. */
    long long most = 400000000000LL, shown = time < -most ? -most : time > most ? most : (long long)time;
    long long seconds = shown + (offset < -86400 ? -86400 : offset > 86400 ? 86400 : offset);
    long long days = seconds / 86400 - (seconds % 86400 < 0), second = seconds - days * 86400;
    /* Days since 1 March of the year 0 in cycles of 400 years, of which a year begins in March. */
    long long from = days + 719468, cycle = from / 146097 - (from % 146097 < 0), day = from - cycle * 146097;
    long long year = (day - day / 1460 + day / 36524 - day / 146096) / 365;
    long long of_year = day - (365 * year + year / 4 - year / 100), month = (5 * of_year + 2) / 153;
    struct FluentDate date = fluent_date_of(
        cycle * 400 + year + (month > 9), month < 10 ? month + 3 : month - 9, of_year - (153 * month + 2) / 5 + 1);
    return fluent_date_on(fluent_date_at(date, second / 3600, second / 60 % 60, second % 60), offset);
}

/* Writes the last digits of a number, and gives the place after them. */
static inline char *fluent_put_digits(char *at, uint32_t number, int count) {
    int each;
    for (each = count - 1; each >= 0; each--, number /= 10)
        at[each] = (char)('0' + number % 10);
    return at + count;
}

/* Writes a date as ISO 8601 has it, such as `2026-11-28T20:15:00+01:00`, and gives `iso`. If it isn't one that
 * fluent_write_date takes, or its year isn't from 0 to 9999, the text is no date. */
static inline const char *fluent_date_iso(const struct FluentDate *date, char iso[FLUENT_ISO_ROOM]) {
    char *at = iso;
    uint32_t ahead = date->offset < 0 ? 0U - (uint32_t)date->offset : (uint32_t)date->offset;
    bool is_date = date->year >= 0 && date->year <= 9999 && date->month < 100 && date->day < 100 && date->hour < 100
        && date->minute < 100 && date->second < 100 && date->nanosecond < 1000000000 && ahead < 360000;
    if (is_date) {
        at = fluent_put_digits(at, (uint32_t)date->year, 4);
        *at++ = '-';
        at = fluent_put_digits(at, date->month, 2);
        *at++ = '-';
        at = fluent_put_digits(at, date->day, 2);
    }
    if (is_date && date->has_time) {
        *at++ = 'T';
        at = fluent_put_digits(at, date->hour, 2);
        *at++ = ':';
        at = fluent_put_digits(at, date->minute, 2);
        *at++ = ':';
        at = fluent_put_digits(at, date->second, 2);
        *at++ = '.';
        at = fluent_put_digits(at, date->nanosecond, 9);
    }
    if (is_date && date->has_time && date->has_offset) {
        *at++ = date->offset < 0 ? '-' : '+';
        at = fluent_put_digits(at, ahead / 3600, 2);
        *at++ = ':';
        at = fluent_put_digits(at, ahead / 60 % 60, 2);
        *at++ = ':';
        at = fluent_put_digits(at, ahead % 60, 2);
    }
    *at = 0;
    return iso;
}

/* An argument that is a date, of the kind FLUENT_DATETIME. `iso` has room for its text, and has to last as long as the argument. If
 * fluent_date_iso gives no date, the argument is refused with FLUENT_BAD_ARGUMENT. */
static inline struct FluentArgument fluent_date_argument(
    const char *name, const struct FluentDate *date, char iso[FLUENT_ISO_ROOM]) {
    struct FluentArgument argument = fluent_text_argument(name, fluent_date_iso(date, iso));
    argument.kind = FLUENT_DATETIME;
    return argument;
}

/* Reads this number of digits. Gives whether they are there. */
static inline bool fluent_date_digits(const char **at, int count, uint32_t *number) {
    int each;
    *number = 0;
    for (each = 0; each < count; each++, ++*at) {
        if (**at < '0' || **at > '9')
            return false;
        *number = *number * 10 + (uint32_t)(**at - '0');
    }
    return true;
}

/* Reads two digits after this character. Gives whether they are there. */
static inline bool fluent_date_two(const char **at, char first, uint32_t *number) {
    if (**at != first)
        return false;
    ++*at;
    return fluent_date_digits(at, 2, number);
}

/* Reads a time, with seconds and up to nine digits after them if they are there. Gives whether it is one. */
static inline bool fluent_date_clock(const char **at, struct FluentDate *date) {
    uint32_t hour, minute, second = 0, unit = 100000000;
    if (!fluent_date_digits(at, 2, &hour) || !fluent_date_two(at, ':', &minute))
        return false;
    if (**at == ':') {
        if (!fluent_date_two(at, ':', &second))
            return false;
        if (**at == '.' || **at == ',') {
            const char *first = ++*at;
            for (; **at >= '0' && **at <= '9' && unit; ++*at, unit /= 10)
                date->nanosecond += unit * (uint32_t)(**at - '0');
            if (*at == first)
                return false;
        }
    }
    *date = fluent_date_at(*date, hour, minute, second);
    return true;
}

/* Reads an offset: `Z`, or a sign with hours and minutes, and seconds if they are there. Gives whether it is one. */
static inline bool fluent_date_offset(const char **at, struct FluentDate *date) {
    uint32_t hours, minutes, seconds = 0;
    char sign = **at;
    long long size;
    if (sign == 'Z' || sign == 'z') {
        ++*at;
        *date = fluent_date_on(*date, 0);
        return true;
    }
    if ((sign != '+' && sign != '-') || !fluent_date_two(at, sign, &hours) || !fluent_date_two(at, ':', &minutes))
        return false;
    if (**at == ':' && !fluent_date_two(at, ':', &seconds))
        return false;
    if (minutes > 59 || seconds > 59)
        return false;
    size = hours * 3600LL + minutes * 60LL + seconds;
    *date = fluent_date_on(*date, sign == '-' ? -size : size);
    return true;
}

/* Reads a date of ISO 8601: `2026-11-28`, `2026-11-28T20:15`, `2026-11-28T20:15:05.123+01:00`. After the date is `T`, in either
 * case, or a space. Gives whether the text is in this form; whether there is such a date says fluent_write_date. */
static inline bool fluent_date_of_iso(const char *iso, struct FluentDate *date) {
    const char *at = iso;
    uint32_t year, month, day;
    struct FluentDate made;
    if (!fluent_date_digits(&at, 4, &year) || !fluent_date_two(&at, '-', &month) || !fluent_date_two(&at, '-', &day))
        return false;
    made = fluent_date_of(year, month, day);
    if (*at == 'T' || *at == 't' || *at == ' ') {
        ++at;
        if (!fluent_date_clock(&at, &made) || (*at && !fluent_date_offset(&at, &made)))
            return false;
    }
    if (*at)
        return false;
    *date = made;
    return true;
}

/* Answers a call of a DATETIME that your program names among its functions, whose text is `text`: its first argument is a date, or a
 * text as ISO 8601 writes a date, and the others are options. Without such a date, and in a locale that isn't known, it has no
 * value. A bundle without such a function needs no answers: it has its own DATETIME, which takes dates alone.
 *
 * It returns FLUENT_READ, or FLUENT_NO_MEMORY, or FLUENT_BAD_ARGUMENT if `text` holds no text. The answers are unchanged then. */
static inline uint32_t fluent_answer_date(
    struct FluentAnswers *answers, const struct FluentText *text, const struct FluentCall *call, const char *locale) {
    const struct FluentArgument *first = fluent_positional(call, 0);
    struct FluentArgument value = fluent_no_value(NULL);
    struct FluentText shown = {0};
    struct FluentDate date;
    uint32_t status = FLUENT_BAD_ARGUMENT;
    if (first && (first->kind == FLUENT_TEXT || first->kind == FLUENT_DATETIME) && fluent_date_of_iso(fluent_argument_string(first), &date))
        status = fluent_date_text(locale, &date, call->named, call->named_count, &shown);
    if (status == FLUENT_NO_MEMORY)
        return status;
    if (status == FLUENT_READ) {
        value = fluent_text_argument(NULL, NULL);
        value.text = shown.bytes;
        value.text_len = shown.len;
    }
    status = fluent_add_answer(answers, text, value);
    fluent_free_text(&shown);
    return status;
}

#endif
