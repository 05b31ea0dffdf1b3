#!/usr/bin/env python3
"""Holds the weekday of the definition against Python's, for every day from the year 1 to 9999.

The formula is that of `weekday` of crates/fluent_date/specs/Calendar.antt, which the code is proved to follow. Ends with
'N passed, M failed', a day each, and with 1 if one failed.
"""
import datetime
import sys


def weekday_by(year: int, month: int, day: int) -> int:
    return (day + 13 * (month + 1) // 5 + year + year // 4 - year // 100 + year // 400 + 6) % 7


def weekday(year: int, month: int, day: int) -> int:
    """The weekday, from Sunday, 0. January and February count as months 13 and 14 of the year before."""
    in_cycle = year % 400
    return weekday_by(in_cycle + 399, month + 12, day) if month < 3 else weekday_by(in_cycle, month, day)


def main() -> None:
    day, one, passed, failed = datetime.date.min, datetime.timedelta(days=1), 0, 0
    while True:
        is_right = weekday(day.year, day.month, day.day) == day.isoweekday() % 7
        passed, failed = passed + is_right, failed + (not is_right)
        if day == datetime.date.max:
            break
        day += one
    print(f'{passed} passed, {failed} failed')
    sys.exit(failed > 0)


main()
