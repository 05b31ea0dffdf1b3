#!/usr/bin/env python3
"""Compares the texts of doubles from C with those that Python's `repr` and `decimal` give.

    doubles.py PROGRAM POINT

PROGRAM is that of doubles.c, which runs in the locale of the environment. POINT is the decimal point that the locale has
to have. Prints how many texts were compared, and ends with 1 if one differs.
"""

import math
import random
import struct
import subprocess
import sys
from collections.abc import Iterator
from decimal import ROUND_HALF_UP, Context, Decimal

PLACES = Decimal(1).scaleb(-18)
ROUNDING = Context(prec=60, rounding=ROUND_HALF_UP)


def bits(value: float) -> str:
    return struct.pack(">d", value).hex()


def written(value: float) -> str | None:
    """The decimal of a double: the digits of `repr`, rounded to 18 after the point. `None` if the argument is a text."""
    if not abs(value) < 2**64:
        return None
    number = Decimal(repr(value))
    if number.as_tuple().exponent < -18:
        number = number.quantize(PLACES, context=ROUNDING)
    text = format(number, "f")
    text = text.rstrip("0").rstrip(".") if "." in text else text
    return "0" if text == "-0" else text


def is_right(value: float, line: str) -> bool:
    kind, text, read = line.split(" ")
    wanted = written(value)
    if wanted is not None:
        return kind == "float" and text == wanted and read == bits(float(text))
    # Of a few powers of two above 2^64 `repr` finds a digit less.
    is_same = text == repr(value) or (float(text) == value and len(text) == len(repr(value)) + 1)
    return kind == "text" and is_same and read == "0" * 16


def around(value: float) -> Iterator[float]:
    yield from (value, math.nextafter(value, 0), math.nextafter(value, math.inf))


def distances() -> Iterator[float]:
    """Doubles whose sign doesn't matter: around the powers of two and ten, ties of 16 digits, and others by chance."""
    chance = random.Random(1)
    for power in range(-1074, 1024):
        yield from around(math.ldexp(1, power))
    for power in range(-30, 309):
        yield from around(float(f"1e{power}"))
        yield from around(float(f"5e{power}"))
    for _ in range(4000):
        yield struct.unpack(">d", chance.randbytes(8))[0]
        yield chance.random() * 10.0 ** chance.randrange(-20, 21)
        yield round(chance.random() * 10 ** chance.randrange(9), 2)
        yield chance.randrange(2**64) / 2.0 ** chance.randrange(80)
        yield 2**49 + chance.randrange(2**49) + 0.25
    yield from (0.0, 0.1, 0.1 + 0.2, 1 / 3, 1234.5, 5e-19, 1e-18, 1.5e-18, 0.9999999999999999, sys.float_info.max)
    yield from (math.nan, math.inf)


def main() -> None:
    program, point = sys.argv[1:]
    values = [sign * abs(value) for value in distances() for sign in (1, -1)]
    given = "".join(f"{bits(value)}\n" for value in values)
    ran = subprocess.run([program], input=given, capture_output=True, text=True, check=True)
    found_point, *lines = ran.stdout.splitlines()
    if found_point != point:
        sys.exit(f"doubles.py: the point of the locale is {found_point!r}")
    wrong = len(values) - len(lines)
    for value, line in zip(values, lines):
        if not is_right(value, line):
            wrong += 1
            print(f"{value!r} is wrong: {line}")
    print(f"doubles with the point {point!r}: {len(values)} tried, {wrong} wrong")
    sys.exit(wrong != 0)


if __name__ == "__main__":
    main()
