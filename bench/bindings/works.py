"""What programs in Python do, by this repository's module and by fluent.runtime, if it is there.

    works.py                          the least time of some rounds, and the ratio: above 1 ours is faster
    works.py ours|theirs WORK STEPS   does one work so many times, for who counts its instructions
    works.py works                    lists the works
"""

from __future__ import annotations

import sys
import timeit
from collections.abc import Callable

from kozhvadi import Bundle, _extension

try:
    from fluent.runtime import FluentBundle, FluentResource
except ImportError:
    FluentBundle = None

TIMES = 20_000
ROUNDS = 7

TWO = "m = Hello, { $name }, you have { $count } new messages.\n"
TEN = f"m = {' '.join(f'{{ ${name} }}' for name in 'abcdefghij')}\n"

# The source of each work, its arguments, and whether the bundle has functions.
WORKS: dict[str, tuple[str, dict[str, object], bool]] = {
    "a text alone": ("m = Hello, this is a message of text alone.\n", {"name": "Jane", "count": 5}, False),
    "two variables": (TWO, {"name": "Jane", "count": 5}, False),
    "two texts": ("m = Hello, { $name }, you are in { $place } now.\n", {"name": "Jane", "place": "Zurich"}, False),
    "a number of seven digits": (TWO, {"name": "Jane", "count": 1_234_567}, False),
    "a select and a term": (
        "-brand = Kozhvadi\nm = { $count ->\n    [one] One page is open in { -brand }.\n"
        "   *[other] { $count } pages are open in { -brand }.\n}\n",
        {"name": "Jane", "count": 5},
        False,
    ),
    "ten variables": (TEN, dict.fromkeys("abcdefghij", "value"), False),
    "two errors": (TWO, {}, False),
    "ten errors": (TEN, {}, False),
    "a call of a function": ("m = Hello, { UPPER($name) }.\n", {"name": "Jane", "count": 5}, True),
    "two variables next to functions": (TWO, {"name": "Jane", "count": 5}, True),
}


def upper(text: object) -> str:
    return str(text).upper()


def call_of(arguments: dict[str, object]) -> str:
    """The arguments as they are written in a call."""
    return "".join(f", {name}={value!r}" for name, value in arguments.items())


def ours(work: str) -> tuple[str, dict[str, object]]:
    """The statement of a work, as a program has it, and what it names."""
    source, arguments, has_functions = WORKS[work]
    bundle = Bundle(source, locale="en-US", functions={"UPPER": upper} if has_functions else None)
    return f"bundle.format('m'{call_of(arguments)})", {"bundle": bundle}


def theirs(work: str) -> tuple[str, dict[str, object]]:
    source, arguments, has_functions = WORKS[work]
    bundle = FluentBundle(["en-US"], functions={"UPPER": upper} if has_functions else None)
    bundle.add_resource(FluentResource(source))
    return f"bundle.format_pattern(bundle.get_message('m').value, {arguments!r})", {"bundle": bundle}


def least(made: tuple[str, dict[str, object]]) -> float:
    """The microseconds of a step in the best round."""
    statement, names = made
    return min(timeit.repeat(statement, number=TIMES, repeat=ROUNDS, globals=names)) / TIMES * 1e6


def text(made: tuple[str, dict[str, object]]) -> str:
    statement, names = made
    return str(eval(statement, names)[0]).replace(",", "")


def report(work: str) -> None:
    took = least(ours(work))
    if FluentBundle is None:
        print(f"{work}: {took:.2f} us; no fluent.runtime: skipped")
        return
    other = least(theirs(work))
    same = "" if text(ours(work)) == text(theirs(work)) else "; the texts differ"
    print(f"{work}: {took:.2f} us, fluent.runtime {other:.2f}, ratio {other / took:.2f}{same}")


def main(words: list[str]) -> None:
    if words == ["works"]:
        print(*WORKS, sep="\n")
        return
    if not words:
        print("by the extension:" if _extension.calls_type else "by ctypes:")
        for work in WORKS:
            report(work)
        return
    whose, work, steps = words
    sides: dict[str, Callable[[str], tuple[str, dict[str, object]]]] = {"ours": ours, "theirs": theirs}
    made = sides[whose](work)
    timeit.timeit(made[0], number=int(steps), globals=made[1])
    print(text(made))


if __name__ == "__main__":
    main(sys.argv[1:])
