#!/usr/bin/env python3
"""How long the language server takes to answer a change of a file of 5,000 lines.

    bench/editor/change.py [LINES [TIMES]]

Changes a document again and again, each time in another line, and takes the time until the findings of the new text
have come. Prints the median and the worst, in ms; those of one call of `lint` with the same text; and the ratio of the
medians. Ends with 1 if the median is above 50 ms. It needs an idle machine.

It needs the module's library, which `bindings/python/run.sh` makes.
"""

import statistics
import sys
import time
from pathlib import Path

sys.path.insert(0, str(Path(__file__).resolve().parents[2] / "bindings" / "python"))

from kozhvadi import lint  # noqa: E402
from tests.language_client import Client  # noqa: E402

MOST = 50


def source(count):
    """A source of this many lines: messages, attributes, a select in every 40 lines, and a few mistakes."""
    lines = ["-brand = Kozhvadi", "    .gender = masculine"]
    number = 0
    while len(lines) < count:
        number += 1
        lines += [
            f"# Shown in window {number}.",
            f"title-{number} = Welcome to {{ -brand }}, {{ $name }}!",
            "    .tooltip = A text of middling length, as a button has it",
            "",
        ]
        if number % 10 == 0:
            variants = ["    [one] One message.", "   *[other] { $count } messages in { title-1 }."]
            lines += [f"count-{number} = {{ $count ->", *variants, "}"]
        if number % 100 == 0:
            lines.append(f"wrong-{number} = {{ -brnad }} {{ titel }}")
    return lines[:count]


def main():
    count, times = [*map(int, sys.argv[1:]), *[5_000, 50][len(sys.argv) - 1 :]]
    lines = source(count)
    served, called = [], []
    with Client() as client:
        client.start()
        uri = client.open("file:///tmp/none/en/large.ftl", "\n".join(lines))
        client.diagnostics(uri)
        for number in range(times):
            place = 6 + 40 * number % (count - 10)
            changed = "\n".join([*lines[:place], f"typed-{number} = {{ titl }}", *lines[place:]])
            begins = time.perf_counter()
            client.change(uri, changed, number)
            client.diagnostics(uri, number)
            served.append(1000 * (time.perf_counter() - begins))
            begins = time.perf_counter()
            lint({uri: changed}, locale="en")
            called.append(1000 * (time.perf_counter() - begins))
    middle, alone = statistics.median(served), statistics.median(called)
    print(f"{count} lines, {len(changed.encode())} bytes, {times} changes")
    print(f"server {middle:.1f} ms, at most {max(served):.1f} ms")
    print(f"lint   {alone:.1f} ms, at most {max(called):.1f} ms")
    print(f"ratio  {middle / alone:.2f}")
    return middle > MOST


if __name__ == "__main__":
    sys.exit(main())
