#!/usr/bin/env python3
"""How many times as long an answer takes that makes 1,000 different calls of functions as one that makes 100, from Python.

    calls.py

Each sample of the one is next to ten of the other, so that both meet what else the machine does, and times are those of
the processor. Run it with bindings/python in PYTHONPATH, after bindings/python/run.sh. KOZHVADI_CTYPES=1 leaves the
extension out.
"""
import time

from kozhvadi import Bundle, _extension

FEW, MANY = 100, 1000
SAMPLES = 40


def bundle(count):
    """A bundle with a message that has this many different calls, all of them arguments of another."""
    calls = ", ".join(f"NEXT({number})" for number in range(count))
    functions = {"NEXT": lambda number: number + 1, "COUNT": lambda *numbers: len(numbers)}
    made = Bundle(f"m = {{ COUNT({calls}) }}\n", isolating=False, functions=functions)
    assert made.format("m") == (str(count), [])
    return made


def seconds(asked, times):
    start = time.process_time()
    for _ in range(times):
        asked.format("m")
    return (time.process_time() - start) / times


def main():
    few, many = bundle(FEW), bundle(MANY)
    samples = [(seconds(few, MANY // FEW), seconds(many, 1)) for _ in range(SAMPLES)]
    fews, manys = map(sorted, zip(*samples))
    print("Python, by the extension:" if _extension.calls_type else "Python, by ctypes:")
    for word, at in (("least", 0), ("middle", SAMPLES // 2)):
        times = manys[at] / fews[at]
        print(f"{word}: {FEW} calls {fews[at] * 1e3:.2f} ms, {MANY} {manys[at] * 1e3:.1f} ms, {times:.1f} times")


if __name__ == "__main__":
    main()
