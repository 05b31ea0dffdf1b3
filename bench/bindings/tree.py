#!/usr/bin/env python3
"""How fast `kozhvadi.syntax` reads files, in time of the processor.

    tree.py FILE..

It prints the speed to a tree that nobody walks, and the seconds to read all files and to visit each node. Run it with
bindings/python in PYTHONPATH, after bindings/python/run.sh, on an idle machine.
"""
import sys
import time
from pathlib import Path

from kozhvadi.syntax import Visitor, parse

ROUNDS = 5


def best(action):
    """The shortest time of some rounds."""
    times = []
    for _ in range(ROUNDS):
        start = time.process_time()
        action()
        times.append(time.process_time() - start)
    return min(times)


def walk(sources):
    for source in sources:
        Visitor().visit(parse(source))


def main():
    sources = [Path(name).read_text(encoding='utf-8') for name in sys.argv[1:]]
    size = sum(len(source.encode()) for source in sources)
    unwalked = best(lambda: [parse(source) for source in sources])
    print(f'{size} bytes: {size / unwalked / 1e6:.0f} MB/s to trees that nobody walks')
    print(f'{best(lambda: walk(sources)):.3f} s to read and to visit every node')


if __name__ == '__main__':
    main()
