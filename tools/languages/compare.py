#!/usr/bin/env python3
"""Holds the library's negotiations against a model's, on random tags: compare.py [COUNT [SEED]].

It asks the Python module, so run bindings/python/run.sh before, or let KOZHVADI_LIBRARY name the shared library. It prints
the first differences, and how many there were of how many; it ends with 1 if there was one.
"""
import random
import sys
from pathlib import Path

HERE = Path(__file__).resolve().parent
sys.path[:0] = [str(HERE.parents[1] / 'bindings/python'), str(HERE.parent)]

from cases import cases  # noqa: E402
from kozhvadi import negotiate_languages  # noqa: E402
from lib.cldr import data as data_of  # noqa: E402
from model import Model  # noqa: E402


def main():
    count, seed = ([int(word) for word in sys.argv[1:]] + [20000, 1][len(sys.argv) - 1:])[:2]
    data = data_of('languages')
    model, differ = Model(data), 0
    for strategy, requested, available, default in cases(data, random.Random(seed), count):
        told = negotiate_languages(requested, available, default, strategy)
        wanted = model.negotiate(requested, available, default, strategy)
        if told != wanted:
            differ += 1
            if differ < 5:
                print(f'{strategy} {requested} of {available}, {default}: {told}, and not {wanted}')
    print(f'{count} negotiations, {differ} differ')
    sys.exit(differ > 0)


main()
