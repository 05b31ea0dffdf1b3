#!/usr/bin/env python3
"""Holds what the library looks up against ICU's LocaleMatcher, that of UTS 35: with_icu.py PROGRAM [COUNT [SEED]].

PROGRAM is matcher.cpp, built. It prints how often both choose the same, and how often they differ in each way, with an example.
Differences fail nothing: ICU measures distances, and may be of another CLDR.
"""
import random
import subprocess
import sys
from collections import Counter
from pathlib import Path

HERE = Path(__file__).resolve().parent
sys.path[:0] = [str(HERE.parents[1] / 'bindings/python'), str(HERE.parent)]

from cases import cases  # noqa: E402
from kozhvadi import negotiate_languages  # noqa: E402
from lib.cldr import data as data_of  # noqa: E402
from model import Model, parse  # noqa: E402


def known(texts):
    """The tags that ICU knows, too."""
    return [text.replace('_', '-') for text in texts if parse(text) and 'und' not in text.lower()]


def kind_of(model, requested, ours, theirs):
    """How two answers differ; each is a text, or `None`."""
    places = [model.place(parse(text))[2] for text in requested]
    one, other = [text and model.place(parse(text)) for text in (ours, theirs)]
    if one == other:
        return 'the same'
    if not one:
        is_asked = other[2][0] in {place[0] for place in places}
        return 'ICU takes another script' if is_asked else 'ICU takes a related language'
    if not other:
        return 'ICU takes none: another script of Serbian' if one[1][0] == 'sr' else 'ICU takes none'
    first = [[place[0] for place in places].index(place[2][0]) if place[2][0] in {each[0] for each in places} else None
             for place in (one, other)]
    return 'another request is met' if first[0] != first[1] else 'one request is met by another region, script or variant'


def main():
    program = sys.argv[1]
    count, seed = ([int(word) for word in sys.argv[2:]] + [20000, 1][len(sys.argv) - 2:])[:2]
    data = data_of('languages')
    model, kinds, examples = Model(data), Counter(), {}
    tried = [(known(requested), known(available)) for _, requested, available, _ in cases(data, random.Random(seed), count)]
    tried = [case for case in tried if all(case)]
    lines = ''.join('\t'.join(map(','.join, case)) + '\n' for case in tried)
    told = subprocess.run([program], input=lines, capture_output=True, text=True, check=True).stdout.split()
    for (requested, available), at in zip(tried, map(int, told)):
        theirs = available[at] if at >= 0 else None
        ours = (negotiate_languages(requested, available, None, 'lookup') or [None])[0]
        kind = kind_of(model, requested, ours, theirs)
        kinds[kind] += 1
        examples.setdefault(kind, f'{",".join(requested)} of {",".join(available)}: {ours}, ICU {theirs}')
    print(f'{len(tried)} look-ups beside ICU')
    for kind, number in kinds.most_common():
        print(f'{number:6} {kind}' + ('' if kind == 'the same' else f': {examples[kind]}'))


main()
