#!/usr/bin/env python3
"""Holds the library's negotiations against those of the Rust crate fluent-langneg, and says which rules make the differences:
with_langneg.py PROGRAM [COUNT [SEED]].

PROGRAM is langneg/, built. It prints how many answers differ, and for each smallest set of rules that, as fluent-langneg has
them, removes a difference, how many it removes, with an example. The last rules are all of them: the model is fluent-langneg's
then. It ends with 1 if the model with all of them differs from fluent-langneg, or if no set removes a difference.
"""
import itertools
import random
import subprocess
import sys
from collections import Counter
from pathlib import Path

HERE = Path(__file__).resolve().parent
sys.path[:0] = [str(HERE.parents[1] / 'bindings/python'), str(HERE.parent)]

from cases import cases  # noqa: E402
from kozhvadi import negotiate_languages  # noqa: E402
from lib.cldr import data as data_of  # noqa: E402
from model import Model, covers, fit, parse  # noqa: E402

RULES = 'parser und data codes script groups serbian default'.split()


def parts_of(text):
    """The parts of a tag in canonical case, in small letters; `None` for `!`."""
    language, *rest = text.split('-')
    script = rest.pop(0) if rest and len(rest[0]) == 4 and rest[0].istitle() else ''
    region = rest.pop(0) if rest and len(rest[0]) in (2, 3) else ''
    return None if text == '!' else (language, script.lower(), region.lower(), tuple(part.lower() for part in rest))


class Langneg:
    """What fluent-langneg answers."""

    def __init__(self, program):
        self.program, self.tags, self.full = program, {}, {}

    def ask(self, lines):
        told = subprocess.run([self.program], input=''.join(f'{line}\n' for line in lines), capture_output=True, text=True, check=True)
        return told.stdout.splitlines()

    def learn(self, texts, model):
        """Asks for the tags of texts, and for what is likely of them and of what becomes of them."""
        texts = sorted(texts)
        self.tags = dict(zip(texts, map(parts_of, self.ask(f'parse\t{text}' for text in texts))))
        tags = {tag[:3] for tag in [*self.tags.values(), *map(parse, texts)] if tag}
        tags |= {model.place((*tag, ()))[1][:3] for tag in tags}
        self.maximize_all(tags)
        self.maximize_all({(*tag[:2], '') for tag in [*tags, *filter(None, self.full.values())]})

    def maximize_all(self, tags):
        tags = sorted(tags)
        told = map(parts_of, self.ask('max\t' + '-'.join(filter(None, tag)) for tag in tags))
        self.full.update(zip(tags, (tag and tag[:3] for tag in told)))


class Mixed(Model):
    """The model, with some rules as fluent-langneg has them."""

    def __init__(self, data, rules, langneg):
        super().__init__(data)
        self.rules, self.langneg = rules, langneg

    def read(self, text):
        return self.langneg.tags[text] if 'parser' in self.rules else parse(text)

    def maximize(self, tag):
        if tag[0] == 'und' and 'und' in self.rules:
            return tag
        if 'data' in self.rules:
            full = self.langneg.full[tag[:3]]
            return (*full, tag[3]) if full else tag
        return super().maximize(tag)

    def place(self, tag):
        return (tag, tag, self.maximize(tag)) if 'codes' in self.rules else super().place(tag)

    def suits(self, way, request, offer):
        (asked, asked_modern, asked_full), (offered, modern, full) = request, offer
        if 'und' in self.rules and modern[0] == 'und':
            # An available `und` is any language.
            if asked[0] == 'und' and way:
                return way == 1 and covers(modern, asked_modern)
            modern, full = (asked_full[0], *modern[1:]), (asked_full[0], *full[1:])
        elif 'und' in self.rules and asked[0] == 'und' and way > 1:
            return False
        has_groups, has_language = 'groups' not in self.rules, modern[0] == asked_full[0]
        has_script = fit(asked_full[1], modern[1] if 'script' in self.rules else full[1])
        is_near = has_script and (not has_groups or self.is_apart(asked_full) == self.is_apart(full))
        return [
            lambda: offered == asked,
            lambda: covers(modern, asked_modern) and is_near,
            lambda: covers(modern, asked_full) and is_near,
            lambda: has_language and fit(modern[1], asked_full[1]) and fit(modern[2], asked_full[2]) and is_near,
            lambda: has_groups and has_language and self.standing.get(modern[0]) == modern[2] and is_near,
            lambda: has_groups and has_language and modern[0] in self.groups and is_near,
            lambda: covers(modern, self.maximize((*asked_full[:2], '', ()))) and has_script,
            lambda: has_language and has_script,
            lambda: 'serbian' not in self.rules and has_language and modern[0] == 'sr',
        ][way]()

    def last_of(self, default):
        return default if 'default' not in self.rules or default and self.read(default) else None

    def is_done(self, found, more):
        return more if 'default' in self.rules else found


def smallest(mixed, case, theirs):
    """The smallest sets of rules with which the model answers as fluent-langneg does."""
    for size in range(1, len(RULES) + 1):
        hits = [rules for rules in itertools.combinations(RULES, size) if mixed(rules).negotiate(*case) == theirs]
        if hits:
            return ' or '.join('+'.join(rules) for rules in hits)
    return '?'


def main():
    program = sys.argv[1]
    count, seed = ([int(word) for word in sys.argv[2:]] + [20000, 1][len(sys.argv) - 2:])[:2]
    data = data_of('languages')
    langneg, models, sets, examples, unlike = Langneg(program), {}, Counter(), {}, 0

    def mixed(rules):
        return models.setdefault(rules, Mixed(data, rules, langneg))

    tried = list(cases(data, random.Random(seed), count))
    langneg.learn({text for _, requested, available, default in tried for text in [*requested, *available, default or '']}, Model(data))
    told = langneg.ask('\t'.join([strategy[0], ','.join(requested), ','.join(available), default or '']) for
                       strategy, requested, available, default in tried)
    for (strategy, requested, available, default), theirs in zip(tried, told):
        case = requested, available, default, strategy
        theirs = theirs.split(',') if theirs else []
        unlike += mixed(tuple(RULES)).negotiate(*case) != theirs
        ours = negotiate_languages(*case)
        if ours != theirs:
            rules = smallest(mixed, case, theirs)
            sets[rules] += 1
            examples.setdefault(rules, f'{strategy} {",".join(requested)} of {",".join(available)}: {ours}, and not {theirs}')
    print(f'{count} negotiations, {sum(sets.values())} differ from fluent-langneg, and {unlike} of its model do')
    for rules, number in sets.most_common(20):
        print(f'{number:6} {rules}: {examples[rules]}')
    sys.exit(bool(unlike or sets['?']))


main()
