#!/usr/bin/env python3
"""Compares the definitions of the plural rules with Unicode's data, word for word.

    tools/plurals/compare.py [ROOT]

It shares no code with what generates the definitions. Each set of rules in `Cardinal.antt` and `Ordinal.antt` is turned back
into the words of CLDR and compared with the XML, and so is the set that each language has by `Languages.antt`.

Prints what differs, ends with 'N passed, M failed', a set or a language each, and with 1 if one failed.
"""
import re
import sys
import xml.etree.ElementTree as xml
from pathlib import Path
from typing import Iterator

sys.path.insert(0, str(Path(__file__).resolve().parents[1]))

from lib.cldr import data as data_of

ROOT = Path(sys.argv[1] if len(sys.argv) > 1 else Path(__file__).parents[2])
SPECS = ROOT / 'crates/fluent_plurals/specs'
DATA = data_of('plurals', ROOT)
KINDS = {'Cardinal': 'plurals.xml', 'Ordinal': 'ordinals.xml'}

# Rules, as pairs of a category and a condition in CLDR's words.
Rules = list[tuple[str, str]]


def in_words(condition: str) -> str:
    """A condition of the definitions in the words of CLDR."""
    condition = re.sub(r' modulo (\d+)', r' % \1', condition)
    for ours, theirs in ((' equals ', ' = '), (' differs_from ', ' != '), (' ∈ ', ' = '), (' ∉ ', ' != '),
                         (' ‥ ', '..'), (' ∪ ', ',')):
        condition = condition.replace(ours, theirs)
    condition = re.sub(r'only (\d+)', r'\1', condition)
    return re.sub(r'\s+', ' ', re.sub(r'[()]', '', condition)).strip()


def defined(kind: str) -> dict[tuple[str, ...], tuple[str, Rules]]:
    """The sets of a file of definitions: by their languages, as the comment above each has them, its name and its rules."""
    text = (SPECS / f'{kind}.antt').read_text()
    named = dict(re.findall(r'abbrev pub (\w+) : Condition\n\1 =\s*(.*?)(?=\n\n)', text, re.S))
    sets = {}
    for block in re.split(r'^-- ', text, flags=re.M):
        found = re.search(r'abbrev pub (\w+) : List Rule\n\1 =\n(.*?)\[\]', block, re.S)
        if found:
            rules = re.findall(r'\((\w+) when (.*?)\) ∷', found[2], re.S)
            sets[tuple(block.partition('\n')[0].split())] = found[1], [
                (category.lower(), in_words(named.get(condition.strip(), condition))) for category, condition in rules
            ]
    return sets


def published(kind: str) -> Iterator[tuple[tuple[str, ...], Rules]]:
    """The sets of CLDR that have rules beside `other`. The operand `c` is another name of `e`."""
    for part in xml.parse(DATA / KINDS[kind]).iter('pluralRules'):
        rules = [
            (rule.attrib['count'], re.sub(r'\s+', ' ', rule.text.split('@')[0].strip()).replace('c %', 'e %'))
            for rule in part.iter('pluralRule') if rule.attrib['count'] != 'other'
        ]
        yield tuple(part.attrib['locales'].split()), rules


def languages() -> dict[str, tuple[str, str]]:
    """The cardinal and the ordinal set of each language of `Languages.antt`."""
    text = (SPECS / 'Languages.antt').read_text()
    found = re.findall(r'codes "([^"]+)", cardinal\.(\w+), ordinal\.(\w+)', text)
    return {tag: (cardinal.lower(), ordinal.lower()) for tag, cardinal, ordinal in found}


def differing_sets(kind: str) -> Iterator[str | None]:
    """For each set of CLDR what is wrong with the definition, or None."""
    sets = defined(kind)
    for tags, rules in published(kind):
        if rules:
            name, ours = sets.get(tags, ('', []))
            yield None if ours == rules else f'{kind}, {name or " ".join(tags)}: {ours} for {rules}'


def differing_languages() -> Iterator[str | None]:
    """The same for each language, and for `und`, another name of the root."""
    ours = languages()
    wanted: dict[str, list[str]] = {}
    for index, kind in enumerate(KINDS):
        sets = defined(kind)
        for tags, rules in published(kind):
            for tag in tags:
                wanted.setdefault(tag.lower().replace('_', '-'), ['root', 'root'])[index] = \
                    sets[tags][0] if rules and tags in sets else 'root'
    wanted['und'] = wanted['root']
    for tag in sorted(wanted.keys() | ours.keys()):
        want = tuple(wanted.get(tag, ()))
        yield None if ours.get(tag) == want else f'{tag}: {ours.get(tag)} for {want}'


def main() -> None:
    results = [*differing_sets('Cardinal'), *differing_sets('Ordinal'), *differing_languages()]
    wrong = [result for result in results if result is not None]
    print(*wrong, sep='\n', end='\n' if wrong else '')
    print(f'{len(results) - len(wrong)} passed, {len(wrong)} failed')
    sys.exit(bool(wrong))


main()
