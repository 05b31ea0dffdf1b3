#!/usr/bin/env python3
"""Compares the definitions of what locales write dates by with the collected data, row by row.

    tools/dates/compare.py [ROOT]

It shares no code with what generates the definitions: it reads the rows of `Texts.antt`, `Lists.antt`, `Skeletons.antt`, `Rows.antt`,
`Digits.antt` and `Tags.antt` of `fluent_date_tables`. That the tables of the code are those of the definitions is proved.

Prints what differs, ends with 'N passed, M failed', a row each, and with 1 if one failed.
"""
import itertools
import json
import re
import sys
from pathlib import Path
from typing import Iterator

sys.path.insert(0, str(Path(__file__).resolve().parents[1]))

from lib.cldr import data as data_of

ROOT = Path(sys.argv[1] if len(sys.argv) > 1 else Path(__file__).parents[2])
SPECS = ROOT / 'crates/fluent_date_tables/specs'
DATA = json.loads((data_of('dates', ROOT) / 'dates.json').read_text(encoding='utf-8'))
TEXT = r'"((?:[^"\\]|\\.)*)"'
# The letters of UTS 35 at each place, and how far each is from the first.
PLACES = [{'G': 0}, {'y': 0}, {'M': 0, 'L': 16}, {'E': 0, 'c': 32}, {'d': 0}, {'a': 0, 'B': 48},
          {'h': 0, 'K': 16, 'H': 160, 'k': 176}, {'m': 0}, {'s': 0}, {'S': 0}, {'z': 0, 'O': 16, 'v': 32, 'Z': 16}]
# The letters that are numbers, up to which count.
NUMBERS = {**dict.fromkeys('ydhKHkmsS', 255), **dict.fromkeys('MLc', 2)}
TEXT_MEASURES = {5: 0xff, 4: 0xfc}
# The columns of a row, and which of them are one number.
SINGLE = ['decimal', 'fields', 'date_patterns', 'time_patterns', 'hours', 'gmt', 'utc']
LISTS = ['times', 'dates', 'glue', 'append', 'month', 'own_month', 'day', 'own_day', 'eras', 'halves', 'parts']


def source(name: str) -> str:
    return (SPECS / f'{name}.antt').read_text(encoding='utf-8')


def plain(text: str) -> str:
    """A literal's text, with the characters that it writes by their numbers."""
    return re.sub(r'\\u\{([0-9a-f]+)\}|\\(.)', lambda found: chr(int(found[1], 16)) if found[1] else found[2], text)


def parts(name: str, kind: str, asked: str) -> list[str]:
    """The lists that a table is made of, in the order in which the definition `asked` looks through them."""
    text = source(name)
    numbers = re.findall(rf'{kind}_(\w+)', text[text.index(f'\n{asked}'):])
    return [re.search(rf'^{kind}_{number} =\n(.*?)^    \[\]$', text, re.M | re.S)[1] for number in numbers]


def texts() -> list[str]:
    return [plain(found) for part in parts('Texts', 'texts', 'text_numbered number =') for found in re.findall(rf'utf8 {TEXT}', part)]


def lists() -> list[list[list[int]]]:
    groups = [group for part in parts('Lists', 'lists', 'list_numbered number =') for group in re.split(r'\[\]\)', part)]
    return [[[int(n) for n in pair] for pair in re.findall(r'\((\d+) ∶ (\d+)\)', group)] for group in groups if '∶' in group]


def numbers(listed: str) -> list[int]:
    return [int(n) for n in re.findall(r'\d+', listed)]


def skeletons() -> list[tuple]:
    row = re.compile(r'skeleton_row\s+(true|false)\s+\(([^)]*)\)\s+\(([^)]*)\)')
    return [(given == 'true', numbers(counts), numbers(measures)) for given, counts, measures in row.findall(source('Skeletons'))]


def skeleton_of(text: str) -> tuple:
    """The row of a skeleton as the data has it: its letters, after `!` if CLDR gives patterns for them."""
    counts, measures = [0] * 11, [0] * 11
    for letter, group in itertools.groupby(text.lstrip('!')):
        count = len(list(group))
        place = next(place for place, letters in enumerate(PLACES) if letter in letters)
        apart = PLACES[place][letter]
        counts[place] = count
        is_number = count <= NUMBERS.get(letter, 0)
        measures[place] = 0x300 + apart + count if is_number else TEXT_MEASURES.get(count, 0xfd) - apart
    return text.startswith('!'), counts, measures


def rows() -> list[dict]:
    digits = {name: plain(found) for name, found in re.findall(rf'^(\w+) = codes {TEXT}', source('Digits'), re.M)}
    text = source('Rows')
    found = []
    for row in re.split(r'\brow (?=[a-z]+ H)', text[text.index('\nrows ='):])[1:]:
        system, cycle, twelve, rest = row.split(None, 3)
        single, listed = rest.split('(', 1)
        groups = [numbers(group) for group in listed.split('(')]
        made = {'digits': digits[system], 'cycle': cycle.lower(), 'twelve': twelve.lower()}
        found.append({**made, **dict(zip(SINGLE, numbers(single), strict=True)), **dict(zip(LISTS, groups, strict=True))})
    return found


def row_of(row: dict) -> dict:
    """A row of the data in the columns of the definition."""
    names = ['month', 'own_month', 'day', 'own_day', 'eras', 'halves']
    parted = {name: row['names'][3 * k:3 * k + 3] for k, name in enumerate(names)}
    kept = {key: value for key, value in row.items() if key not in ('names', 'periods')}
    return {**kept, **parted, 'parts': row['periods']}


def tags() -> dict[str, int]:
    found = [re.findall(rf'\({TEXT} ⇒ (\d+)\)', part) for part in parts('Tags', 'tags', 'tags =')]
    return {tag: int(row) for part in found for tag, row in part}


def differing(kind: str, ours: list, theirs: list) -> Iterator[str | None]:
    """For each row of either what is wrong with the definition, or None."""
    for number, (our, their) in enumerate(itertools.zip_longest(ours, theirs)):
        yield None if our == their else f'{kind}, {number}: {our} for {their}'


def out_of_order(found: list[str]) -> Iterator[str | None]:
    """For each tag whether one that it begins with is before it, which would hide it."""
    for index, tag in enumerate(found):
        hiding = [other for other in found[:index] if tag.startswith(other + '-')]
        yield f'{tag} after {hiding}' if hiding else None


def results() -> Iterator[str | None]:
    yield from differing('texts', texts(), DATA['texts'])
    yield from differing('lists', lists(), DATA['lists'])
    yield from differing('skeletons', skeletons(), [skeleton_of(text) for text in DATA['skeletons']])
    yield from differing('rows', rows(), [row_of(row) for row in DATA['rows']])
    yield from differing('tags', list(tags().items()), list(DATA['tags'].items()))
    yield from out_of_order(list(tags()))


def main() -> None:
    found = list(results())
    wrong = [result for result in found if result is not None]
    print(*wrong[:20], sep='\n', end='\n' if wrong else '')
    print(f'{len(found) - len(wrong)} passed, {len(wrong)} failed')
    sys.exit(bool(wrong))


main()
