#!/usr/bin/env python3
"""Compares the definitions of how locales write numbers with the collected data, row by row.

    tools/numbers/compare.py [ROOT]

It shares no code with what generates the definitions: it reads the rows of `Locales.antt`, `FormTable.antt`, `Digits.antt`,
`Patterns.antt` and `Currencies.antt`.

Prints what differs, ends with 'N passed, M failed', a row each, and with 1 if one failed.
"""
import json
import re
import sys
from pathlib import Path
from typing import Iterator

sys.path.insert(0, str(Path(__file__).resolve().parents[1]))

from lib.cldr import data as data_of

ROOT = Path(sys.argv[1] if len(sys.argv) > 1 else Path(__file__).parents[2])
SPECS = ROOT / 'crates/fluent_numerals/specs'
DATA = json.loads((data_of('numbers', ROOT) / 'numbers.json').read_text(encoding='utf-8'))
PIECES = {'Minus': 'minus', 'PercentSign': 'percent', 'Currency': 'currency', 'CurrencyBeforeDigits': 'currency before digits',
          'CurrencyAfterDigits': 'currency after digits'}
TEXT = r'"([^"]*)"'


def source(name: str) -> str:
    """A file of definitions, with the characters that it writes by their numbers."""
    text = (SPECS / f'{name}.antt').read_text(encoding='utf-8')
    return re.sub(r'\\u\{([0-9a-f]+)\}', lambda found: chr(int(found[1], 16)), text)


def parts(name: str, kind: str, asked: str) -> list[str]:
    """The lists that a table is made of, in the order in which the definition `asked` looks through them."""
    text = source(name)
    numbers = re.findall(rf'{kind}_(\d+)', text[text.index(f'\n{asked} '):])
    return [re.search(rf'^{kind}_{number} =\n(.*?)^    \[\]$', text, re.M | re.S)[1] for number in numbers]


def entries(text: str) -> dict[str, str]:
    return dict(re.findall(rf'\({TEXT} ⇒ {TEXT}\)', text))


def piece_of(word: str) -> str:
    return chr(int(word[10:], 16)) if word.startswith('Literal 0x') else PIECES[word]


def patterns() -> dict[str, dict]:
    """The patterns by the names that they have here."""
    found = re.findall(r'^-- ([^\n]*)\nabbrev pub (\w+) : Pattern\n\w+ =\s+pattern_of(.*?)(\d+) (\d+)$', source('Patterns'), re.M | re.S)
    keys = ('prefix', 'suffix', 'negative_prefix', 'negative_suffix')
    rows = {}
    for text, name, lists, primary, secondary in found:
        affixes = [[piece_of(word.strip()) for word in row.split('∷') if word.strip() not in ('[]', 'Nothing')]
                   for row in re.findall(r'\((.*?)\)', lists, re.S)]
        rows[name] = {'text': text, **dict(zip(keys, affixes)), 'primary': int(primary), 'secondary': int(secondary)}
    return rows


def forms(named: dict[str, dict]) -> dict[str, dict]:
    row = re.compile(r'\s+'.join(['forms_row', TEXT, r'(\w+)', *[TEXT] * 6, r'(\d+)', *[r'(\w+)'] * 3, '∷']))
    rows = {}
    for name, digits, *signs in row.findall(source('FormTable')):
        decimal, group, money_decimal, money_group, minus, percent, least, number, percentage, money = signs
        rows[name] = {
            'digits': digits, 'minus': minus, 'percent_sign': percent, 'least_grouped': int(least),
            'number': [decimal, group, named[number]['text']], 'percent': [decimal, group, named[percentage]['text']],
            'currency': [money_decimal, money_group, named[money]['text']],
        }
    return rows


def currencies(forms_by_name: dict[str, dict]) -> dict[str, dict]:
    rows = {}
    for part in parts('Currencies', 'currencies', 'currency_of code ='):
        for row in re.split(r'currency_row ', part)[1:]:
            code, digits, symbol, rest = re.match(rf'{TEXT}\s+(\d+)\s+{TEXT}(.*)', row, re.S).groups()
            # each of the two lists ends in its own []
            symbols, own, _ = rest.split('[]')
            rows[code] = {'digits': int(digits), 'symbol': symbol, 'symbols': entries(symbols),
                          'own': {tag: forms_by_name[name]['currency'] for tag, name in entries(own).items()}}
    return rows


def differing(kind: str, ours: dict, theirs: dict) -> Iterator[str | None]:
    """For each row of either what is wrong with the definition, or None."""
    for key in sorted(ours.keys() | theirs.keys()):
        yield None if ours.get(key) == theirs.get(key) else f'{kind}, {key}: {ours.get(key)} for {theirs.get(key)}'


def out_of_order(tags: list[str]) -> Iterator[str | None]:
    """For each tag whether one that it begins with stands before it, which would hide it."""
    for index, tag in enumerate(tags):
        hiding = [other for other in tags[:index] if tag.startswith(other + '-')]
        yield f'{tag} after {hiding}' if hiding else None


def results() -> Iterator[str | None]:
    named = patterns()
    made = forms(named)
    # forms that only one currency has in a locale have a name of their own
    wanted = DATA['forms'] | {name: made[name] for name in made.keys() - DATA['forms'].keys()}
    locales = {tag: name for part in parts('Locales', 'locales', 'locale_entry tag =') for tag, name in entries(part).items()}
    money = currencies(made)
    digits = dict(re.findall(rf'^(\w+) = codes {TEXT}', source('Digits'), re.M))
    by_text = {row['text']: {**row} for row in named.values()}
    yield from differing('patterns', by_text, DATA['patterns'])
    yield from differing('digits', digits, DATA['digits'])
    yield from differing('forms', made, wanted)
    yield from differing('locales', locales, DATA['locales'])
    yield from differing('currencies', money, DATA['currencies'])
    yield from out_of_order(list(locales))
    for row in money.values():
        yield from out_of_order(list(row['symbols']))
        yield from out_of_order(list(row['own']))


def main() -> None:
    found = list(results())
    wrong = [result for result in found if result is not None]
    print(*wrong, sep='\n', end='\n' if wrong else '')
    print(f'{len(found) - len(wrong)} passed, {len(wrong)} failed')
    sys.exit(bool(wrong))


main()
