#!/usr/bin/env python3
"""Writes the tables of the crate `fluent_languages`, as code and as definitions, from the data of Unicode CLDR.

    generate.py DATA CRATE

DATA is a folder as `cldr-48`. The code goes to CRATE/src/table.rt, which wants `rt fmt` afterwards, and the definitions
to CRATE/specs/Tables.antt.
"""
import sys
from dataclasses import dataclass
from pathlib import Path

# A table of some 300 rows takes more steps than the check of one declaration may take.
PARTS = {'A_TO_E': 'ae', 'F_TO_K': 'fk', 'L_TO_R': 'lr', 'S_TO_Z': 'sz'}
DIGRAPHIC = 'sr'

CODE = '''//! What is likely of languages, and the groups of their regions.
// Written by tools/languages from Unicode CLDR {version}. Do not edit.
use crate::likely::{{Alias, Grouped, Likely}};
'''

DEFINITIONS = '''-- What is likely of languages, older codes of languages, and the groups of their regions.
-- Written by tools/languages from Unicode CLDR {version}. Do not edit.
use Rattle.std.specs.Prelude.{{List, [], ◌∷◌, codes}}
use Rattle.fluent_languages.specs.Tags.{{Text}}
use Rattle.fluent_languages.specs.Likely.{{AliasRow, GroupedRow, LikelyRow}}

abbrev l : Text → Text → Text → LikelyRow
l language script region = record {{ language = language; script = script; region = region }}

abbrev a : Text → Text → Text → AliasRow
a older language script = record {{ older = older; language = language; script = script }}

abbrev g : Text → Text → GroupedRow
g language region = record {{ language = language; region = region }}
'''


@dataclass
class Kind:
    """The struct of a row, its fields, and what makes such a row in the definitions."""
    struct: str
    fields: tuple
    short: str


LIKELY = Kind('Likely', ('language', 'script', 'region'), 'l')
ALIAS = Kind('Alias', ('older', 'language', 'script'), 'a')
GROUPED = Kind('Grouped', ('language', 'region'), 'g')


@dataclass
class Table:
    name: str
    kind: Kind
    about: str
    rows: list

    def code(self):
        rows = ''.join(f'    {self.kind.struct} {{ {fields_of(self.kind, row)} }},\n' for row in self.rows)
        size = f'[{self.kind.struct}; {len(self.rows)}]'
        return f'/// {self.about}\npub(crate) const {self.name}: {size} = [\n{rows}];\n\n'

    def definition(self):
        name = self.name.lower()
        rows = ''.join(f'    {self.kind.short} {" ".join(map(codes, row))} ∷\n' for row in self.rows)
        about = self.about if '. ' in self.about or ': ' in self.about else self.about[0].lower() + self.about[1:-1]
        return f'\n-- {about}\nabbrev pub {name} : List {self.kind.struct}Row\n{name} =\n{rows}    []\n'


def fields_of(kind, row):
    return ', '.join(f'{field}: "{value}"' for field, value in zip(kind.fields, row))


def codes(text):
    return f'(codes "{text}")' if text else '[]'


def lines_of(path):
    """The words of each line, of which `-` is none."""
    lines = [line for line in path.read_text().splitlines() if not line.startswith('#')]
    return [['' if word == '-' else word for word in line.split()] for line in lines]


def tables_of(data):
    likely = lines_of(data / 'likely.txt')
    alone = [(language, full, at) for language, script, region, full, at in likely if not script and not region]
    tables = [Table(name, LIKELY, f'Languages from {first} to {last}, with the script and the region that each likely has.',
                    [row for row in alone if first <= row[0][0] <= last]) for name, (first, last) in PARTS.items()]
    assert sum(len(table.rows) for table in tables) == len(alone)
    groups = lines_of(data / 'clusters.txt')
    return tables + [
        Table('BY_REGION', LIKELY, "The script of a language in a region, if it is another than the language's.",
              [(row[0], row[3], row[2]) for row in likely if row[2]]),
        Table('BY_SCRIPT', LIKELY, "The region of a language in a script, if it is another than the language's.",
              [(row[0], row[1], row[4]) for row in likely if row[1]]),
        Table('ALIASES', ALIAS, 'Older and narrower codes of languages.',
              [(row + [''])[:3] for row in lines_of(data / 'aliases.txt')]),
        Table('GROUPS', GROUPED, 'The regions of languages whose regions fall into two groups: those of one group.',
              [(row[0], region) for row in groups for region in row[2:]]),
        Table('STANDING', GROUPED, 'The region of such a group that stands for the others.',
              [(row[0], row[1]) for row in groups if row[1]]),
    ]


def main():
    data, crate = map(Path, sys.argv[1:])
    version = data.name.removeprefix('cldr-')
    tables = tables_of(data)
    code = ''.join(table.code() for table in tables)
    about = 'a language whose readers read each of its scripts'
    code += f'/// {about.capitalize()}.\npub(crate) const DIGRAPHIC: &str = "{DIGRAPHIC}";\n'
    (crate / 'src/table.rt').write_text(CODE.format(version=version) + code)
    definitions = ''.join(table.definition() for table in tables)
    definitions += f'\n-- {about}\nabbrev pub digraphic : Text\ndigraphic = codes "{DIGRAPHIC}"\n'
    (crate / 'specs/Tables.antt').write_text(DEFINITIONS.format(version=version) + definitions)


main()
