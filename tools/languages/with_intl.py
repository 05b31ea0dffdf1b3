#!/usr/bin/env python3
"""Holds the likely scripts and regions of the folder cldr-VERSION against Intl's: with_intl.py [LANGUAGE..].

Each language of the folder, or each one that is named, is tried with each script and with each region that Intl knows. It needs
node, of the same CLDR. Prints how many tags differ; those of the region `ZZ`, unknown, which Intl leaves out, are counted by
themselves. It ends with 1 if another one differs.
"""
import json
import subprocess
import sys
from pathlib import Path

HERE = Path(__file__).resolve().parent
sys.path.insert(0, str(HERE.parent))

from lib.cldr import data as data_of  # noqa: E402
from model import Model, parse  # noqa: E402

# Prints the version of CLDR, and then each tag with the maximized one.
PROGRAM = '''
const letters = [...'abcdefghijklmnopqrstuvwxyz'];
const pairs = letters.flatMap((a) => letters.map((b) => a + b));
const regions = [...pairs.map((pair) => pair.toUpperCase()), ...Array.from({ length: 999 }, (_, i) => `${i + 1}`.padStart(3, '0'))]
    .filter((region) => new Intl.Locale(`en-${region}`).region === region);
const scripts = pairs.flatMap((a) => pairs.map((b) => a[0].toUpperCase() + a[1] + b))
    .filter((script) => script === 'Latn' || new Intl.Locale(`und-${script}`).maximize().language !== 'en');
console.log(process.versions.cldr);
for (const language of %s)
    for (const tag of ['', ...scripts, ...regions].map((part) => (part ? `${language}-${part}` : language)))
        console.log(tag, new Intl.Locale(tag).maximize().toString());
'''


def main():
    data = data_of('languages')
    model = Model(data)
    languages = sys.argv[1:] or sorted({language for language, _, _ in model.likely})
    told = subprocess.run(['node', '-e', PROGRAM % json.dumps(languages)], capture_output=True, text=True, check=True)
    version, *lines = told.stdout.splitlines()
    differ, unknown = [], 0
    for tag, full in (line.split() for line in lines):
        ours = model.maximize(parse(tag))[:3]
        if ours != tuple(full.lower().split('-')):
            unknown += ours[2] == 'zz'
            differ += [f'{tag}: {"-".join(ours)}, and not {full}'] if ours[2] != 'zz' else []
    print(*differ[:5], sep='\n', end='\n' if differ else '')
    print(f'{len(lines)} tags of {data.name} and Intl of CLDR {version}: {len(differ)} differ, and {unknown} of the region ZZ')
    sys.exit(bool(differ))


main()
