#!/usr/bin/env python3
"""Shows which modules of a crate take how much of the time that its proof takes.

    tools/times.py CRATE [MODULE..]

proves a crate in a scratch copy, from nothing, over what `rt check` keeps of those that it uses in the checkout, and
prints the seconds of a processor for each module, the slowest function of each, and the sum. With modules, it prints
these alone, function by function, and their sum. What the prover does before the first function, and after the last, is
a line of its own, and so is what it does for values that are dropped.

Seconds of a processor hold on a busy machine, too, but for some half more. What is printed is what this crate takes in
the gate, without its programs and edits.
"""
import argparse
import re
import subprocess
import sys
import tempfile
from collections import defaultdict
from pathlib import Path

from lib.crates import below, lines, uses
from lib.scratch import Scratch

CHECKED = re.compile(r'checked (\S+), \d+ of \d+')
TICKS = 100
DROPS, REST = 'drops', 'before and after'


def times() -> dict[int, tuple[int, int]]:
    """The parent of each process, and the ticks that it and the children that it waited for have taken."""
    found = {}
    for stat in Path('/proc').glob('[0-9]*/stat'):
        try:
            fields = stat.read_text().rpartition(')')[2].split()
        except OSError:
            continue
        found[int(stat.parent.name)] = int(fields[1]), sum(map(int, fields[11:15]))
    return found


def ticks_below(process: int) -> int:
    """The ticks of a processor that a process and those that it began have taken."""
    found = times()
    known, total = {process}, found.get(process, (0, 0))[1]
    grown = True
    while grown:
        more = {each for each, (parent, _) in found.items() if parent in known} - known
        total += sum(found[each][1] for each in more)
        known |= more
        grown = bool(more)
    return total


def module_of(function: str) -> str:
    """The module of a function, from the name that the prover prints."""
    if 'Destruct' in function:
        return DROPS
    return function.split('::')[1] if function.count('::') > 1 else REST


def seconds(crate: str, room: Scratch) -> dict[str, float]:
    """Proves the crate, and gives the seconds of each function. Ends with what the prover says if it isn't proved."""
    found: dict[str, float] = defaultdict(float)
    said = []
    with subprocess.Popen(['rt', 'check', '--jobs', '1', '--progress'], cwd=room.path(crate), stdin=subprocess.DEVNULL,
                          stdout=subprocess.PIPE, stderr=subprocess.STDOUT, text=True, errors='replace') as proof:
        before = 0
        for line in proof.stdout:
            said.append(line)
            if at := CHECKED.search(line):
                now = ticks_below(proof.pid)
                found[at[1]] += (now - before) / TICKS
                before = now
    if proof.returncode:
        sys.exit(''.join(said[-40:]))
    return found


def told(rows: dict[str, float], slowest: dict[str, str]) -> None:
    """Prints rows, those that take longest first, and their sum."""
    for name, time in sorted(rows.items(), key=lambda row: -row[1]):
        print(f'{time:7.1f}  {name}{slowest.get(name, "")}')
    print(f'{sum(rows.values()):7.1f}')


def main() -> None:
    parser = argparse.ArgumentParser(description=__doc__, formatter_class=argparse.RawDescriptionHelpFormatter)
    parser.add_argument('crate')
    parser.add_argument('modules', nargs='*')
    words = parser.parse_args()
    with tempfile.TemporaryDirectory() as top:
        room = Scratch(Path(top))
        for crate in below(words.crate, uses()):
            room.take(crate, 'rlib')
        room.take(words.crate)
        room.list_crates(lines())
        functions = seconds(words.crate, room)
    if words.modules:
        told({name: time for name, time in functions.items() if module_of(name) in words.modules}, {})
        return
    modules: dict[str, float] = defaultdict(float)
    most: dict[str, tuple[float, str]] = {}
    for name, time in functions.items():
        module = module_of(name)
        modules[module] += time
        most[module] = max(most.get(module, (0.0, '')), (time, name.rpartition('::')[2]))
    told(modules, {module: f'  ({name} {time:.1f})' for module, (time, name) in most.items()})


if __name__ == '__main__':
    main()
