#!/usr/bin/env python3
"""Tries the edits that must fail, each by itself: the prover has to refuse it in the function that it changes.

    tools/edits.sh [--jobs N] [--together] [CRATE|FILE.edit ..]

An edit is a line `old: TEXT`, which stands once in the file that the line `file: PATH` above names, and a line
`new: TEXT`. The edits of a crate lie in tools/edits/CRATE, where only this script reads them, and in
crates/CRATE/must-fail, where the gate tries all of a file at once, and is content if the prover refuses one of them.

Each is tried in a scratch copy of the crate and of those that it uses, over what `rt check` keeps of them in the
checkout; what isn't kept there is proved first, in the copy. The edit is refused if the prover can't prove a goal of
the function that it changes. An edit outside of all functions, as of a constant or a derive, has to be refused in its
file. A refusal that only misses a name that is gone from the code says nothing of a contract: the edit is bad, as is
one that doesn't compile.

Prints a line for each edit, and what the prover says if it isn't refused, a line for each crate with the seconds that
its checks took, then the time and 'N passed, M failed', and ends with 1 if one failed. N checks run at once: by default
one for each processor, and for each 3 GB of memory.

--together tries edits of different functions in one check, and by itself only an edit that isn't refused there. That
is sooner done, since the prover goes on after a function that it refuses.
"""
import argparse
import os
import re
import sys
import tempfile
import time
from collections import Counter, deque
from concurrent.futures import ThreadPoolExecutor
from dataclasses import dataclass
from pathlib import Path

from lib.crates import lines as lines_of_crates
from trying.edited import edits_of, texts_with
from trying.rooms import Rooms
from trying.verdicts import GOAL, REFUSED, judged

BYTES_A_JOB = 3 * 2 ** 30
# How many edits are tried in one check at most: a few minutes, and then there is something to read.
MOST_TOGETHER = 40


@dataclass
class Try:
    """What comes of edits that were tried in one check: of each, what the prover says, and how long it took."""
    edits: list
    results: list
    said: str
    seconds: float

    def left_open(self):
        """What has to be tried again of edits that were tried together: the rest, and halves if none was refused.

        The prover may not come to the goals of a function that calls one which it refuses.
        """
        rest = [edit for edit, result in zip(self.edits, self.results) if result != REFUSED]
        if not rest or len(self.edits) == 1:
            return []
        half = len(rest) // 2
        return [rest] if len(rest) < len(self.edits) else [rest[:half], rest[half:]]


def is_asked_for(edit, names):
    return not names or edit.crate in names or edit.file in map(Path.absolute, map(Path, names))


def rounds(edits, is_together):
    """The edits of a crate that are tried in one check: one alone, or several of functions of other files or names."""
    alone, shared = [], []
    for edit in edits:
        function = edit.function() if is_together and edit.applies() else None
        if function is None:
            alone.append([edit])
            continue
        place = edit.path, function.name
        fitting = next((it for it in shared if place not in it and len(it) < MOST_TOGETHER), None)
        if fitting is None:
            shared.append({place: edit})
        else:
            fitting[place] = edit
    return [[*it.values()] for it in shared] + alone


def flags_for(edits):
    """What to ask of the prover in turn, until all of these edits are refused.

    The changed modules are asked for first, and for one edit then the whole crate, to tell what else refuses it.
    """
    modules = {edit.module() for edit in edits}
    some = [word for module in sorted(modules) for word in ('--only', module)]
    return [some] * ('' not in modules) + [[]] * ('' in modules or len(edits) == 1)


def tried(edits, base, rooms):
    """Tries these edits in one check."""
    is_proved, said = base.result()
    began = time.monotonic()
    if not is_proved:
        return Try(edits, ['bad: the crate is not proved as it stands' for _ in edits], said, 0)
    if not edits[0].applies():
        return Try(edits, [f'bad: its old text is not once in {edits[0].path}'], '', 0)
    with rooms.edited(edits[0].crate, texts_with(edits)) as room:
        for flags in flags_for(edits):
            _, said = room.check(edits[0].crate, *flags)
            results = [judged(edit, said, len(edits) == 1) for edit in edits]
            if all(result == REFUSED for result in results):
                break
    return Try(edits, results, said, time.monotonic() - began)


def tries(edits, rooms, given):
    """Tries the edits of these crates, and yields each try."""
    with ThreadPoolExecutor(given.jobs) as pool:
        bases, running = {}, deque()

        def begin(some):
            running.append(pool.submit(tried, some, bases[some[0].crate], rooms))

        for crate, found in edits.items():
            bases[crate] = pool.submit(rooms.prepare, crate)
            for some in rounds(found, given.together):
                begin(some)
        while running:
            done = running.popleft().result()
            for some in done.left_open():
                begin(some)
            yield done


def told(said):
    """The first lines of what the prover says that tell why."""
    lines = [text for text in said.split('\n') if GOAL.match(text) or 'error' in text]
    return [f'    {text[:200]}' for text in lines[:6]]


def report(edits, found):
    """Prints what comes of each edit, and of each crate, and returns how many were refused, and how many not."""
    refused, failed, seconds = Counter(), Counter(), Counter()
    for one in found:
        crate = one.edits[0].crate
        seconds[crate] += one.seconds
        again = {edit for some in one.left_open() for edit in some}
        for edit, result in zip(one.edits, one.results):
            if edit not in again:
                print(f'{edit}: {result}', *([] if result == REFUSED else told(one.said)), sep='\n')
                (refused if result == REFUSED else failed)[crate] += 1
        if refused[crate] + failed[crate] == len(edits[crate]) and not again:
            print(f'== {crate}: {refused[crate]} of {len(edits[crate])} refused, {seconds[crate]:.0f} seconds')
        sys.stdout.flush()
    return refused.total(), failed.total()


def default_jobs():
    free = re.search(r'MemAvailable: +(\d+)', Path('/proc/meminfo').read_text())
    return max(1, min(len(os.sched_getaffinity(0)), int(free[1]) * 1024 // BYTES_A_JOB))


def main():
    parser = argparse.ArgumentParser(description=__doc__.split('\n')[0])
    parser.add_argument('--jobs', type=int, default=default_jobs(), help='how many checks run at once')
    parser.add_argument('--together', action='store_true', help='try edits of different functions in one check')
    parser.add_argument('names', metavar='CRATE|FILE.edit', nargs='*', help='all crates, if none is named')
    given = parser.parse_args()
    lines, began = lines_of_crates(), time.monotonic()
    edits = {crate: [it for it in edits_of(crate) if is_asked_for(it, given.names)] for crate in lines}
    edits = {crate: found for crate, found in edits.items() if found}
    with tempfile.TemporaryDirectory(prefix='edits-') as top:
        passed, failed = report(edits, tries(edits, Rooms(top, lines), given))
    print(f'{time.monotonic() - began:.0f} seconds, {given.jobs} at once')
    print(f'{passed} passed, {failed} failed')
    return 1 if failed else 0


if __name__ == '__main__':
    sys.exit(main())
