#!/usr/bin/env python3
"""Does what a page says, in the folder where it is called, as somebody would who types it.

    typed.py [--without HEADING] PAGE

A fenced block after a paragraph that ends in `Make this the file NAME:` becomes that file; more words may stand between
NAME and the colon. An indented block, or one whose fence is `sh`, is run by a shell, which has the folder and the variables that earlier blocks left. A
block whose fence is `text` is what the block before it has to print at its end. An indented block with calls after `$ ` is
a session: each call has to print what follows it. All other blocks are passed over, and so is the section with that heading.

Ends with 1, and says which block it was, if a block fails or prints something else, or if the page has nothing to type.
"""

import argparse
import re
import subprocess
import sys
import tempfile
from pathlib import Path

sys.path.insert(0, str(Path(__file__).resolve().parents[1]))

from lib import sessions

NAMED = re.compile(r'Make this the file `([\w./-]+)`[^:]*:$')


def blocks(text: str):
    """The blocks of a page, as (kind, lines, the paragraph before). The kind of an indented block, which may have empty
    lines, is `sh`."""
    fence, block, before, paragraph = '', [], '', []
    for line in [*text.split('\n'), '.']:
        if fence and line != '```':
            block.append(line)
        elif fence:
            yield fence, block, before
            fence, block, before = '', [], ''
        elif (line.startswith('    ') and not paragraph) or (block and not line):
            block.append(line[4:])
        else:
            if block:
                yield 'sh', block, before
                block, before = [], ''
            if line.startswith('```'):
                fence = line[3:] or 'plain'
            elif line:
                paragraph.append(line)
            elif paragraph:
                before, paragraph = ' '.join(paragraph), []


class Shell:
    """Runs blocks of commands one after the other, each where the one before it ended."""

    def __init__(self, kept: Path) -> None:
        self.kept = kept
        (kept / 'state').write_text('')

    def run(self, lines: list[str]) -> str:
        state = self.kept / 'state'
        script = '\n'.join([f'. {state}', 'set -eu', *lines, f'{{ export -p; printf "cd %q\\n" "$PWD"; }} >{state}'])
        ended = subprocess.run(['bash', '-c', script], stdin=subprocess.DEVNULL, stdout=subprocess.PIPE, text=True)
        if ended.returncode:
            sys.exit('\n'.join(['this block fails:', *lines, ended.stdout]))
        return ended.stdout

    def folder(self) -> Path:
        """The folder where the blocks are."""
        return Path(self.run(['pwd']).strip())


def arguments() -> argparse.Namespace:
    parser = argparse.ArgumentParser(allow_abbrev=False)
    parser.add_argument('--without', metavar='HEADING')
    parser.add_argument('page', metavar='PAGE', type=Path)
    return parser.parse_args()


def main() -> None:
    words = arguments()
    page, printed, compared = words.page, '', 0
    text = page.read_text(encoding='utf-8')
    if words.without:
        text, left_out = re.subn(rf'^## {re.escape(words.without)}\n.*?(?=^## |\Z)', '', text, flags=re.M | re.S)
        if not left_out:
            sys.exit(f'{page} has no section {words.without}')
    with tempfile.TemporaryDirectory() as kept:
        shell = Shell(Path(kept))
        for kind, lines, before in blocks(text):
            named = NAMED.search(before)
            if kind == 'sh' and lines[0].startswith('$ '):
                compared += 1
                for _, call, shown in sessions.wrong_calls([(0, lines)], shell.folder()):
                    sys.exit(f'`{call}` prints\n{shown}')
            elif kind == 'sh':
                printed = shell.run(lines)
            elif kind == 'text':
                shown = '\n'.join(lines) + '\n'
                compared += 1
                if not printed.endswith(shown):
                    sys.exit(f'{page} says\n{shown}\nand it prints\n{printed}')
            elif named:
                (shell.folder() / named[1]).write_text('\n'.join(lines) + '\n', encoding='utf-8')
    if not compared:
        sys.exit(f'{page} has nothing to type whose output it shows')


if __name__ == '__main__':
    main()
