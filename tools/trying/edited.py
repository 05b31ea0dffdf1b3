"""The edits that must fail, as their files give them, and what they change."""
import re
from dataclasses import dataclass
from pathlib import Path

from lib.crates import ROOT

IMPL = re.compile(r'(?:unsafe )?impl(?:<.*?>)? (?:\w+::)*(\w+)')
FUNCTION = re.compile(r'( *)(?:pub(?:\([^)]*\))? )?(?:const )?(?:unsafe )?(?:extern "C" )?fn (\w+)')


@dataclass(frozen=True)
class Function:
    """A function of a file: its lines, from its attributes on, and the type or trait that the block around it names."""
    name: str
    owner: str
    first: int
    last: int


@dataclass(frozen=True)
class Edit:
    crate: str
    file: Path
    line: int
    path: str
    old: str
    new: str

    def __str__(self):
        return f'{self.crate}/{self.file.name}:{self.line}'

    def source(self):
        return ROOT / 'crates' / self.crate / self.path

    def module(self):
        """The module that the changed file holds, or '' for the crate's root."""
        names = Path(self.path).with_suffix('').parts[1:]
        return '::'.join(names[:-1] if names[-1] in ('mod', 'lib', 'main') else names)

    def proofs(self):
        """The folder of the proofs of what the changed file holds."""
        return '/'.join(['proofs', *filter(None, self.module().split('::'))])

    def applies(self):
        return bool(self.old) and self.source().is_file() and self.source().read_text().count(self.old) == 1

    def function(self):
        """The function that is changed, or None."""
        text = self.source().read_text()
        return function_at(text.split('\n'), text[:text.index(self.old)].count('\n') + 1)


def function_at(lines, line):
    """The function that this line is in, or None."""
    for first in range(line, 0, -1):
        head = FUNCTION.match(lines[first - 1])
        if head:
            ends = (at for at in range(first, len(lines) + 1) if lines[at - 1] == f'{head[1]}}}'
                    or at == first and lines[at - 1].endswith('}'))
            last = next(ends, first)
            if line <= last:
                return Function(head[2], owner_at(lines, first) if head[1] else '', with_attributes(lines, first), last)
    return None


def owner_at(lines, line):
    """The type or the trait that is named first by the block around this line, or ''."""
    heads = (IMPL.match(lines[above - 1]) for above in range(line, 0, -1))
    return next((head[1] for head in heads if head), '')


def with_attributes(lines, first):
    """The line where a function begins, with its attributes: the prover names a goal of the whole function there."""
    while first > 1 and lines[first - 2].lstrip().startswith('#['):
        first -= 1
    return first


def edits_of(crate):
    files = [*ROOT.glob(f'tools/edits/{crate}/*.edit'), *ROOT.glob(f'crates/{crate}/must-fail/*.edit')]
    for file in sorted(files, key=lambda file: file.name):
        path = old = ''
        for line, text in enumerate(file.read_text().split('\n'), 1):
            word, _, rest = text.partition(':')
            rest = rest.removeprefix(' ')
            if word == 'file':
                path = rest.strip()
            elif word == 'old':
                old = rest
            elif word == 'new':
                yield Edit(crate, file, line - 1, path, old, rest)
                old = ''


def texts_with(edits):
    """The texts of the files that these edits change, by their paths in the crate."""
    texts = {}
    for edit in edits:
        text = texts.get(edit.path) or edit.source().read_text()
        texts[edit.path] = text.replace(edit.old, edit.new)
    return texts
