"""Scratch repositories: copies of crates, to try something beside them while the checkout stays as it is.

    scratch.py FOLDER LINE SOURCES

makes one for a script: the repository FOLDER with the crate of LINE, as crates.txt would have it, whose files SOURCES are,
and the crates that it uses. SOURCES is a folder of `.rt.txt` files, which lose the `.txt`, or one file, which becomes the
crate's `main.rt`. Libraries that `rt` built in the checkout are there as hard links.
"""
import shutil
import subprocess
import sys
from pathlib import Path

try:
    from lib.crates import ROOT, below, lines, name_in, uses
except ModuleNotFoundError:  # run as a script
    from crates import ROOT, below, lines, name_in, uses

# The folders of a crate that a check reads.
SOURCES = ('src', 'specs', 'proofs')


class Scratch:
    """A repository that takes its crates from another, the origin."""

    def __init__(self, folder: Path, origin: Path = ROOT) -> None:
        self.folder, self.origin = folder, origin
        folder.mkdir(parents=True, exist_ok=True)
        shutil.copy(ROOT / 'HANDLES', folder)

    def path(self, crate: str) -> Path:
        return self.folder / 'crates' / crate

    def has(self, crate: str) -> bool:
        return self.path(crate).is_dir()

    def list_crates(self, known: dict[str, str]) -> None:
        """Writes crates.txt, from the lines of all crates."""
        new = self.folder / 'crates.new'
        new.write_text('\n'.join(line for name, line in known.items() if self.has(name)) + '\n')
        new.replace(self.folder / 'crates.txt')

    def take(self, crate: str, *kept: str) -> None:
        """Takes the sources of a crate, and these folders of what a check keeps of it."""
        here, there = self.path(crate), self.origin / 'crates' / crate
        shutil.rmtree(here, ignore_errors=True)
        (here / 'out').mkdir(parents=True)
        for part in SOURCES:
            if (there / part).is_dir():
                shutil.copytree(there / part, here / part)
        for part in kept:
            link(there / 'out' / part, here / 'out' / part)


def link(one: Path, other: Path) -> None:
    """Makes a folder of links to another's files, or of copies on another disk. A check replaces files, so links do."""
    if one.is_dir() and subprocess.run(['cp', '-al', one, other], stderr=subprocess.DEVNULL).returncode:
        shutil.rmtree(other, ignore_errors=True)
        shutil.copytree(one, other)


def is_built(crate: str) -> bool:
    """Whether `rt` built the crate's library in the checkout. Without a stamp it is the gate's, which no other command takes."""
    return (ROOT / 'crates' / crate / 'out' / 'rlib' / 'stamp').exists()


def put(sources: Path, crate: Path) -> None:
    """Puts sources that lie as text into a crate."""
    (crate / 'src').mkdir(parents=True)
    if sources.is_file():
        shutil.copy(sources, crate / 'src' / 'main.rt')
        return
    for file in sources.rglob('*.rt.txt'):
        code = crate / 'src' / file.relative_to(sources).with_suffix('')
        code.parent.mkdir(parents=True, exist_ok=True)
        shutil.copy(file, code)


def made(folder: Path, line: str, sources: Path) -> Path:
    """Makes a repository with the crate of this line, and gives the crate's folder."""
    scratch, name = Scratch(folder), name_in(line)
    known = {**lines(), name: line}
    for crate in below(name, {**uses(), name: line.partition(':')[2].split()}):
        scratch.take(crate, *(['rlib'] if is_built(crate) else []))
    put(sources, scratch.path(name))
    scratch.list_crates(known)
    return scratch.path(name)


if __name__ == '__main__':
    if len(sys.argv) != 4:
        sys.exit(__doc__)
    made(Path(sys.argv[1]), sys.argv[2], Path(sys.argv[3]))
