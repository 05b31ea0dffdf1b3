"""Scratch repositories, in which a crate is checked with other texts while the checkout stays as it is.

The base has the crates as they stand, over what `rt check` keeps of them in the checkout. Each thread that tries edits
has a room made from the base, in which the crate that it tries gets its files anew for each try.
"""
import shutil
import subprocess
import threading
from contextlib import contextmanager
from pathlib import Path

from lib.crates import ROOT, below, uses_in
from lib.scratch import Scratch


class Room(Scratch):
    """A scratch repository in which one check runs at a time."""

    def check(self, crate, *flags):
        """Checks a crate, and returns whether it is proved, and what the prover says."""
        ran = subprocess.run(['rt', 'check', '--jobs', '1', *flags], cwd=self.path(crate), stdin=subprocess.DEVNULL,
                             stdout=subprocess.PIPE, stderr=subprocess.STDOUT, text=True, errors='replace')
        return ran.returncode == 0, ran.stdout


class Rooms:
    """The base, and the rooms of the threads. `lines` has the line of each crate in crates.txt."""

    def __init__(self, top, lines):
        self.top, self.lines = Path(top), lines
        self.base = Room(self.top / 'base', ROOT)
        self.taking, self.mine = threading.Lock(), threading.local()

    def with_used(self, crate):
        """The crate and all that it uses, directly or not."""
        used = {name: uses_in(line) for name, line in self.lines.items()}
        return {crate, *below(crate, used)}

    def prepare(self, crate):
        """Checks a crate of the base, and returns whether it is proved, and what the prover says."""
        with self.taking:
            for name in self.with_used(crate):
                if not self.base.has(name):
                    self.base.take(name, 'incremental', 'rlib')
            self.base.list_crates(self.lines)
        return self.base.check(crate)

    def room(self):
        """The room of this thread."""
        if not hasattr(self.mine, 'room'):
            self.mine.room = Room(self.top / str(threading.get_ident()), self.base.folder)
        return self.mine.room

    @contextmanager
    def edited(self, crate, texts):
        """A room in which a crate that is prepared has these texts: each by its path in the crate."""
        room = self.room()
        for name in self.with_used(crate) - {crate}:
            if not room.has(name):
                room.take(name, 'rlib')
        room.take(crate, 'incremental')
        room.list_crates(self.lines)
        for path, text in texts.items():
            (room.path(crate) / path).write_text(text)
        try:
            yield room
        finally:
            shutil.rmtree(room.path(crate))
