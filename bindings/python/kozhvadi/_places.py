"""The names and the entries of a source that is being edited.

The library finds the names of each entry that it can read. Those of broken entries, and what else an editor wants of an
entry, are found by `Scan`.
"""

from __future__ import annotations

from bisect import bisect_right
from collections.abc import Iterator
from functools import cached_property

from ._library import has_junk
from ._occurrences import Occurrence, Symbol, occurrences_in
from ._scan import Entry, Scan


class Places:
    """The entries of a source, and the occurrences of its symbols, in the order of their offsets."""

    def __init__(self, source: bytes) -> None:
        self.source = source

    @cached_property
    def _scan(self) -> Scan:
        return Scan(self.source)

    @property
    def entries(self) -> list[Entry]:
        return self._scan.entries

    @cached_property
    def _read(self) -> list[Occurrence] | None:
        """What the library finds. Nothing if it can't read the source."""
        try:
            return occurrences_in(self.source)
        except (ValueError, MemoryError):
            return None

    @property
    def is_refused(self) -> bool:
        """Whether the library can't read the source, as it nests too deep. Its names were then found without it."""
        return self._read is None

    @cached_property
    def occurrences(self) -> list[Occurrence]:
        found = self._read or []
        if self._read is not None and not has_junk(self.source):
            return found
        starts = {each.start for each in found}
        broken = [each for each in self._scan.occurrences if each.start not in starts]
        return sorted([*found, *broken], key=lambda each: each.start)

    @cached_property
    def _starts(self) -> list[int]:
        return [found.start for found in self.occurrences]

    @cached_property
    def _by_symbol(self) -> dict[Symbol, list[Occurrence]]:
        listed: dict[Symbol, list[Occurrence]] = {}
        for found in self.occurrences:
            listed.setdefault(found.symbol, []).append(found)
        return listed

    def at(self, offset: int) -> Occurrence | None:
        """The occurrence whose name an offset touches; its `$` or `-` counts, too."""
        for near in (offset, offset + 1):
            index = bisect_right(self._starts, near) - 1
            if index >= 0 and self.occurrences[index].start <= near <= self.occurrences[index].end:
                return self.occurrences[index]
        return None

    def entry(self, key: str) -> Entry | None:
        """The first entry of an id, with the `-` of a term."""
        return next((entry for entry in self.entries if entry.key == key), None)

    def of(self, symbol: Symbol) -> list[Occurrence]:
        """The occurrences of a symbol."""
        return self._by_symbol.get(symbol, [])
