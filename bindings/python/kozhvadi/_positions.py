"""Positions as editors count them: lines, and UTF-16 code units in a line."""

from __future__ import annotations

import re
from bisect import bisect_right

_LINE_END = re.compile(rb"\r\n|\n|\r")


class Lines:
    """The lines of a source in UTF-8. One ends in LF, CR LF or CR, as the protocol says, and counts from 0.

    Characters of a line are code units of UTF-16, or its bytes if `counts_bytes`.
    """

    def __init__(self, source: bytes, counts_bytes: bool = False) -> None:
        self.source, self._counts_bytes = source, counts_bytes
        self._starts = [0]
        self._ends: list[int] = []
        for end in _LINE_END.finditer(source):
            self._ends.append(end.start())
            self._starts.append(end.end())
        self._ends.append(len(source))

    def position(self, offset: int) -> tuple[int, int]:
        """The line of an offset in bytes, and how many characters are before it in its line."""
        offset = min(max(offset, 0), len(self.source))
        line = bisect_right(self._starts, offset) - 1
        before = self.source[self._starts[line] : offset]
        is_length = self._counts_bytes or before.isascii()
        return line, len(before) if is_length else utf16_length(before.decode(errors="ignore"))

    def offset(self, line: int, character: int) -> int:
        """The offset of a position. One after the end of a line is that of its end, and so for the source."""
        if line < 0 or character < 0:
            return 0
        if line >= len(self._starts):
            return len(self.source)
        start, text = self._starts[line], self.source[self._starts[line] : self._ends[line]]
        if self._counts_bytes:
            return start + _whole(text, min(character, len(text)))
        if text.isascii():
            return start + min(character, len(text))
        units = text.decode(errors="replace").encode("utf-16-le")[: 2 * character]
        return start + len(units.decode("utf-16-le", errors="ignore").encode())

    def line(self, number: int) -> bytes:
        """The text of a line, without its end."""
        return self.source[self._starts[number] : self._ends[number]]

    def __len__(self) -> int:
        return len(self._starts)


def _whole(text: bytes, offset: int) -> int:
    """An offset, or the front of the character that it is inside."""
    while 0 < offset < len(text) and text[offset] & 0xC0 == 0x80:
        offset -= 1
    return offset


def utf16_length(text: str) -> int:
    """How many code units of UTF-16 a text has."""
    return len(text.encode("utf-16-le", errors="surrogatepass")) // 2
