"""The text of a document after changes that name the places where they are made."""

from __future__ import annotations

from collections.abc import Iterable

from .._positions import Lines
from ._checks import position_of
from ._session import Params


class ChangingText:
    """A text in UTF-8 that is changed piece by piece.

    Its lines are looked for anew only if a change is after an earlier one: editors send changes at many places from the
    last place to the first.
    """

    def __init__(self, source: bytes, counts_bytes: bool) -> None:
        self._counts_bytes = counts_bytes
        self._take(source)

    def _take(self, source: bytes) -> None:
        self._source, self._lines = source, Lines(source, self._counts_bytes)
        # The lines are those of the text up to this position.
        self._known: tuple[int, int] | None = None

    def change(self, change: Params) -> None:
        """Replaces what is in a range, or the complete text if there is no range."""
        text, range = change["text"].text.encode(), change.get("range")
        if range.value is None:
            self._take(text)
            return
        first, last = position_of(range["start"]), position_of(range["end"])
        if self._known is not None and max(first, last) >= self._known:
            self._take(self._source)
        start = self._lines.offset(*first)
        end = max(start, self._lines.offset(*last))
        self._source = self._source[:start] + text + self._source[end:]
        self._known = min(first, self._lines.position(start))

    @property
    def text(self) -> str:
        return self._source.decode()


def changed(text: str, changes: Iterable[Params], counts_bytes: bool) -> str:
    """A text after changes, each made in the text that the one before it left."""
    changing = ChangingText(text.encode(), counts_bytes)
    for change in changes:
        changing.change(change)
    return changing.text
