"""A change of a source."""

from __future__ import annotations

from typing import NamedTuple


class Fix(NamedTuple):
    """A change of a source that mends a finding: the bytes between two offsets become a text."""

    title: str
    start: int
    end: int
    text: str
