"""Sources, under the name of `fluent.runtime.resource`."""

from __future__ import annotations

from .._values import encoded

__all__ = ["FluentResource"]


class FluentResource:
    """A source."""

    def __init__(self, source: str) -> None:
        encoded(source, "a source")
        self.source = source
