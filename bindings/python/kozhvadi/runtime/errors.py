"""The errors of answers, under the names of `fluent.runtime.errors`."""

from __future__ import annotations

__all__ = ["FluentCyclicReferenceError", "FluentFormatError", "FluentReferenceError"]


class FluentFormatError(ValueError):
    """What went wrong with a message. You get its text all the same. Two are equal if they say the same."""

    def __eq__(self, other: object) -> bool:
        return type(self) is type(other) and isinstance(other, FluentFormatError) and self.args == other.args

    __hash__ = ValueError.__hash__


class FluentReferenceError(FluentFormatError):
    """A reference to what isn't there."""


class FluentCyclicReferenceError(FluentFormatError):
    """A reference that leads back to itself."""
