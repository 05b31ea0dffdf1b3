"""What a message gives."""

from __future__ import annotations

from typing import NamedTuple

from ._errors import ResolverError


class Answer(NamedTuple):
    """The text of a message, and its errors. You get the text even if there are errors."""

    text: str
    errors: list[ResolverError]

    def __str__(self) -> str:
        return self.text


def resolver_errors(lines: str) -> list[ResolverError]:
    """The errors of an answer, of which each has a line that ends in a line feed."""
    return [ResolverError(line) for line in lines.split("\n")[:-1]]
