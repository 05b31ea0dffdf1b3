"""Makes the nodes of a tree from the library's lines, which say what each node is and where.

A line comes after those of the nodes in it. So these are made when it comes: the last ones, from the first that begins
where it does or later.
"""

from __future__ import annotations

from bisect import bisect_left
from collections.abc import Callable, Iterable
from itertools import accumulate
from typing import Any, Union

from . import ast

# What a byte of a text in UTF-8 counts: 1 if it is the first one of a character, and else 0.
_COUNTS = bytes(not 0x80 <= byte < 0xC0 for byte in range(256))


def entries(source: str, lines: str, with_spans: bool) -> list[ast.EntryType]:
    """The entries of a source, from the lines of its nodes."""
    # The nodes that are in no other so far, and where each begins.
    made: list[Any] = []
    starts: list[int] = []
    span = None
    for kind, start, end in _placed(source, lines):
        if with_spans:
            span = ast.Span(start, end)
        make = _LEAVES.get(kind)
        if make is not None:
            made.append(make(source[start:end], span))
        else:
            first = bisect_left(starts, start)
            inside = made[first:]
            del made[first:], starts[first:]
            made.append(_OTHERS[kind](inside, span))
        starts.append(start)
    return made


def _placed(source: str, lines: str) -> Iterable[tuple[str, int, int]]:
    """The kind of each node, and its place in characters."""
    words = lines.split()
    starts, ends = map(int, words[1::3]), map(int, words[2::3])
    if not source.isascii():
        index = [0, *accumulate(source.encode().translate(_COUNTS))]
        starts, ends = map(index.__getitem__, starts), map(index.__getitem__, ends)
    return zip(words[::3], starts, ends)


def _comment(kind: type[ast.BaseComment], sign: int) -> Leaf:
    """What makes a comment whose sign has this length. A space after the sign belongs to neither."""

    def make(text: str, span: ast.Span | None) -> ast.BaseComment:
        lines = text.replace("\r\n", "\n").split("\n")
        return kind("\n".join(line[sign + 1 :] for line in lines), span=span)

    return make


def _pattern(inside: list[Any], span: ast.Span | None) -> ast.Pattern:
    """The texts of several lines are one element."""
    elements: list[Any] = []
    last = None
    for element in inside:
        kind = type(element)
        if kind is last is ast.TextElement:
            elements[-1].value += element.value
        else:
            elements.append(element)
        last = kind
    if span is not None:
        _place_texts(elements, span)
    return ast.Pattern(elements, span=span)


def _place_texts(elements: list[Any], span: ast.Span) -> None:
    """A text is all that is between placeables. The first one has what its line is indented more than others."""
    last = len(elements) - 1
    for index, element in enumerate(elements):
        if type(element) is ast.TextElement:
            if index > 0:
                element.span.start = elements[index - 1].span.end
            elif element.value.startswith(" "):
                element.span.start = span.start
            element.span.end = elements[index + 1].span.start if index < last else span.end


def _term_reference(inside: list[Any], span: ast.Span | None) -> ast.TermReference:
    arguments = inside.pop() if type(inside[-1]) is ast.CallArguments else None
    return ast.TermReference(*inside, arguments=arguments, span=span)


def _arguments(inside: list[Any], span: ast.Span | None) -> ast.CallArguments:
    named = [argument for argument in inside if type(argument) is ast.NamedArgument]
    return ast.CallArguments(inside[: len(inside) - len(named)], named, span=span)


def _entry(kind: type[ast.Message] | type[ast.Term]) -> Other:
    """What makes a message or a term of a comment, an identifier, a pattern and attributes. Some may be missing."""

    def make(inside: list[Any], span: ast.Span | None) -> ast.Message | ast.Term:
        comment = inside.pop(0) if type(inside[0]) is ast.Comment else None
        value = inside.pop(1) if len(inside) > 1 and type(inside[1]) is ast.Pattern else None
        return kind(inside[0], value, inside[1:], comment, span=span)

    return make


# What makes a node of its text, or of the nodes in it; and of its span.
Leaf = Callable[[str, Union[ast.Span, None]], ast.SyntaxNode]
Other = Callable[[list[Any], Union[ast.Span, None]], ast.SyntaxNode]

_LEAVES: dict[str, Leaf] = {
    "Identifier": lambda text, span: ast.Identifier(text, span=span),
    "TextElement": lambda text, span: ast.TextElement(text, span=span),
    "StringLiteral": lambda text, span: ast.StringLiteral(text[1:-1], span=span),
    "NumberLiteral": lambda text, span: ast.NumberLiteral(text, span=span),
    "Comment": _comment(ast.Comment, 1),
    "GroupComment": _comment(ast.GroupComment, 2),
    "ResourceComment": _comment(ast.ResourceComment, 3),
    "Junk": lambda text, span: ast.Junk(text, span=span),
}

_OTHERS: dict[str, Other] = {
    "Placeable": lambda inside, span: ast.Placeable(inside[0], span=span),
    "VariableReference": lambda inside, span: ast.VariableReference(inside[0], span=span),
    "MessageReference": lambda inside, span: ast.MessageReference(*inside, span=span),
    "TermReference": _term_reference,
    "FunctionReference": lambda inside, span: ast.FunctionReference(*inside, span=span),
    "CallArguments": _arguments,
    "NamedArgument": lambda inside, span: ast.NamedArgument(*inside, span=span),
    "Select": lambda inside, span: ast.SelectExpression(inside[0], inside[1:], span=span),
    "Variant": lambda inside, span: ast.Variant(*inside, span=span),
    "DefaultVariant": lambda inside, span: ast.Variant(*inside, default=True, span=span),
    "Pattern": _pattern,
    "Attribute": lambda inside, span: ast.Attribute(*inside, span=span),
    "Message": _entry(ast.Message),
    "Term": _entry(ast.Term),
}
