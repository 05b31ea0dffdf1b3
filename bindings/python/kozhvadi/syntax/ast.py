"""The nodes of a tree.

Each is a plain object whose attributes are the parameters of its class, and may be changed. A node of `parse` has a
`span`, unless the parser was told to leave it out; one that you make has none.
"""

from __future__ import annotations

import json
import re
from collections.abc import Callable
from typing import Any, TypeVar, Union

Node = TypeVar("Node", bound="BaseNode")

_ESCAPE = re.compile(r'\\(?:([\\"])|u([0-9a-fA-F]{4})|U([0-9a-fA-F]{6}))')


def fields_of(node: BaseNode) -> dict[str, Any]:
    """The attributes of a node by their names, after those that are made when they are asked for are made."""
    fields = vars(node)
    if "_making" in fields:
        node.finish()
    return fields


def to_json(value: Any) -> Any:
    """The JSON value of a node, of a list, or of a text: an object for each node, whose `type` is its class."""
    if isinstance(value, BaseNode):
        return value.to_json()
    if isinstance(value, list):
        return [to_json(each) for each in value]
    return value


def from_json(value: Any) -> Any:
    """The node, the list or the text that a JSON value is of."""
    if isinstance(value, dict):
        made = globals()[value["type"]]
        return made(**{name: from_json(field) for name, field in value.items() if name != "type"})
    if isinstance(value, list):
        return [from_json(each) for each in value]
    return value


def scalars_equal(first: Any, second: Any, ignored_fields: list[str] | None) -> bool:
    """Whether two fields are equal, which are nodes, texts or the like."""
    if type(first) is not type(second):
        return False
    if isinstance(first, BaseNode):
        return first.equals(second, ignored_fields)
    return bool(first == second)


def _cloned(value: Any) -> Any:
    if isinstance(value, BaseNode):
        return value.clone()
    if isinstance(value, list):
        return [_cloned(each) for each in value]
    return value


class BaseNode:
    """Any node. Two nodes are compared by `equals`; `==` compares which object they are."""

    # The method of a visitor for nodes of this class.
    visited_by = "visit_BaseNode"

    def __init_subclass__(cls) -> None:
        cls.visited_by = f"visit_{cls.__name__}"

    def finish(self) -> None:
        """Makes the attributes that are made when they are asked for: those of a resource that was parsed."""

    def clone(self: Node) -> Node:
        """A copy of the node and of all below it."""
        return type(self)(**{name: _cloned(value) for name, value in fields_of(self).items()})

    def equals(self, other: BaseNode, ignored_fields: list[str] | None = ["span"]) -> bool:
        """Whether another node has the same fields, but for those that are ignored. Lists are compared in order."""
        ignored = set(ignored_fields or ())
        mine = {name: value for name, value in fields_of(self).items() if name not in ignored}
        others = {name: value for name, value in fields_of(other).items() if name not in ignored}
        return mine.keys() == others.keys() and all(
            _fields_equal(value, others[name], ignored_fields) for name, value in mine.items()
        )

    def to_json(self) -> Any:
        """The JSON value of the node and of all below it."""
        fields = {name: to_json(value) for name, value in fields_of(self).items()}
        return {**fields, "type": type(self).__name__}

    def __str__(self) -> str:
        return json.dumps(self.to_json())


def _fields_equal(first: Any, second: Any, ignored_fields: list[str] | None) -> bool:
    if isinstance(first, list) and isinstance(second, list):
        return len(first) == len(second) and all(
            scalars_equal(mine, other, ignored_fields) for mine, other in zip(first, second)
        )
    return scalars_equal(first, second, ignored_fields)


class Span(BaseNode):
    """A stretch of a source: the indexes of its first character and of the one after its last."""

    def __init__(self, start: int, end: int) -> None:
        self.start = start
        self.end = end


class SyntaxNode(BaseNode):
    """A node that is written in a source. `span` is where, or `None` if that isn't known."""

    def __init__(self, span: Span | None = None) -> None:
        self.span = span

    def add_span(self, start: int, end: int) -> None:
        self.span = Span(start, end)


class Resource(SyntaxNode):
    """A source: its entries. Those of a source that was parsed are made when `body` is first asked for."""

    body: list[EntryType]

    def __init__(self, body: list[EntryType] | None = None, *, span: Span | None = None) -> None:
        self.span = span
        self.body = body or []

    @classmethod
    def of(cls, span: Span | None, making: Callable[[], list[EntryType]]) -> Resource:
        """The resource whose entries this call makes."""
        made = cls.__new__(cls)
        made.span = span
        vars(made)["_making"] = making
        return made

    def __getattr__(self, name: str) -> Any:
        # Only what isn't there is asked for here.
        making = vars(self).pop("_making", None) if name == "body" else None
        if making is None:
            raise AttributeError(f"{type(self).__name__!r} object has no attribute {name!r}")
        self.body = making()
        return self.body

    def finish(self) -> None:
        if "_making" in vars(self):
            self.body


class Entry(SyntaxNode):
    """A part of a resource."""


class Message(Entry):
    """`id = value`, with attributes, or attributes alone."""

    def __init__(
        self,
        id: Identifier,
        value: Pattern | None = None,
        attributes: list[Attribute] | None = None,
        comment: Comment | None = None,
        *,
        span: Span | None = None,
    ) -> None:
        self.span = span
        self.id = id
        self.value = value
        self.attributes = attributes or []
        self.comment = comment


class Term(Entry):
    """`-id = value`, with attributes."""

    def __init__(
        self,
        id: Identifier,
        value: Pattern,
        attributes: list[Attribute] | None = None,
        comment: Comment | None = None,
        *,
        span: Span | None = None,
    ) -> None:
        self.span = span
        self.id = id
        self.value = value
        self.attributes = attributes or []
        self.comment = comment


class Pattern(SyntaxNode):
    """What is shown: texts and placeables."""

    def __init__(self, elements: list[TextElement | Placeable], *, span: Span | None = None) -> None:
        self.span = span
        self.elements = elements


class PatternElement(SyntaxNode):
    """A part of a pattern."""


class TextElement(PatternElement):
    """A text, without the indent of its lines. Lines end in a line feed."""

    def __init__(self, value: str, *, span: Span | None = None) -> None:
        self.span = span
        self.value = value


class Placeable(PatternElement):
    """`{ expression }`."""

    def __init__(self, expression: InlineExpression | Placeable | SelectExpression, *, span: Span | None = None) -> None:
        self.span = span
        self.expression = expression


class Expression(SyntaxNode):
    """What is between the braces of a placeable."""


class Literal(Expression):
    """A text in quotes, or a number: `value` is as it is written."""

    def __init__(self, value: str, *, span: Span | None = None) -> None:
        self.span = span
        self.value = value

    def parse(self) -> dict[str, Any]:
        """What is meant."""
        return {"value": self.value}


class StringLiteral(Literal):
    """A text in quotes, with its escapes."""

    def parse(self) -> dict[str, Any]:
        """`value` is the text that is meant."""
        return {"value": _ESCAPE.sub(_meant, self.value)}


def _meant(escape: re.Match[str]) -> str:
    """The character that an escape stands for. U+FFFD stands for one that no text has."""
    if escape[1]:
        return escape[1]
    number = int(escape[2] or escape[3], 16)
    return chr(number) if number <= 0xD7FF or 0xE000 <= number <= 0x10FFFF else "\ufffd"


class NumberLiteral(Literal):
    """A number, as it is written."""

    def parse(self) -> dict[str, Any]:
        """`value` is the nearest float, and `precision` how many digits are after the point."""
        _, _, fraction = self.value.partition(".")
        return {"value": float(self.value), "precision": len(fraction)}


class MessageReference(Expression):
    """`id` or `id.attribute`."""

    def __init__(self, id: Identifier, attribute: Identifier | None = None, *, span: Span | None = None) -> None:
        self.span = span
        self.id = id
        self.attribute = attribute


class TermReference(Expression):
    """`-id` or `-id.attribute`, with or without arguments."""

    def __init__(
        self,
        id: Identifier,
        attribute: Identifier | None = None,
        arguments: CallArguments | None = None,
        *,
        span: Span | None = None,
    ) -> None:
        self.span = span
        self.id = id
        self.attribute = attribute
        self.arguments = arguments


class VariableReference(Expression):
    """`$id`."""

    def __init__(self, id: Identifier, *, span: Span | None = None) -> None:
        self.span = span
        self.id = id


class FunctionReference(Expression):
    """`ID(..)`."""

    def __init__(self, id: Identifier, arguments: CallArguments, *, span: Span | None = None) -> None:
        self.span = span
        self.id = id
        self.arguments = arguments


class SelectExpression(Expression):
    """`selector -> variants`."""

    def __init__(self, selector: InlineExpression, variants: list[Variant], *, span: Span | None = None) -> None:
        self.span = span
        self.selector = selector
        self.variants = variants


class CallArguments(SyntaxNode):
    """`(positional, .., name: value, ..)`."""

    def __init__(
        self,
        positional: list[InlineExpression | Placeable] | None = None,
        named: list[NamedArgument] | None = None,
        *,
        span: Span | None = None,
    ) -> None:
        self.span = span
        self.positional = positional or []
        self.named = named or []


class Attribute(SyntaxNode):
    """`.id = value`."""

    def __init__(self, id: Identifier, value: Pattern, *, span: Span | None = None) -> None:
        self.span = span
        self.id = id
        self.value = value


class Variant(SyntaxNode):
    """`[key] value`, or `*[key] value` if it is the default."""

    def __init__(self, key: Identifier | NumberLiteral, value: Pattern, default: bool = False, *, span: Span | None = None) -> None:
        self.span = span
        self.key = key
        self.value = value
        self.default = default


class NamedArgument(SyntaxNode):
    """`name: value`."""

    def __init__(self, name: Identifier, value: NumberLiteral | StringLiteral, *, span: Span | None = None) -> None:
        self.span = span
        self.name = name
        self.value = value


class Identifier(SyntaxNode):
    """A name, without the sign before it."""

    def __init__(self, name: str, *, span: Span | None = None) -> None:
        self.span = span
        self.name = name


class BaseComment(Entry):
    """A comment: its lines, without their signs."""

    def __init__(self, content: str | None = None, *, span: Span | None = None) -> None:
        self.span = span
        self.content = content


class Comment(BaseComment):
    """`# content`: of a message or a term, or standing alone."""


class GroupComment(BaseComment):
    """`## content`."""


class ResourceComment(BaseComment):
    """`### content`."""


class Junk(SyntaxNode):
    """A stretch that can't be read, and why."""

    def __init__(self, content: str | None = None, annotations: list[Annotation] | None = None, *, span: Span | None = None) -> None:
        self.span = span
        self.content = content
        self.annotations = annotations or []

    def add_annotation(self, annotation: Annotation) -> None:
        self.annotations.append(annotation)


class Annotation(SyntaxNode):
    """Why a stretch can't be read: the code of `fluent.syntax`, such as "E0003", and a message in words."""

    def __init__(
        self, code: str, arguments: list[Any] | None = None, message: str | None = None, *, span: Span | None = None
    ) -> None:
        self.span = span
        self.code = code
        self.arguments = arguments or []
        self.message = message


InlineExpression = Union[
    NumberLiteral,
    StringLiteral,
    MessageReference,
    TermReference,
    VariableReference,
    FunctionReference,
]
EntryType = Union[Message, Term, Comment, GroupComment, ResourceComment, Junk]
