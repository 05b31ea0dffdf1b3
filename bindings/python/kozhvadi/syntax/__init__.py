"""The tree of a source, with the names of `fluent.syntax`: read it, walk over it, change it, and write it.

>>> resource = parse("hello = Hello, { $name }!\\n")
>>> message = resource.body[0]
>>> message.id.name, message.value.elements[1].expression.id.name
('hello', 'name')
>>> message.id.name = "greeting"
>>> serialize(resource)
'greeting = Hello, { $name }!\\n'
"""

from typing import Any

from . import ast
from .errors import ParseError
from .parser import FluentParser
from .serializer import FluentSerializer
from .visitor import Transformer, Visitor

__all__ = [
    "FluentParser",
    "FluentSerializer",
    "ParseError",
    "Transformer",
    "Visitor",
    "ast",
    "parse",
    "serialize",
]


def parse(source: str, **kwargs: Any) -> ast.Resource:
    """The tree of a source, by `FluentParser(**kwargs).parse(source)`."""
    return FluentParser(**kwargs).parse(source)


def serialize(resource: ast.Resource, **kwargs: Any) -> str:
    """The text of a tree, by `FluentSerializer(**kwargs).serialize(resource)`."""
    return FluentSerializer(**kwargs).serialize(resource)
