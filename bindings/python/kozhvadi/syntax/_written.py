"""Writes trees by the library's call, which takes them as JSON: docs/reference/json.md has the objects and their keys."""

from __future__ import annotations

from collections.abc import Callable
from json.encoder import encode_basestring as _text
from typing import Any

from .. import _library as c
from . import ast


def written(resource: ast.Resource, with_junk: bool) -> str | None:
    """What the library writes of a tree, or `None` if its JSON can't be that of a tree: it nests too deep, say, has half a
    pair of surrogates in a text, or nodes of a class of the program's own."""
    try:
        tree = f'{{"body":[{",".join(map(_entry, resource.body))}],"syntax":"2","type":"Resource"}}'.encode()
    except (AttributeError, KeyError, RecursionError, TypeError, UnicodeEncodeError):
        return None
    made = c.FluentText()
    try:
        status = c.library.fluent_write_tree(tree, len(tree), with_junk, made)
        if status == c.NO_MEMORY:
            raise MemoryError("the tree can't be written")
        return c.string_of(made) if status == c.READ else None
    finally:
        c.library.fluent_free_text(made)


def _entry(entry: ast.EntryType) -> str:
    return _ENTRIES[type(entry)](entry)


def _message(entry: ast.Message | ast.Term) -> str:
    comment = "null" if entry.comment is None else _comment(entry.comment)
    value = "null" if entry.value is None else _pattern(entry.value)
    attributes = ",".join(map(_attribute, entry.attributes))
    return (
        f'{{"attributes":[{attributes}],"comment":{comment},"id":{_identifier(entry.id)},'
        f'"type":"{type(entry).__name__}","value":{value}}}'
    )


def _comment(comment: ast.BaseComment) -> str:
    lines = ",".join(map(_text, (comment.content or "").split("\n")))
    return f'{{"content":[{lines}],"type":"{type(comment).__name__}"}}'


def _junk(junk: ast.Junk) -> str:
    return f'{{"content":{_text(junk.content or "")},"type":"Junk"}}'


def _attribute(attribute: ast.Attribute) -> str:
    return f'{{"id":{_identifier(attribute.id)},"type":"Attribute","value":{_pattern(attribute.value)}}}'


def _identifier(identifier: ast.Identifier) -> str:
    return f'{{"name":{_text(identifier.name)},"type":"Identifier"}}'


def _pattern(pattern: ast.Pattern) -> str:
    return f'{{"elements":[{",".join(map(_element, pattern.elements))}],"type":"Pattern"}}'


def _element(element: ast.TextElement | ast.Placeable) -> str:
    """A placeable, or a text: each of its lines is an element of its own."""
    if type(element) is not ast.TextElement:
        return _expression(element)
    if "\n" not in element.value:
        return f'{{"type":"TextElement","value":{_text(element.value)}}}'
    lines = element.value.split("\n")
    ended = [f"{line}\n" for line in lines[:-1]] + lines[-1:] * bool(lines[-1])
    return ",".join([f'{{"type":"TextElement","value":{_text(line)}}}' for line in ended])


def _expression(expression: Any) -> str:
    return _EXPRESSIONS[type(expression)](expression)


def _placeable(placeable: ast.Placeable) -> str:
    return f'{{"expression":{_expression(placeable.expression)},"type":"Placeable"}}'


def _select(select: ast.SelectExpression) -> str:
    variants = ",".join(map(_variant, select.variants))
    return f'{{"selector":{_expression(select.selector)},"type":"Select","variants":[{variants}]}}'


def _variant(variant: ast.Variant) -> str:
    key, default = _expression(variant.key), "true" if variant.default else "false"
    return f'{{"default":{default},"key":{key},"type":"Variant","value":{_pattern(variant.value)}}}'


def _literal(literal: ast.Literal) -> str:
    return f'{{"type":"{type(literal).__name__}","value":{_text(literal.value)}}}'


def _variable(reference: ast.VariableReference) -> str:
    return f'{{"id":{_identifier(reference.id)},"type":"VariableReference"}}'


def _message_reference(reference: ast.MessageReference) -> str:
    return f'{{"attribute":{_optional(_identifier, reference.attribute)},"id":{_identifier(reference.id)},"type":"MessageReference"}}'


def _term_reference(reference: ast.TermReference) -> str:
    attribute, arguments = _optional(_identifier, reference.attribute), _optional(_arguments, reference.arguments)
    return f'{{"arguments":{arguments},"attribute":{attribute},"id":{_identifier(reference.id)},"type":"TermReference"}}'


def _function(reference: ast.FunctionReference) -> str:
    return f'{{"arguments":{_arguments(reference.arguments)},"id":{_identifier(reference.id)},"type":"FunctionReference"}}'


def _arguments(arguments: ast.CallArguments) -> str:
    named = ",".join(map(_named, arguments.named))
    return f'{{"named":[{named}],"positional":[{",".join(map(_expression, arguments.positional))}],"type":"CallArguments"}}'


def _named(argument: ast.NamedArgument) -> str:
    return f'{{"name":{_identifier(argument.name)},"type":"NamedArgument","value":{_expression(argument.value)}}}'


def _optional(write: Callable[[Any], str], node: ast.SyntaxNode | None) -> str:
    return "null" if node is None else write(node)


_ENTRIES: dict[type, Callable[[Any], str]] = {
    ast.Message: _message,
    ast.Term: _message,
    ast.Comment: _comment,
    ast.GroupComment: _comment,
    ast.ResourceComment: _comment,
    ast.Junk: _junk,
}

_EXPRESSIONS: dict[type, Callable[[Any], str]] = {
    ast.Placeable: _placeable,
    ast.SelectExpression: _select,
    ast.StringLiteral: _literal,
    ast.NumberLiteral: _literal,
    ast.VariableReference: _variable,
    ast.MessageReference: _message_reference,
    ast.TermReference: _term_reference,
    ast.FunctionReference: _function,
    ast.Identifier: _identifier,
}
