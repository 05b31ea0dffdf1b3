"""Writes trees."""

from __future__ import annotations

from . import ast
from ._written import written


class FluentSerializer:
    """Writes trees as the library does. `with_junk=True` writes junk as it is, which is otherwise left out."""

    HAS_ENTRIES = 1

    def __init__(self, with_junk: bool = False) -> None:
        self.with_junk = with_junk

    def serialize(self, resource: ast.Resource) -> str:
        """The text of a tree. The library writes it; a tree that it can't be given is written here, by the same rules.

        Raises `MemoryError` if memory runs out.
        """
        if not isinstance(resource, ast.Resource):
            raise TypeError(f"a resource is written, not {type(resource).__name__}")
        is_plain = type(self).serialize_entry is FluentSerializer.serialize_entry
        text = written(resource, self.with_junk) if is_plain else None
        return self._written_here(resource) if text is None else text

    def _written_here(self, resource: ast.Resource) -> str:
        parts: list[str] = []
        state = 0
        for entry in resource.body:
            if self.with_junk or not isinstance(entry, ast.Junk):
                parts.append(self.serialize_entry(entry, state))
            state = 0 if isinstance(entry, ast.Junk) else self.HAS_ENTRIES
        return "".join(parts)

    def serialize_entry(self, entry: ast.EntryType, state: int = 0) -> str:
        """The text of an entry. `state` is `HAS_ENTRIES` behind another that is no junk: a blank line then parts a
        comment from it."""
        if isinstance(entry, ast.Message):
            return _entry(entry, "")
        if isinstance(entry, ast.Term):
            return _entry(entry, "-")
        if isinstance(entry, ast.BaseComment):
            blank = "\n" if state & self.HAS_ENTRIES else ""
            return f"{blank}{serialize_comment(entry, _sign(entry))}\n"
        if isinstance(entry, ast.Junk):
            return entry.content or ""
        raise TypeError(f"an entry is written, not {type(entry).__name__}")


def _sign(comment: ast.BaseComment) -> str:
    if isinstance(comment, ast.ResourceComment):
        return "###"
    return "##" if isinstance(comment, ast.GroupComment) else "#"


def serialize_comment(comment: ast.BaseComment, prefix: str = "#") -> str:
    """The lines of a comment, each with its sign."""
    lines = [f"{prefix} {line}" if line.strip() else prefix for line in (comment.content or "").split("\n")]
    return "\n".join(lines) + "\n"


def _entry(entry: ast.Message | ast.Term, sign: str) -> str:
    """A message or a term, with its comment."""
    comment = "" if entry.comment is None else serialize_comment(entry.comment)
    value = "" if entry.value is None else serialize_pattern(entry.value)
    attributes = "".join(map(_attribute, entry.attributes))
    return f"{comment}{sign}{entry.id.name} ={value}{attributes}\n"


def _attribute(attribute: ast.Attribute) -> str:
    return f"\n    .{attribute.id.name} ={_indented(serialize_pattern(attribute.value))}"


def _indented(text: str) -> str:
    """A text whose lines are four columns further in, but for the first and for blank ones."""
    first, *others = text.split("\n")
    return "\n".join([first, *(f"    {line}" if line else line for line in others)])


def serialize_pattern(pattern: ast.Pattern) -> str:
    """The text of a pattern after a `=` or a key: on a new line if it has several."""
    content = _indented("".join(map(serialize_element, pattern.elements)))
    if not _starts_on_new_line(pattern):
        return f" {content}"
    return f"\n{content}" if content.startswith("\n") else f"\n    {content}"


def _starts_on_new_line(pattern: ast.Pattern) -> bool:
    first = pattern.elements[0] if pattern.elements else None
    if isinstance(first, ast.TextElement) and first.value.startswith("."):
        return False
    return any(map(_has_lines, pattern.elements))


def _has_lines(element: ast.TextElement | ast.Placeable) -> bool:
    """Whether an element is written in several lines: a text with a line feed, or a select."""
    if isinstance(element, ast.TextElement):
        return "\n" in element.value
    expression = element.expression
    while isinstance(expression, ast.Placeable):
        expression = expression.expression
    return isinstance(expression, ast.SelectExpression)


def serialize_element(element: ast.TextElement | ast.Placeable) -> str:
    """A text, or a placeable in its braces."""
    return element.value if isinstance(element, ast.TextElement) else serialize_placeable(element)


def serialize_placeable(placeable: ast.Placeable) -> str:
    """A placeable of a pattern. One that is directly in it has no blank between the braces."""
    expression = placeable.expression
    if isinstance(expression, ast.Placeable):
        return f"{{{_braced(expression)}}}"
    return _braced(placeable)


def _braced(placeable: ast.Placeable) -> str:
    """The braces and what is between them. A select ends with a line of its own."""
    blank = "" if isinstance(placeable.expression, ast.SelectExpression) else " "
    return f"{{ {serialize_expression(placeable.expression)}{blank}}}"


def serialize_expression(expression: ast.Expression | ast.Placeable) -> str:
    """The text of an expression, without the braces around it."""
    if isinstance(expression, ast.StringLiteral):
        return f'"{expression.value}"'
    if isinstance(expression, ast.NumberLiteral):
        return expression.value
    if isinstance(expression, ast.VariableReference):
        return f"${expression.id.name}"
    if isinstance(expression, ast.MessageReference):
        return f"{expression.id.name}{_attribute_of(expression)}"
    if isinstance(expression, ast.TermReference):
        arguments = "" if expression.arguments is None else _arguments(expression.arguments)
        return f"-{expression.id.name}{_attribute_of(expression)}{arguments}"
    if isinstance(expression, ast.FunctionReference):
        return f"{expression.id.name}{_arguments(expression.arguments)}"
    if isinstance(expression, ast.SelectExpression):
        variants = "".join(map(_variant, expression.variants))
        return f"{serialize_expression(expression.selector)} ->{variants}\n"
    if isinstance(expression, ast.Placeable):
        return f"{{{serialize_expression(expression.expression)}}}"
    raise TypeError(f"an expression is written, not {type(expression).__name__}")


def _attribute_of(reference: ast.MessageReference | ast.TermReference) -> str:
    return "" if reference.attribute is None else f".{reference.attribute.name}"


def _arguments(arguments: ast.CallArguments) -> str:
    positional = [serialize_expression(argument) for argument in arguments.positional]
    named = [f"{argument.name.name}: {serialize_expression(argument.value)}" for argument in arguments.named]
    return f"({', '.join(positional + named)})"


def _variant(variant: ast.Variant) -> str:
    sign = "   *" if variant.default else "    "
    return f"\n{sign}[{serialize_variant_key(variant.key)}]{_indented(serialize_pattern(variant.value))}"


def serialize_variant_key(key: ast.Identifier | ast.NumberLiteral) -> str:
    return key.name if isinstance(key, ast.Identifier) else key.value
