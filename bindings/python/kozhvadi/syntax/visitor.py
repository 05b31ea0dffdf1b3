"""Walks over a tree."""

from __future__ import annotations

from typing import Any

from .ast import BaseNode, Span, fields_of


class Visitor:
    """A walk that reads a tree. Make a class of it, with a method `visit_Message` or the like for each kind of node that
    is of interest. Such a method goes on below its node by `self.generic_visit(node)`, or else not.

    >>> from kozhvadi.syntax import parse
    >>> class Variables(Visitor):
    ...     def __init__(self):
    ...         self.names = []
    ...     def visit_VariableReference(self, node):
    ...         self.names.append(node.id.name)
    >>> variables = Variables()
    >>> variables.visit(parse("hello = Hello, { $first } { $last }!\\n"))
    >>> variables.names
    ['first', 'last']
    """

    # Whether nothing would be done with a span, which has nothing below it: then it isn't visited, which takes half as long.
    passes_spans = True

    def __init_subclass__(cls) -> None:
        super().__init_subclass__()
        visits = (cls.visit, cls.generic_visit) == (Visitor.visit, Visitor.generic_visit)
        cls.passes_spans = visits and not hasattr(cls, "visit_Span")

    def visit(self, node: Any) -> Any:
        """Visits a node, or each node of a list."""
        if isinstance(node, list):
            for each in node:
                self.visit(each)
        elif isinstance(node, BaseNode):
            getattr(self, node.visited_by, self.generic_visit)(node)

    def generic_visit(self, node: BaseNode) -> Any:
        """Visits all that is below a node."""
        for value in fields_of(node).values():
            if isinstance(value, (BaseNode, list)) and not (self.passes_spans and type(value) is Span):
                self.visit(value)


class Transformer(Visitor):
    """A walk that changes a tree, in place. A method returns the node, another one that takes its place, or `None` to
    remove it.

    >>> from kozhvadi.syntax import parse, serialize
    >>> class Upper(Transformer):
    ...     def visit_TextElement(self, node):
    ...         node.value = node.value.upper()
    ...         return node
    >>> serialize(Upper().visit(parse("hello = Hello, { $name }!\\n")))
    'hello = HELLO, { $name }!\\n'
    """

    def visit(self, node: Any) -> Any:
        """What takes the place of a node."""
        if not isinstance(node, BaseNode):
            return node
        return getattr(self, node.visited_by, self.generic_visit)(node)

    def generic_visit(self, node: BaseNode) -> Any:
        """Changes all that is below a node, which stays."""
        for name, value in list(fields_of(node).items()):
            if isinstance(value, list):
                visited = [self.visit(each) for each in value]
                value[:] = [each for each in visited if each is not None]
            elif isinstance(value, BaseNode):
                changed = self.visit(value)
                if changed is None:
                    delattr(node, name)
                else:
                    setattr(node, name, changed)
        return node
