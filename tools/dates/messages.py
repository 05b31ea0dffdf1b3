#!/usr/bin/env python3
"""Holds the dates in the messages of sources against `Intl` of `node`: messages.py TAG=FOLDER..

In each folder are the sources of one language. A value or an attribute of a message that is made of texts, variables and calls of
`DATETIME` is shown whole by the package for Python, and its text must be what fluent.js makes of the same parts with `Intl`. Of
a pattern that has other parts, such as a select, each call is shown by itself. A text that is `"true"` or `"false"` counts as
such for `hour12`, which docs/reference/dates.md explains. The library of the package has to be built. Prints what differs, and
how many messages and calls there were.
"""
import sys
from pathlib import Path

from check import ask
from package import MOMENTS, Bundle, millis

from kozhvadi.syntax import ast, parse, serialize
from kozhvadi.syntax.visitor import Visitor


class Calls(Visitor):
    """The calls of DATETIME in a pattern."""

    def __init__(self, pattern):
        self.found = []
        self.visit(pattern)

    def visit_FunctionReference(self, node):
        if node.id.name == "DATETIME":
            self.found.append(node)
        self.generic_visit(node)


def is_simple(expression):
    """Whether an expression is a variable, or a call of DATETIME with one."""
    if isinstance(expression, ast.VariableReference):
        return True
    return (isinstance(expression, ast.FunctionReference) and expression.id.name == "DATETIME"
            and [type(each) for each in expression.arguments.positional] == [ast.VariableReference])


def is_whole(pattern):
    return all(isinstance(each, ast.TextElement) or is_simple(each.expression) for each in pattern.elements)


def options_of(call, tag):
    """The options of a call, as fluent.js hands them to `Intl`."""
    found = {each.name.name: each.value.parse()["value"] for each in call.arguments.named}
    found = {name: int(value) if isinstance(value, float) else value for name, value in found.items()}
    half_day = found.pop("hour12", None)
    if half_day in ("true", "false"):
        found["hourCycle"] = "h23" if half_day == "false" else "h11" if tag == "ja" else "h12"
    return found


def patterns_of(source):
    """The patterns of a source that have dates: by which id and attribute each is asked for, and the pattern."""
    for entry in parse(source).body:
        if isinstance(entry, ast.Message):
            named = [(None, entry.value)] + [(each.id.name, each.value) for each in entry.attributes]
            yield from (((entry.id.name, name), pattern) for name, pattern in named if pattern is not None and Calls(pattern).found)


def alone(call, source):
    """A source with one message, which is a call that a pattern of this source has, and its pattern."""
    message = ast.Message(ast.Identifier("alone"), ast.Pattern([ast.Placeable(call)]))
    return serialize(ast.Resource([message])), ("alone", None), message.value


def shown_of(source):
    """What is shown of a source: the source itself or one that is made of it, an id and an attribute, and the pattern."""
    for name, pattern in patterns_of(source):
        if is_whole(pattern):
            yield source, name, pattern
        else:
            yield from (alone(call, source) for call in Calls(pattern).found if is_simple(call))


class Text:
    """A pattern that is shown at one moment: its parts, of which the calls await what `Intl` writes."""

    def __init__(self, tag, shown, moment):
        self.tag, (self.source, self.name, self.pattern), self.moment = tag, shown, moment
        self.calls = Calls(self.pattern).found

    def queries(self):
        return [(self.tag, options_of(call, self.tag), "UTC", [millis(self.moment)]) for call in self.calls]

    def expected(self, answers):
        written = iter(answers)
        parts = []
        for element in self.pattern.elements:
            if isinstance(element, ast.TextElement):
                parts.append(element.value)
            elif isinstance(element.expression, ast.VariableReference):
                parts.append(element.expression.id.name)
            else:
                parts.append(next(written))
        return "".join(parts)

    def answered(self, bundle):
        dates = {call.arguments.positional[0].id.name for call in self.calls}
        plain = {each.expression.id.name for each in self.pattern.elements
                 if isinstance(each, ast.Placeable) and isinstance(each.expression, ast.VariableReference)}
        values = {name: name for name in plain} | {name: self.moment for name in dates}
        return bundle.format(*self.name, **values)


def texts_of(tag, folder):
    for file in sorted(Path(folder).rglob("*.ftl")):
        source = file.read_text(encoding="utf-8", errors="replace")
        if "DATETIME" in source:
            yield from (Text(tag, shown, moment) for shown in shown_of(source) for moment in MOMENTS)


def main(folders):
    texts = [text for tag, folder in folders for text in texts_of(tag, folder)]
    asked = [text.queries() for text in texts]
    answers = iter(ask([query for queries in asked for query in queries]))
    differ, bundles = 0, {}
    for text, queries in zip(texts, asked):
        expected = text.expected([next(answers)[0] for _ in queries])
        key = text.tag, text.source
        if key not in bundles:
            bundles[key] = Bundle(text.source, locale=text.tag, isolating=False)
        answer = text.answered(bundles[key])
        if answer != (expected, []):
            differ += 1
            print(" ", text.tag, text.name, answer, expected, sep="  ")
    patterns, calls = len(texts) // len(MOMENTS), sum(map(len, asked)) // len(MOMENTS)
    print(f"{len(dict(folders))} languages, {patterns} patterns with {calls} calls, {len(texts)} texts: {differ} differ")
    sys.exit(differ > 0)


if __name__ == "__main__":
    main([word.split("=", 1) for word in sys.argv[1:]])
