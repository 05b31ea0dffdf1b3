"""Sources that nest deep.

A shape is how one level opens and closes around the next one. A nested source has one message, `m0`, with all levels.
A chained source has 99 messages, as many as one request may enter: each has its part of the levels, and refers to the
next one inside of them.
"""

INNERMOST = '"x"'
MESSAGES = 99

# How a value begins and ends, and how each level does.
NESTED = {
    "braces": ("", "{", "}", ""),
    "calls": ("{", "NUMBER(", ")", "}"),
    "calls with a date": ("{", "DATETIME(", ")", "}"),
    "calls in braces": ("", "{NUMBER(", ")}", ""),
    "terms": ("", "{-t(", ")}", ""),
    "selects": ("", "{ 1 ->\n *[o] ", "\n }", ""),
    "selects in calls": ("", "{NUMBER({ 1 ->\n *[o] ", "\n })}", ""),
    "selectors": ("{", "NUMBER(", ")", " ->\n *[o] x\n }"),
}
CHAINED = {
    "chained calls": ("{", "NUMBER(", ")", "}"),
    "chained calls in braces": ("", "{NUMBER(", ")}", ""),
    "chained terms": ("", "{-t({", "})}", ""),
}
SHAPES = [*NESTED, *CHAINED]
ID = "m0"
REQUEST = f"{ID}\n".encode()
ARGUMENT = "d:date=2026-11-28"


def source(shape, depth):
    """A source of this shape, so many levels deep in all."""
    if shape in NESTED:
        lines = [message(0, NESTED[shape], depth, innermost(shape))]
    else:
        levels = max(1, depth // MESSAGES)
        inner = [f"m{number + 1}" for number in range(MESSAGES - 1)] + [INNERMOST]
        lines = [message(number, CHAINED[shape], levels, inner[number]) for number in range(MESSAGES)]
    return "".join([*lines, "-t = x\n"]).encode()


def innermost(shape):
    """What stands in the innermost level: a pattern in a variant, a date where there is one, and a text otherwise."""
    if shape.endswith("a date"):
        return "$d"
    return "x" if shape.startswith("selects") else INNERMOST


def message(number, shape, levels, inner):
    """A message whose value has so many levels around what is inner."""
    begins, opens, closes, ends = shape
    return f"m{number} = {begins}{opens * levels}{inner}{closes * levels}{ends}\n"
