"""Why a source can't be read, by the codes of `fluent.syntax`."""

from __future__ import annotations

from typing import Any

# The code of each kind of error.
CODES = {
    "ExpectedToken": "E0003",
    "ExpectedCharRange": "E0004",
    "ExpectedMessageField": "E0005",
    "ExpectedTermField": "E0006",
    "ForbiddenCallee": "E0008",
    "MissingDefaultVariant": "E0010",
    "MissingValue": "E0012",
    "ExpectedLiteral": "E0014",
    "MultipleDefaultVariants": "E0015",
    "MessageReferenceAsSelector": "E0016",
    "TermReferenceAsSelector": "E0017",
    "MessageAttributeAsSelector": "E0018",
    "TermAttributeAsPlaceable": "E0019",
    "UnterminatedStringLiteral": "E0020",
    "PositionalArgumentFollowsNamed": "E0021",
    "DuplicatedNamedArgument": "E0022",
    "UnknownEscapeSequence": "E0025",
    "InvalidUnicodeEscapeSequence": "E0026",
    "UnbalancedClosingBrace": "E0027",
    "ExpectedInlineExpression": "E0028",
    "ExpectedSimpleExpressionAsSelector": "E0029",
}


class ParseError(Exception):
    """An error of a source. The parser raises none: it makes junk, whose annotations have the codes."""

    def __init__(self, code: str, *args: Any) -> None:
        super().__init__(code, *args)
        self.code = code
        self.message = f"the source can't be read: {code}"
