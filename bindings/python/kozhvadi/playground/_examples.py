"""What the page begins with, and the examples that it offers when it is empty."""

from __future__ import annotations

from typing import NamedTuple


class Example(NamedTuple):
    """A source, and what it is an example of."""

    title: str
    source: str


FIRST = """\
# Try it: change a text, a variable, or the language above.
-brand = Kozhvadi

welcome = Welcome to { -brand }, { $name }!

# $count: how many messages are unread.
unread = { $count ->
    [one] { $name } has one unread message.
   *[other] { $name } has { $count } unread messages.
}

settings = Settings
    .tooltip = Change how { -brand } looks and behaves
"""

_NUMBERS = """\
# A number is written as the language has it.
done = { NUMBER($share, style: "percent") } done

price = That is { NUMBER($amount, minimumFractionDigits: 2) } for each.

# 1st, 2nd, 3rd: the categories of `ordinal` are others than those of counting.
place = { NUMBER($position, type: "ordinal") ->
    [one] You are { $position }st.
    [two] You are { $position }nd.
    [few] You are { $position }rd.
   *[other] You are { $position }th.
}

sent = Sent on { DATETIME($date, dateStyle: "long") }
"""

_TERMS = """\
# A term is for other messages, which name the form that they need.
-brand = { $case ->
   *[nominative] Firefoks
    [genitive] Firefoksa
    [locative] Firefoksie
}

about = O { -brand(case: "locative") }
update = Aktualizacja { -brand(case: "genitive") }
quit = { -brand } zostanie zamknięty.
"""

EXAMPLES = [
    Example("A greeting and a plural", FIRST),
    Example("Numbers, places and dates", _NUMBERS),
    Example("A term in Polish cases", _TERMS),
]
