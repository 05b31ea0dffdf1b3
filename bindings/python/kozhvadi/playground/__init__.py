"""A page to try Fluent messages in, on this machine alone: `kozhvadi-playground`.

What you type is linted and formatted at once: findings are underlined, and each message has its text, its errors, a
field for each variable, and a text for each plural category of a language. It needs no other package, and no network.
"""
