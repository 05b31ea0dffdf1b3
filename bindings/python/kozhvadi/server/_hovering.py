"""What the editor shows of a name that the pointer is on: its texts, in each plural category."""

from __future__ import annotations

import re

from .._builtins import BUILTINS
from .._bundle import Bundle
from .._errors import FluentError
from .._occurrences import Symbol
from .._positions import utf16_length
from .._samples import Catalog, categories, known
from .._scan import Entry
from ._checks import position_of
from ._documents import Document
from ._session import Params
from ._wire import Json
from ._workspace import Workspace

# What is Markdown in a text that follows a title: links, images, marks, tags and entities, and what begins a line.
_MARKDOWN = re.compile(r"[\\`*_~\[\]<>&|]|(?<=\n)[#+=-]|(?<=\n[0-9])[.)]|(?<=\n[0-9]{2})[.)]")

# A message that shows a term, which can't be asked for.
_SHOWN = "kozhvadi-shown-"


class Hovering:
    """Answers what is at a position."""

    def __init__(self, workspace: Workspace) -> None:
        self._workspace = workspace
        self.has_markdown = True

    def hover(self, params: Params) -> Json | None:
        """The texts of the message or term at a position, or what a variable is."""
        document = self._workspace.document(params["textDocument"]["uri"].text)
        if document is None:
            return None
        offset = document.offset(position_of(params["position"]))
        found = document.places.at(offset)
        if found is None:
            return None
        told = self._told(document, found.symbol)
        if not told:
            return None
        kind = "markdown" if self.has_markdown else "plaintext"
        contents = {"kind": kind, "value": "\n\n".join(told)}
        return {"contents": contents, "range": document.range(found.start, found.end)}

    def _told(self, document: Document, symbol: Symbol) -> list[str]:
        if symbol.kind == "variable":
            return self._of_variable(document, symbol)
        if symbol.kind == "function":
            return self._of_function(symbol.name)
        key, attribute = (symbol.owner, symbol.name) if symbol.owner else (str(symbol), None)
        catalog, locale = self._workspace.catalog(document).documents, self._workspace.locale(document)
        told = self._of_entry(catalog, key, attribute, locale)
        reference = self._workspace.reference(document).documents
        if reference:
            origin = self._workspace.locale(reference[0]) if not self._workspace.settings.locale else None
            original = self._of_entry(reference, key, attribute, origin or "en")
            name = next((each.name for each in reference if each.places.entry(key)), "")
            told += [f"The reference, {self._code(name)}:", *original[1:]] if original else []
        return told

    def _of_entry(self, documents: list[Document], key: str, attribute: str | None, locale: str | None) -> list[str]:
        entries = self._workspace.samples(documents)
        entry = entries.entries.get(key)
        if entry is None:
            return []
        name = f"{key}.{attribute}" if attribute else key
        title = f"{self._code(name)} in {self._code(locale)}" if locale else self._code(name)
        told = [f"{title}: {self._plain(entry.comment)}" if entry.comment else title]
        rows = _rows(documents, entries, entry, attribute, locale or "en")
        return [*told, self._block(_table(rows))] if rows else told

    def _of_variable(self, document: Document, symbol: Symbol) -> list[str]:
        locale = self._workspace.locale(document) or "en"
        entries = self._workspace.samples(self._workspace.catalog(document).documents)
        key = symbol.owner or ""
        entry = entries.entries.get(key)
        parts = [part.attribute for part in entry.parts] if entry else []
        found = [each for name in parts for each in entries.variables(key, name) if each.name == symbol.name]
        told = [f"{self._code(str(symbol))} of {self._code(key)}"]
        plural = next((each for each in found if each.is_plural), None)
        if plural:
            kind = "an ordinal" if plural.is_ordinal else "a number"
            numbers = ", ".join(f"{name}: {sample}" for name, sample in categories(locale, plural.is_ordinal).items())
            told[0] += f": {kind}, whose categories in {self._code(locale)} are"
            told.append(self._block(numbers))
        return told

    def _of_function(self, name: str) -> list[str]:
        """What a function of the library takes."""
        known = BUILTINS.get(name)
        if known is None:
            return []
        options = (f"{option}: {each.described}" for option, each in known.options.items())
        return [f"{self._code(name)} takes {known.operand}, and these options", self._block("\n".join(options))]

    def _plain(self, text: str) -> str:
        """A text that is shown as it is: a comment has no Markdown."""
        return _MARKDOWN.sub(r"\\\g<0>", text) if self.has_markdown else text

    def _code(self, text: str) -> str:
        """A name in a span of code, which a backtick would end."""
        return "`" + text.replace("`", "'") + "`" if self.has_markdown else text

    def _block(self, text: str) -> str:
        return f"```text\n{text.replace('```', '` ` `')}\n```" if self.has_markdown else text


def _rows(
    documents: list[Document], entries: Catalog, entry: Entry, attribute: str | None, locale: str
) -> list[tuple[str, str, str]]:
    """For each case of an entry its label, its argument and its text."""
    cases = entries.cases(entry.key, attribute, locale)
    sources = [f"{document.text}\n" for document in documents]
    if entry.is_term:
        if attribute:
            return []
        sources.append("".join(_showing(entry, number, case.arguments) for number, case in enumerate(cases)))
    rows: list[tuple[str, str, str]] = []
    try:
        with Bundle(sources, locale=known(locale), isolating=False) as bundle:
            # What is wrong with the sources is reported elsewhere.
            bundle._hush()
            for number, case in enumerate(cases):
                id = f"{_SHOWN}{number}" if entry.is_term else entry.id
                text = bundle.format(id, attribute, **case.arguments).text
                value = str(case.arguments[case.variable]) if case.variable else ""
                argument = f"${case.variable} = {value}" if case.variable else ""
                rows.append(("" if case.label == value else case.label, argument, text))
    except (FluentError, MemoryError):
        return []
    return rows


def _showing(entry: Entry, number: int, arguments: object) -> str:
    """A message that shows a term with these arguments."""
    named = [
        f'{name}: "{value}"'
        for name, value in (arguments.items() if isinstance(arguments, dict) else ())
        if '"' not in str(value) and "\\" not in str(value)
    ]
    return f"{_SHOWN}{number} = {{ -{entry.id}({', '.join(named)}) }}\n"


def _table(rows: list[tuple[str, str, str]]) -> str:
    """The rows in columns; a text alone if there are no others."""
    widths = [max(utf16_length(row[column]) for row in rows) for column in range(2)]
    lines = []
    for label, argument, text in rows:
        lead = "".join(f"{cell:<{width}}  " for cell, width in zip((argument, label), (widths[1], widths[0])) if width)
        lines += [lead + line if not number else " " * len(lead) + line for number, line in enumerate(text.split("\n"))]
    return "\n".join(lines)
