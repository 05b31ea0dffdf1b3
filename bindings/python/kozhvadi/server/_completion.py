"""What may follow at a position."""

from __future__ import annotations

import re
from collections.abc import Iterable

from .._builtins import BUILTINS, Builtin
from .._fixes import reference_variables
from .._samples import Catalog, categories
from .._scan import Inside, inside
from ._checks import position_of
from ._documents import Document
from ._session import Params
from ._wire import Json
from ._workspace import Workspace

_NAME = rb"[A-Za-z][A-Za-z0-9_-]*"
_WORD = re.compile(rb"(?:[$-]?" + _NAME + rb"(?:\.(?:" + _NAME + rb")?)?|[$-])?$")
_OPTION = re.compile(rb"([A-Za-z]+)[ ]*:[ ]*$")
_KEY = re.compile(rb"^[ ]*\*?\[[ ]*([a-z]*)$")

# Kinds of completions by the protocol.
_FUNCTION, _VARIABLE, _PROPERTY, _VALUE, _KEYWORD, _SNIPPET, _TEXT, _CONSTANT = 3, 6, 10, 12, 14, 15, 1, 21
_IS_SNIPPET = 2


class Completion:
    """Answers what may be written at a position."""

    def __init__(self, workspace: Workspace) -> None:
        self._workspace = workspace
        self.has_snippets = False

    def complete(self, params: Params) -> list[Json]:
        """The ids, terms, attributes, variables, options, keys and messages that may follow."""
        document = self._workspace.document(params["textDocument"]["uri"].text)
        if document is None:
            return []
        line, character = position_of(params["position"])
        offset = document.offset((line, character))
        start_of_line = document.offset((line, 0))
        before = document.source[start_of_line:offset]
        key = _KEY.match(before)
        if key and inside(document.source, start_of_line).kind in ("select", "variant"):
            return self._placed(document, offset - len(key[1]), offset, self._keys(document))
        found = _WORD.search(before)
        word = found[0].decode() if found else ""
        start = offset - len(word)
        place = inside(document.source, start)
        if place.kind in ("placeable", "call"):
            return self._placed(document, start, offset, self._expressions(document, place, word, start))
        if not place.kind and start == start_of_line:
            return self._placed(document, start, offset, self._untranslated(document))
        return []

    @staticmethod
    def _placed(document: Document, start: int, end: int, items: Iterable[Json]) -> list[Json]:
        """The items, each of which stands for what is between two offsets."""
        range, placed = document.range(start, end), []
        for item in items:
            text = item.pop("text", item["label"])
            placed.append({**item, "filterText": item["label"], "textEdit": {"range": range, "newText": text}})
        return placed

    def _keys(self, document: Document) -> list[Json]:
        locale = self._workspace.locale(document) or "en"
        return [
            {"label": name, "kind": _KEYWORD, "detail": f"as in {sample}", "sortText": f"{number}"}
            for number, (name, sample) in enumerate(categories(locale).items())
        ]

    def _expressions(self, document: Document, place: Inside, word: str, start: int) -> list[Json]:
        if place.kind == "placeable" and place.is_full:
            return []
        catalog = self._workspace.samples(self._workspace.catalog(document).documents)
        reference = self._workspace.samples(self._workspace.reference(document).documents)
        if "." in word:
            return _attributes(catalog, word.partition(".")[0])
        if word.startswith("$"):
            return self._variables(document, place, catalog, reference)
        terms = [_entry_item(catalog, key, _CONSTANT) for key in catalog.entries if key.startswith("-")]
        if word.startswith("-"):
            return terms
        builtin = _builtin(place)
        option = _OPTION.search(document.source, max(0, start - 80), start) if place.kind == "call" else None
        if option:
            known = builtin.options.get(option[1].decode()) if builtin else None
            return [{"label": value, "kind": _VALUE} for value in known.values] if known else []
        messages = [_entry_item(catalog, key, _TEXT) for key in catalog.entries if not key.startswith("-")]
        named = _options(builtin) if builtin else _arguments(catalog, place)
        return [
            *named,
            *self._variables(document, place, catalog, reference),
            *messages,
            *terms,
            *self._functions(document),
        ]

    def _functions(self, document: Document) -> list[Json]:
        names = dict.fromkeys([*BUILTINS, *self._workspace.functions(document)])
        return [{"label": name, "kind": _FUNCTION, "text": f"{name}("} for name in names]

    def _variables(self, document: Document, place: Inside, catalog: Catalog, reference: Catalog) -> list[Json]:
        """The variables of the reference's message, and those that the message has."""
        own = [each.name for part in _parts(catalog, place.entry) for each in catalog.variables(place.entry, part)]
        names = dict.fromkeys([*reference_variables(place.entry, reference), *own])
        items: list[Json] = [{"label": f"${name}", "kind": _VARIABLE} for name in names]
        if place.kind == "placeable" and self.has_snippets:
            numbers = {
                each.name
                for entries in (reference, catalog)
                for part in _parts(entries, place.entry)
                for each in entries.variables(place.entry, part)
                if each.is_numeric
            }
            items += [self._select(document, name) for name in names if name in numbers]
        return items

    def _select(self, document: Document, name: str) -> Json:
        """A select with a variant for each plural category."""
        found = categories(self._workspace.locale(document) or "en")
        lines = [
            f"   *[{category}] ${{{number}}}" if category == "other" else f"    [{category}] ${{{number}}}"
            for number, category in enumerate(found, 1)
        ]
        text = "\n".join([f"\\${name} ->", *lines, ""])
        return {
            "label": f"${name} ->",
            "kind": _SNIPPET,
            "detail": ", ".join(found),
            "text": text,
            "insertTextFormat": _IS_SNIPPET,
        }

    def _untranslated(self, document: Document) -> list[Json]:
        """The messages of the reference's file that the documents lack, with their texts."""
        counterpart = self._workspace.counterpart(document)
        have = self._workspace.samples(self._workspace.catalog(document).documents).entries
        items: list[Json] = []
        for entry in counterpart.places.entries if counterpart else ():
            if counterpart and not entry.is_term and entry.id not in have:
                text = counterpart.source[entry.start : entry.end].decode()
                items.append({"label": entry.id, "kind": _TEXT, "detail": "of the reference", "text": text})
        return items


def _parts(entries: Catalog, key: str) -> list[str | None]:
    entry = entries.entries.get(key)
    return [part.attribute for part in entry.parts] if entry else []


def _entry_item(catalog: Catalog, key: str, kind: int) -> Json:
    comment = catalog.entries[key].comment.partition("\n")[0]
    return {"label": key, "kind": kind, **({"detail": comment} if comment else {})}


def _attributes(catalog: Catalog, key: str) -> list[Json]:
    return [{"label": f"{key}.{name}", "kind": _PROPERTY} for name in _parts(catalog, key) if name]


def _builtin(place: Inside) -> Builtin | None:
    """What is known of the function that is called, if it comes with the library."""
    if place.kind != "call" or not place.callee or place.callee.kind != "function":
        return None
    return BUILTINS.get(place.callee.name)


def _options(builtin: Builtin) -> list[Json]:
    return [{"label": name, "kind": _PROPERTY, "text": f"{name}: "} for name in builtin.options]


def _arguments(catalog: Catalog, place: Inside) -> list[Json]:
    """The variables of a term that is called, which are named arguments of the call."""
    if not place.callee or place.callee.kind != "term":
        return []
    names = [
        each.name for part in _parts(catalog, str(place.callee)) for each in catalog.variables(str(place.callee), part)
    ]
    return [{"label": name, "kind": _PROPERTY, "text": f"{name}: "} for name in dict.fromkeys(names)]
