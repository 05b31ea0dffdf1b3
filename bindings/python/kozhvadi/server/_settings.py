"""What the editor sets."""

from __future__ import annotations

from collections.abc import Mapping
from dataclasses import dataclass, field
from difflib import get_close_matches
from reprlib import repr as shortened
from typing import Any

from .._samples import has_rules

_KEY = "kozhvadi"


@dataclass(frozen=True)
class Settings:
    """What the editor sets, or what holds without it."""

    reference: str | None = None
    locale: str | None = None
    functions: list[str] = field(default_factory=list)
    notes: bool = False
    catalog: str | None = None


_NAMES = list(Settings.__dataclass_fields__)


def settings_in(given: object) -> tuple[dict[str, Any], list[str]]:
    """The settings among the members of a JSON value, and what is wrong with the others. Null sets nothing."""
    if given is None:
        return {}, []
    if not isinstance(given, dict):
        return {}, ["the settings aren't an object"]
    fit, wrong = {}, []
    for name, value in given.items():
        if name not in _NAMES:
            wrong.append(_unknown(name))
        elif value is not None and not _is_fit(name, value):
            wrong.append(f"the setting {name!r} has a value that it doesn't take: {shortened(value)}")
        elif value is not None:
            fit[name] = value
    return fit, wrong


def own(given: object) -> object:
    """What is below the key of this server, or else the value itself."""
    return given.get(_KEY, given) if isinstance(given, dict) else given


def own_among_others(given: object) -> object:
    """The same of the settings of all servers: without the key, objects of other names are those of other servers."""
    if not isinstance(given, Mapping):
        return None
    if _KEY in given:
        return given[_KEY]
    return {name: value for name, value in given.items() if name in _NAMES or not isinstance(value, dict)}


def _unknown(name: str) -> str:
    near = get_close_matches(name, _NAMES, 1)
    hint = f": did you mean {near[0]!r}?" if near else ""
    return f"there is no setting {shortened(name)}{hint}"


def _is_fit(name: str, value: object) -> bool:
    if name == "notes":
        return isinstance(value, bool)
    if name == "catalog":
        return value in ("language", "folder", "file")
    if name == "functions":
        return isinstance(value, list) and all(isinstance(each, str) for each in value)
    if name == "locale":
        return isinstance(value, str) and has_rules(value)
    return isinstance(value, str) and "\0" not in value
