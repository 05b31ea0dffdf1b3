"""Which of a program's languages are used for a user's."""

from __future__ import annotations

import ctypes
import os
from collections.abc import Iterable, Mapping

from . import _library as c
from ._values import encoded

_STRATEGIES = {"filtering": c.FILTERING, "matching": c.MATCHING, "lookup": c.LOOKUP}

def has_plural_rules(locale: str) -> bool:
    """Whether the language of a locale has plural rules of its own.

    For a tag such as "oc", Occitan, it hasn't: every number is `other` then. It hasn't for a text that is no tag.

    >>> [has_plural_rules(locale) for locale in ("pt-AO", "oc", "no tag")]
    [True, False, False]
    """
    tag = _tag(locale)
    has_rules: bool = c.library.fluent_has_plural_rules(tag, len(tag))
    return has_rules


# The scripts that modifiers of POSIX names stand for.
_SCRIPTS = {"latin": "Latn", "cyrillic": "Cyrl", "devanagari": "Deva"}


def negotiate_languages(
    requested: Iterable[str],
    available: Iterable[str],
    default: str | None = None,
    strategy: str = "filtering",
) -> list[str]:
    """The languages of `available` that are used for those that a user asks for, the best first.

    >>> negotiate_languages(["de-AT", "fr"], ["en-US", "de", "fr-CA"], default="en-US")
    ['de', 'fr-CA', 'en-US']

    "filtering" finds all that suit any of the user's, to fall back along; "matching" the best one for each of the user's;
    "lookup" one. `default` comes last: for "lookup" if nothing else was found, and else unless it is there. What is no
    language tag is passed over. Raises `ValueError` for another strategy, and `TypeError` for a tag that is no text.
    """
    if strategy not in _STRATEGIES:
        raise ValueError(f"there is no strategy {strategy!r}: {', '.join(_STRATEGIES)}")
    wanted, offered = _texts(requested, "requested"), _texts(available, "available")
    positions, count = (ctypes.c_size_t * max(len(offered), 1))(), ctypes.c_size_t()
    answered = c.library.fluent_negotiate(
        *c.sources([_tag(tag) for tag in wanted]),
        *c.sources([_tag(tag) for tag in offered]),
        _STRATEGIES[strategy],
        positions,
        len(offered),
        count,
    )
    if answered != c.READ:
        raise MemoryError("memory ran out")
    found = [offered[position] for position in positions[: count.value]]
    if default is not None:
        is_there = bool(found) if strategy == "lookup" else _folded(default) in map(_folded, found)
        if not is_there:
            found.append(default)
    return found


def _texts(tags: Iterable[str], what: str) -> list[str]:
    if isinstance(tags, (str, bytes)):
        raise TypeError(f"{what} is a list of tags, and not one: {tags!r}")
    return list(tags)


def _tag(tag: str) -> bytes:
    """The bytes of a tag. What can't be written in UTF-8 is no tag."""
    try:
        return encoded(tag, "a tag")
    except ValueError:
        return b""


def _folded(tag: str) -> str:
    return tag.replace("_", "-").lower()


def tag_of_posix(name: str) -> str | None:
    """The tag that the name of a locale stands for, or `None` for `C`, `POSIX` and the empty name.

    >>> tag_of_posix("de_AT.UTF-8@euro"), tag_of_posix("sr_RS@latin"), tag_of_posix("C.UTF-8")
    ('de-AT', 'sr-Latn-RS', None)
    """
    base, _, modifier = name.partition("@")
    parts = base.partition(".")[0].replace("_", "-").split("-")
    if parts[0] in ("", "C", "POSIX"):
        return None
    if modifier in _SCRIPTS:
        parts.insert(1, _SCRIPTS[modifier])
    elif modifier == "valencia":
        parts.append(modifier)
    return "-".join(parts)


def system_languages(environment: Mapping[str, str] | None = None) -> list[str]:
    """The languages that the user of a POSIX system asks for, as gettext finds them.

    They are those of `LANGUAGE`, and else the one of `LC_ALL`, `LC_MESSAGES` or `LANG`. There are none in the locale `C`.

    >>> system_languages({"LANG": "de_AT.UTF-8", "LANGUAGE": "de_AT:fr"})
    ['de-AT', 'fr']
    """
    given = os.environ if environment is None else environment
    locale = given.get("LC_ALL") or given.get("LC_MESSAGES") or given.get("LANG") or "C"
    own = tag_of_posix(locale)
    if own is None:
        return []
    listed = [tag_of_posix(name) for name in given.get("LANGUAGE", "").split(":") if name]
    return [tag for tag in listed if tag] or [own]


def accepted_languages(header: str) -> list[str]:
    """The languages of an HTTP header `Accept-Language`, in the order of their weights.

    One without a weight, or whose weight is no number, has 1, and one of weight 0 is left out; so is `*`.

    >>> accepted_languages("fr;q=0.5, de-AT, *;q=0.1, en;q=0")
    ['de-AT', 'fr']
    """
    weighed = [_weighed(part) for part in header.split(",")]
    kept = [(tag, weight) for tag, weight in weighed if tag not in ("", "*") and weight > 0]
    return [tag for tag, _ in sorted(kept, key=lambda pair: -pair[1])]


def _weighed(part: str) -> tuple[str, float]:
    """A language and its weight."""
    tag, *settings = (word.strip() for word in part.split(";"))
    for setting in settings:
        name, _, value = setting.partition("=")
        if name.strip().lower() == "q":
            try:
                return tag, float(value)
            except ValueError:
                break
    return tag, 1.0
