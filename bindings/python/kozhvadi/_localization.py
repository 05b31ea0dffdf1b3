"""Texts in several languages: a message that the first language lacks comes from the next one that has it."""

from __future__ import annotations

import os
from collections.abc import Callable, Iterable, Iterator, Mapping
from pathlib import Path
from types import TracebackType
from typing import NamedTuple

from ._bundle import Bundle
from ._errors import FluentError, MissingMessageError, ResolverError, SourceError
from ._functions import Functions, functions_of
from ._languages import negotiate_languages, system_languages
from ._locks import new_lock
from ._values import Formatter


class LocalizedAnswer(NamedTuple):
    """The text of a message, its errors, and the locale that it is of."""

    text: str
    errors: list[ResolverError]
    locale: str

    def __str__(self) -> str:
        return self.text


class Localization:
    """Texts by sources in several languages, the one that a user prefers first.

    >>> texts = Localization({"de": "hello = Hallo\\n", "en": "hello = Hello\\nbye = Bye\\n"})
    >>> texts.format("hello").text, texts.format("bye").locale
    ('Hallo', 'en')

    A bundle is made when it is first asked. In place of sources there may be a `Bundle`, which other objects may hold, too:
    it is used as it is. `numbers`, `isolating`, `overriding`, `formatter` and `functions` are those of `Bundle`. Raises
    `UnknownLocaleError` for a locale that is no tag of a language.

    >>> english = Bundle("hello = Hello\\n", locale="en")
    >>> texts = Localization({"fr": "bye = Au revoir\\n", "en": english})
    >>> texts.format("hello").text
    'Hello'
    """

    def __init__(
        self,
        sources: Mapping[str, str | Iterable[str] | Bundle],
        *,
        numbers: bool = True,
        isolating: bool = True,
        overriding: bool = False,
        formatter: Formatter = str,
        functions: Functions | None = None,
    ) -> None:
        texts: dict[str, list[str] | Bundle] = {
            locale: [given] if isinstance(given, str) else given if isinstance(given, Bundle) else list(given)
            for locale, given in sources.items()
        }
        settings = {"numbers": numbers, "isolating": isolating, "overriding": overriding, "formatter": formatter}
        self._keep(texts, Bundle, functions=functions_of(functions), **settings)

    @classmethod
    def load(
        cls,
        folder: str | os.PathLike[str],
        files: str | Iterable[str],
        requested: Iterable[str] | None = None,
        *,
        default: str | None = None,
        numbers: bool = True,
        isolating: bool = True,
        overriding: bool = False,
        formatter: Formatter = str,
        functions: Functions | None = None,
    ) -> Localization:
        """The files `FOLDER/LOCALE/FILE` of the locales that suit those that are asked for: the system's if none are named.

        Each folder of `folder` whose name is a tag and that has one of the files is an available locale; other folders are
        passed over, and so is a file that a locale lacks, and a byte order mark. `default` comes last.

        Raises `FileNotFoundError` if there is no such folder, or no locale in it; `FluentError` if the default isn't one
        of its locales; and, when its language is first asked, `ValueError` with the name of a file that isn't UTF-8.
        """
        root, names = Path(folder), [files] if isinstance(files, str) else list(files)
        available = {path.name: _files(path, names) for path in sorted(root.iterdir()) if _is_tag(path.name)}
        available = {locale: paths for locale, paths in available.items() if paths}
        if not available:
            raise FileNotFoundError(f"no folder of a language in {root} has one of the files {', '.join(names)}")
        if default is not None and default not in available:
            raise FluentError(f"the default {default!r} isn't one of the locales in {root}: {', '.join(available)}")
        wanted = system_languages() if requested is None else requested
        used = negotiate_languages(wanted, available, default)
        texts = cls.__new__(cls)
        paths: dict[str, list[str] | Bundle] = {locale: available[locale] for locale in used}
        settings = {"numbers": numbers, "isolating": isolating, "overriding": overriding, "formatter": formatter}
        texts._keep(paths, Bundle.from_files, functions=functions_of(functions), **settings)
        return texts

    def _keep(
        self, sources: Mapping[str, list[str] | Bundle], make: Callable[..., Bundle], **settings: object
    ) -> None:
        for locale in sources:
            # It raises if the locale is no tag.
            Bundle((), locale=locale).close()
        self.locales = list(sources)
        self._sources, self._make, self._settings = dict(sources), make, settings
        self._bundles: dict[str, Bundle] = {}
        self._lock = new_lock()

    def _made(self, locale: str) -> Bundle:
        """The bundle of a locale, which is made if it isn't there."""
        with self._lock:
            sources = self._sources[locale]
            if isinstance(sources, Bundle):
                return sources
            if locale not in self._bundles:
                self._bundles[locale] = self._make(sources, locale=locale, **self._settings)
            return self._bundles[locale]

    def _asked(self) -> Iterator[tuple[str, Bundle]]:
        for locale in self.locales:
            yield locale, self._made(locale)

    def format(self, id: str, attribute: str | None = None, /, **arguments: object) -> LocalizedAnswer:
        """The text of a message's value, or of its first attribute of a name, in the first language that has it.

        Raises `MissingMessageError` if none has, and else what `Bundle.format` raises.
        """
        for locale, bundle in self._asked():
            try:
                text, errors = bundle.format(id, attribute, **arguments)
            except MissingMessageError:
                continue
            return LocalizedAnswer(text, errors, locale)
        what = f"the message {id!r}" if attribute is None else f"the attribute {attribute!r} of the message {id!r}"
        raise MissingMessageError(f"no language has {what}: {', '.join(self.locales)}")

    def __contains__(self, key: object) -> bool:
        """Whether any language has a message of this id with a value, or with an attribute: `("id", "attribute")`."""
        return any(key in bundle for _, bundle in self._asked())

    @property
    def errors(self) -> dict[str, list[SourceError]]:
        """What is wrong with the sources, by locale."""
        told = {locale: bundle.errors for locale, bundle in self._asked()}
        return {locale: errors for locale, errors in told.items() if errors}

    def close(self) -> None:
        """Frees the bundles that it made. They are made again if they are asked. One that a thread is asking is freed after
        its answer.
        """
        with self._lock:
            self._bundles.clear()

    def __enter__(self) -> Localization:
        return self

    def __exit__(
        self,
        kind: type[BaseException] | None,
        error: BaseException | None,
        trace: TracebackType | None,
    ) -> None:
        self.close()


def _files(folder: Path, names: list[str]) -> list[str]:
    """Those of these files that a folder has."""
    return [str(folder / name) for name in names if (folder / name).is_file()]


def _is_tag(locale: str) -> bool:
    """Whether a locale is a language tag: exactly then it suits itself."""
    return negotiate_languages([locale], [locale]) == [locale]
