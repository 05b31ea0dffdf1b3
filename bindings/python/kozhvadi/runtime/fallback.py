"""Texts in the first of several locales that has them, under the names of `fluent.runtime.fallback`."""

from __future__ import annotations

import os
from collections.abc import Callable, Generator, Iterable, Iterator, Mapping
from itertools import count, islice
from typing import Any

from .._locks import new_lock
from .bundle import FluentBundle
from .resource import FluentResource

__all__ = ["AbstractResourceLoader", "FluentLocalization", "FluentResourceLoader"]


class AbstractResourceLoader:
    """What finds the resources of a locale."""

    def resources(self, locale: str, resource_ids: list[str]) -> Generator[list[FluentResource], None, None]:
        """Lists of resources, each for a bundle of its own."""
        raise NotImplementedError


class FluentResourceLoader(AbstractResourceLoader):
    """Resources in files. Each root is a folder, in whose path `{locale}` stands for the locale."""

    def __init__(self, roots: str | Iterable[str]) -> None:
        self.roots = [roots] if isinstance(roots, str) else list(roots)

    def resources(self, locale: str, resource_ids: list[str]) -> Generator[list[FluentResource], None, None]:
        for root in self.roots:
            paths = [self.localize_path(os.path.join(root, id), locale) for id in resource_ids]
            found = [FluentResource(_read_text(path)) for path in paths if os.path.isfile(path)]
            if found:
                yield found

    def localize_path(self, path: str, locale: str) -> str:
        return path.replace("{locale}", locale)


def _read_text(path: str) -> str:
    with open(path, encoding="utf-8") as file:
        return file.read()


class FluentLocalization:
    """Texts in the first of the locales that has them. A bundle is made when it is first asked, by one thread at a time."""

    def __init__(
        self,
        locales: list[str],
        resource_ids: list[str],
        resource_loader: AbstractResourceLoader,
        use_isolating: bool = False,
        bundle_class: type[FluentBundle] = FluentBundle,
        functions: Mapping[str, Callable[..., Any]] | None = None,
    ) -> None:
        self.locales, self.resource_ids, self.resource_loader = locales, resource_ids, resource_loader
        self.use_isolating, self.bundle_class, self.functions = use_isolating, bundle_class, functions
        self._lock = new_lock()
        self._bundle_cache: list[FluentBundle] = []
        self._bundle_it: Iterator[FluentBundle] = self._iterate_bundles()

    def format_value(self, msg_id: str, args: Mapping[str, Any] | None = None) -> str:
        """The text of a message's value in the first locale that has it, or the id if none has."""
        for bundle in self._bundles():
            if bundle.has_message(msg_id):
                value = bundle.get_message(msg_id).value
                if value is not None:
                    return bundle.format_pattern(value, args)[0]
        return msg_id

    def _create_bundle(self, locales: list[str]) -> FluentBundle:
        return self.bundle_class(locales, functions=self.functions, use_isolating=self.use_isolating)

    def _bundles(self) -> Generator[FluentBundle, None, None]:
        for number in count():
            bundle = self._nth_bundle(number)
            if bundle is None:
                return
            yield bundle

    def _nth_bundle(self, number: int) -> FluentBundle | None:
        """The bundle of a number, which is made if it is the next one, or `None` if there are no more."""
        with self._lock:
            if number < len(self._bundle_cache):
                return self._bundle_cache[number]
            try:
                bundle = next(self._bundle_it, None)
            except BaseException:
                # A generator that raised is at its end, and the bundles after the failure are still to come.
                self._bundle_it = islice(self._iterate_bundles(), number, None)
                raise
            if bundle is not None:
                self._bundle_cache.append(bundle)
            return bundle

    def _iterate_bundles(self) -> Generator[FluentBundle, None, None]:
        for first, locale in enumerate(self.locales):
            for resources in self.resource_loader.resources(locale, self.resource_ids):
                bundle = self._create_bundle(self.locales[first:])
                for resource in resources:
                    bundle.add_resource(resource)
                yield bundle
