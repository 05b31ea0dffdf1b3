"""What the library keeps of sources. Bundles of a thread over the same sources that ask it in the same way share it.

Those of different threads don't: each thread would wait for the others.
"""

from __future__ import annotations

import ctypes
import threading
import weakref

from . import _library as c
from ._locks import new_lock
from ._rewriting import Rewriting


class Asking:
    """How a bundle asks the library: in which way it reads the sources, and what it writes."""

    def __init__(
        self,
        tag: bytes,
        isolating: bool,
        overriding: bool,
        numbers: bool,
        stack: int,
        functions: list[bytes],
        rewriting: Rewriting | None = None,
    ) -> None:
        """Sources are rewritten before the library reads them, if there is a `rewriting`."""
        self.tag, self.isolating, self.overriding, self.numbers = tag, isolating, overriding, numbers
        self.stack, self.functions, self.rewriting = stack, functions, rewriting

    def key(self, texts: list[bytes]) -> object:
        """What two bundles have in common that share what the library keeps."""
        options = (self.tag, self.isolating, self.overriding, self.numbers, self.stack, self.rewriting)
        return threading.get_ident(), options, tuple(self.functions), tuple(texts)

    def as_read(self, texts: list[bytes]) -> list[bytes]:
        """Sources as the library reads them."""
        return [self.rewriting.of(text) for text in texts] if self.rewriting else texts


class Kept:
    """A bundle of the library, which is freed when nothing refers to it any more, or none. It is asked under the lock.

    `texts` are the sources, before they are rewritten. `report` has the lines of what is wrong with them, once a bundle
    asked for it.
    """

    def __init__(self, texts: list[bytes]) -> None:
        self.texts = texts
        self.report: list[str] | None = None
        self.handle, self.lock = c.FluentBundle(), new_lock()
        weakref.finalize(self, c.library.fluent_bundle_free, self.handle)

    @property
    def address(self) -> int:
        """Where the bundle is, for the extension."""
        return ctypes.addressof(self.handle)


_kept: weakref.WeakValueDictionary[object, Kept] = weakref.WeakValueDictionary()


def kept_of(texts: list[bytes], asking: Asking) -> tuple[int, Kept]:
    """The status of the library, and what it keeps of these sources if it reads them."""
    key = asking.key(texts)
    found = _kept.get(key)
    if found is not None:
        return c.READ, found
    made = Kept(texts)
    status = read(texts, asking, made.handle)
    if status == c.READ:
        _kept[key] = made
    return status, made


def read(texts: list[bytes], asking: Asking, handle: c.FluentBundle) -> int:
    """Puts a bundle of sources into the handle, and gives the status of the library."""
    array, count = c.sources(asking.as_read(texts))
    tag, made = asking.tag, 0
    if asking.functions:
        options = c.FluentBundleOptions(
            ctypes.sizeof(c.FluentBundleOptions), tag, len(tag), asking.stack, asking.isolating, asking.overriding,
            not asking.numbers,
        )
        names, named = c.sources(asking.functions)
        made = c.library.fluent_bundle_new_calling(array, count, options, names, named, handle)
    else:
        new = c.library.fluent_bundle_new_within if asking.numbers else c.library.fluent_bundle_new_plain
        made = new(array, count, tag, len(tag), asking.isolating, asking.overriding, asking.stack, handle)
    return made
