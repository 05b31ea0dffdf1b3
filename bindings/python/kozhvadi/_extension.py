"""The extension, if there is one. There is none where there was no compiler, or where Python hasn't the stable ABI."""

from __future__ import annotations

import functools
import os
from collections.abc import Callable
from typing import TYPE_CHECKING, Any, TypeVar, cast

if TYPE_CHECKING:
    from ._fast import Calls, Lock, Quick

Method = TypeVar("Method", bound=Callable[..., Any])

# What a tool that looks at functions asks one for.
_ATTRIBUTES = (*functools.WRAPPER_ASSIGNMENTS, "__code__", "__defaults__", "__kwdefaults__")


def _found() -> tuple[type[Calls], type[Lock], type[Quick]] | tuple[None, None, None]:
    if os.environ.get("KOZHVADI_CTYPES"):
        return None, None, None
    try:
        from ._fast import Calls, Lock, Quick
    except ImportError:
        return None, None, None
    return Calls, Lock, Quick


# The calls of a bundle, in the place of ctypes, and a lock of which they know whether a thread has it. The environment variable
# KOZHVADI_CTYPES leaves them out.
calls_type, lock_type, _quick_type = _found()


def quick(method: Method) -> Method:
    """A method of bundles of which the extension, if there is one, answers what is usual by the bundle's `_quick`."""
    if _quick_type is None:
        return method
    return cast(Method, functools.update_wrapper(_quick_type(method), method, _ATTRIBUTES, ()))
