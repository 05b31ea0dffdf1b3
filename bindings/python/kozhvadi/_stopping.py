"""Where long work asks whether it is still wanted."""

from __future__ import annotations

import threading
from collections.abc import Callable


class Stopped(Exception):
    """Work that is no longer wanted."""


_asked = threading.local()


def stop_if(is_stopped: Callable[[], bool] | None) -> None:
    """Sets what says that the work of this thread is no longer wanted."""
    _asked.is_stopped = is_stopped


def go_on() -> None:
    """Raises `Stopped` if the work of this thread is no longer wanted."""
    is_stopped = getattr(_asked, "is_stopped", None)
    if is_stopped and is_stopped():
        raise Stopped
