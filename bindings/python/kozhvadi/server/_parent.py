"""The process of the editor, whose end ends the server."""

from __future__ import annotations

import os
import select
import threading
import time
from collections.abc import Callable

# How often it is looked whether a process is there, in seconds, if the system can't report its end.
_OFTEN = 2.0


def watch(process: object, ended: Callable[[], None]) -> None:
    """Calls a function when a process ends. A process that isn't there isn't watched: it may be one of another system,
    as of a container."""
    if not isinstance(process, int) or isinstance(process, bool) or not 1 < process < 2**31 or not _is_there(process):
        return
    try:
        handle = os.pidfd_open(process)
    except (AttributeError, OSError):
        handle = -1
    threading.Thread(target=_watched, args=(process, handle, ended), name="parent", daemon=True).start()


def _watched(process: int, handle: int, ended: Callable[[], None]) -> None:
    if handle >= 0:
        _wait(handle)
    else:
        _look(process)
    ended()


def _wait(handle: int) -> None:
    poll = select.poll()
    poll.register(handle, select.POLLIN)
    poll.poll()
    os.close(handle)


def _look(process: int) -> None:
    while _is_there(process):
        time.sleep(_OFTEN)


def _is_there(process: int) -> bool:
    try:
        os.kill(process, 0)
    except PermissionError:
        return True
    except OSError:
        return False
    return True
