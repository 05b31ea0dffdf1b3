"""Locks that are all held while a process forks, so that the child finds none taken by a thread that it lacks."""

from __future__ import annotations

import os
import threading
import weakref
from itertools import chain
from typing import TYPE_CHECKING, Union

from ._extension import lock_type

if TYPE_CHECKING:
    from ._fast import Lock as _Lock

    Lock = Union[threading.RLock, _Lock]

# Under this one locks are made, and a thread forks.
_all: Lock = threading.RLock()
_locks: weakref.WeakSet[Lock] = weakref.WeakSet()
_taken: list[Lock] = []


def new_lock() -> Lock:
    """A lock that the thread which holds it may take again, as a signal handler does."""
    lock: Lock = lock_type(threading.RLock()) if lock_type else threading.RLock()
    with _all:
        _locks.add(lock)
    return lock


def _take_all() -> None:
    """Takes the locks. It waits for one while it holds none, since the thread that has it may wait for any other."""
    busy = _all
    while True:
        busy.acquire()
        taken = [busy]
        # The others are looked up once `_all` is taken.
        for lock in chain((_all,), _locks):
            if not lock.acquire(blocking=False):
                break
            taken.append(lock)
        else:
            _taken.extend(taken)
            return
        busy = lock
        _free(taken)


def _free(locks: list[Lock]) -> None:
    for lock in reversed(locks):
        lock.release()


def _free_all() -> None:
    taken = _taken.copy()
    _taken.clear()
    _free(taken)


os.register_at_fork(before=_take_all, after_in_parent=_free_all, after_in_child=_free_all)
