"""Messages that are read ahead, so that a request can be cancelled while it waits or is answered."""

from __future__ import annotations

import threading
from queue import Queue

from ._wire import Damaged, Input, Reader

# This many messages are read ahead.
_AHEAD = 1000


class Inbox:
    """The messages of a stream, which another thread reads."""

    def __init__(self, stream: Input) -> None:
        self._reader = Reader(stream)
        # The end of the stream is `None`, since a message may be null.
        self._messages: Queue[tuple[object] | None] = Queue(_AHEAD)
        self._lock = threading.Lock()
        self._waiting: set[object] = set()
        self._cancelled: set[object] = set()
        self._answered: object = None
        self.is_stopped = self._is_over = False
        threading.Thread(target=self._read, name="reader", daemon=True).start()

    def _read(self) -> None:
        while True:
            message: object
            try:
                message = self._reader.read()
            except Damaged as damaged:
                message = damaged
            except (EOFError, OSError):
                self._messages.put(None)
                return
            except Exception as error:  # noqa: BLE001 such as want of memory for a long message
                message = Damaged(f"{type(error).__name__}: {error}")
            self._note(message)
            self._messages.put((message,))

    def _note(self, message: object) -> None:
        if not isinstance(message, dict):
            return
        with self._lock:
            if message.get("method") == "$/cancelRequest":
                id = _id(message.get("params"))
                if id in self._waiting:
                    self._cancelled.add(id)
                elif id is not None and id == self._answered:
                    self.is_stopped = True
            elif "method" in message and _id(message) is not None:
                self._waiting.add(_id(message))

    def next(self, timeout: float | None) -> tuple[object, bool] | None:
        """The next message, and whether it is cancelled; nothing at the end. Raises `Empty` after the timeout.

        From then on it counts as answered: if it is cancelled, `is_stopped` says so until the next one.
        """
        with self._lock:
            self._answered, self.is_stopped = None, self._is_over
        if self._is_over:
            return None
        got = self._messages.get_nowait() if timeout == 0 else self._messages.get(timeout=timeout)
        if got is None or self._is_over:
            return None
        id = _id(got[0])
        with self._lock:
            self._waiting.discard(id)
            is_cancelled = id is not None and id in self._cancelled
            self._cancelled.discard(id)
            self._answered = id
        return got[0], is_cancelled

    def end(self) -> None:
        """Ends the messages, as if the stream ended here."""
        with self._lock:
            self._is_over = self.is_stopped = True
        if not self._messages.full():
            self._messages.put(None)


def _id(message: object) -> str | int | None:
    """The id of a request."""
    id = message.get("id") if isinstance(message, dict) else None
    return id if isinstance(id, (str, int)) and not isinstance(id, bool) else None
