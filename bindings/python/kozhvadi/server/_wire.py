"""Messages of the protocol in a stream of bytes, whose other end may send anything."""

from __future__ import annotations

import json
import re
from collections.abc import Callable
from typing import Any, NamedTuple, NoReturn, Protocol

# A message isn't longer. What says it is longer has a wrong length.
_LONGEST = 64 * 2**20

# The headers of a message aren't longer, and neither is what is kept of bytes that are no message.
_HEADERS = 4096

# Raw line ends are in no string of JSON, so a message never has this inside.
_LENGTH = re.compile(rb"Content-Length:[ \t]*([0-9]{1,12})[ \t]*\r?\n", re.IGNORECASE)
_BEGUN = re.compile(rb"content-length:[ \t]*[0-9]{0,12}[ \t]*\r?")
_LONGEST_HEADER = 60
_OTHERS = re.compile(rb"(?:[A-Za-z-]+:[^\r\n]*\r?\n)*")
_REST = re.compile(rb"(?:[A-Za-z-]+:[^\r\n]*\r?\n)*\r?\n")

PARSE_ERROR = -32700

# An object of JSON.
Json = dict[str, Any]


class Input(Protocol):
    def read1(self, size: int, /) -> bytes:
        ...


class Output(Protocol):
    def write(self, data: bytes, /) -> object:
        ...

    def flush(self) -> object:
        ...


class _Header(NamedTuple):
    """Where the header of a length begins and ends, and the length."""

    start: int
    end: int
    size: int


class Damaged(Exception):
    """Bytes that are no message. What follows them can still be read."""


class Reader:
    """Reads one message after the other.

    A message whose length is wrong, or that is cut, is damaged alone: the next header ends it.
    """

    def __init__(self, stream: Input) -> None:
        self._stream = stream
        self._held = bytearray()

    def read(self) -> object:
        """The next message. Raises `EOFError` at the end of the stream, and `Damaged` for bytes that are no message."""
        header = self._header(0)
        while header is None:
            if len(self._held) > _HEADERS:
                del self._held[: -_HEADERS // 2]
            self._fill()
            header = self._header(0)
        if not _OTHERS.fullmatch(self._held, 0, header.start):
            self._drop(header.start, "what is before a header isn't a message")
        start, end = self._body(header)
        body = bytes(self._held[start:end])
        try:
            message = json.loads(body)
        except (ValueError, RecursionError) as error:
            # If the length is too large, the next header may begin in this body.
            self._drop(end - _header_begun(body), f"a message isn't JSON: {error}")
        del self._held[:end]
        return message

    def _header(self, start: int, end: int | None = None) -> _Header | None:
        # A match would keep the bytes from being dropped.
        found = _LENGTH.search(self._held, start, len(self._held) if end is None else end)
        return _Header(found.start(), found.end(), int(found[1])) if found else None

    def _fill(self) -> None:
        data = self._stream.read1(65536)
        if not data:
            raise EOFError
        self._held += data

    def _after_headers(self, start: int) -> int:
        """Where the body of a message begins."""
        while True:
            rest = _REST.match(self._held, start)
            end = rest.end() if rest else 0
            del rest
            another = self._header(start, end)
            if another:
                self._drop(another.start, "the headers of a message don't end")
            if end:
                return end
            if len(self._held) - start > _HEADERS or self._header(start):
                self._drop(start, "the headers of a message don't end")
            self._fill()

    def _body(self, header: _Header) -> tuple[int, int]:
        """Where the body of a message begins and ends, once it is there."""
        start = self._after_headers(header.end)
        if header.size > _LONGEST:
            self._drop(start, f"a message of {header.size} bytes is too long")
        end, looked = start + header.size, start
        while True:
            another = self._header(looked, end)
            if another:
                self._drop(another.start, "a message is shorter than its header says")
            if len(self._held) >= end:
                break
            looked = max(start, len(self._held) - _HEADERS)
            self._fill()
        return start, end

    def _drop(self, count: int, why: str) -> NoReturn:
        del self._held[:count]
        raise Damaged(why)


def _header_begun(body: bytes) -> int:
    """How many bytes at the end of a body may begin the header of a length."""
    end = body[-_LONGEST_HEADER:].lower()
    name = b"content-length:"
    for start in range(len(end)):
        begun = end[start:]
        if name.startswith(begun) or _BEGUN.fullmatch(begun):
            return len(begun)
    return 0


def writer(stream: Output) -> Callable[[object], None]:
    """What writes a message to a stream."""

    def send(message: object) -> None:
        body = json.dumps(message, separators=(",", ":")).encode()
        stream.write(b"Content-Length: %d\r\n\r\n%s" % (len(body), body))
        stream.flush()

    return send
