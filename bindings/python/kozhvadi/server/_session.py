"""The life of a connection: what is answered when, and with which error."""

from __future__ import annotations

import sys
import traceback
from collections.abc import Callable, Mapping
from typing import Any

from .._stopping import Stopped

PARSE_ERROR = -32700
INVALID_REQUEST = -32600
METHOD_NOT_FOUND = -32601
INVALID_PARAMS = -32602
INTERNAL_ERROR = -32603
NOT_INITIALIZED = -32002
REQUEST_FAILED = -32803
CANCELLED = -32800

Handler = Callable[[Any], object]


class Refused(Exception):
    """A request that gets an error."""

    def __init__(self, code: int, words: str) -> None:
        super().__init__(words)
        self.code = code


class Session:
    """Answers messages by handlers. Nothing but the notification `exit` ends it.

    `requests` and `notifications` are handlers by their methods; `initialize` and `shutdown` are among the requests.
    """

    def __init__(
        self,
        send: Callable[[object], None],
        requests: Mapping[str, Handler],
        notifications: Mapping[str, Handler],
    ) -> None:
        self._send, self._requests, self._notifications = send, requests, notifications
        self.is_initialized = self.is_shut_down = self.is_over = False

    def receive(self, message: object, is_cancelled: bool = False) -> None:
        """Answers a message, of whatever shape it is."""
        if not isinstance(message, dict):
            self.refuse(None, INVALID_REQUEST, "a message is an object")
            return
        id, method = message.get("id"), message.get("method")
        is_id = isinstance(id, (str, int)) and not isinstance(id, bool)
        if not isinstance(method, str):
            # A reply to a request of the server has an id, and a result or an error.
            if not is_id or not ("result" in message or "error" in message):
                self.refuse(id if is_id else None, INVALID_REQUEST, "the method of a message is a text")
        elif "id" not in message:
            self._notify(method, message.get("params"))
        elif not is_id:
            self.refuse(None, INVALID_REQUEST, "an id is a number or a text")
        elif is_cancelled:
            self.refuse(id, CANCELLED, "the request was cancelled")
        else:
            self._answer(id, method, message.get("params"))

    def refuse(self, id: object, code: int, words: str) -> None:
        """Sends an error."""
        self._send({"jsonrpc": "2.0", "id": id, "error": {"code": code, "message": words}})

    def _answer(self, id: object, method: str, params: object) -> None:
        try:
            result = self._result(method, params)
        except Refused as refused:
            self.refuse(id, refused.code, str(refused))
        except Stopped:
            self.refuse(id, CANCELLED, "the request was cancelled")
        except MemoryError as error:
            self.refuse(id, REQUEST_FAILED, str(error) or "out of memory")
        except Exception as error:  # noqa: BLE001 whatever goes wrong, the next request is answered
            _log(method)
            self.refuse(id, INTERNAL_ERROR, f"{type(error).__name__}: {error}")
        else:
            self._send({"jsonrpc": "2.0", "id": id, "result": result})

    def _result(self, method: str, params: object) -> object:
        if method == "initialize" and self.is_initialized:
            raise Refused(INVALID_REQUEST, "the server was initialized before")
        if method != "initialize" and not self.is_initialized:
            raise Refused(NOT_INITIALIZED, "the first request is initialize")
        if self.is_shut_down:
            raise Refused(INVALID_REQUEST, "the server was shut down")
        handler = self._requests.get(method)
        if handler is None:
            raise Refused(METHOD_NOT_FOUND, f"there is no method {method!r}")
        result = handler(params)
        self.is_initialized = True
        self.is_shut_down = method == "shutdown"
        return result

    def _notify(self, method: str, params: object) -> None:
        if method == "exit":
            self.is_over = True
        elif self.is_initialized and not self.is_shut_down and method in self._notifications:
            try:
                self._notifications[method](params)
            except Refused as refused:
                print(f"kozhvadi.server: {method}: {refused}", file=sys.stderr)
            except Exception:  # noqa: BLE001 a notification has no answer
                _log(method)


def _log(method: str) -> None:
    print(f"kozhvadi.server: {method} failed", file=sys.stderr)
    traceback.print_exc(limit=-4)


class Params:
    """A value of JSON that a client sent. Each question raises `Refused` if the value has another shape."""

    def __init__(self, value: object, name: str = "the parameters") -> None:
        self.value, self._name = value, name

    def __getitem__(self, name: str) -> Params:
        if not isinstance(self.value, dict) or name not in self.value:
            raise Refused(INVALID_PARAMS, f"there is no {name!r} in {self._name}")
        return Params(self.value[name], repr(name))

    def get(self, name: str) -> Params:
        """A member, which is null if it is missing."""
        value = self.value.get(name) if isinstance(self.value, dict) else None
        return Params(value, repr(name))

    def at(self, *names: str) -> object:
        """A member of a member, and so on; `None` if one of them is missing."""
        found = self
        for name in names:
            found = found.get(name)
        return found.value

    @property
    def text(self) -> str:
        """A text. Halves of surrogate pairs are U+FFFD: they can't be written in UTF-8."""
        if not isinstance(self.value, str):
            raise Refused(INVALID_PARAMS, f"{self._name} isn't a text")
        return self.value.encode("utf-16-le", "surrogatepass").decode("utf-16-le", "replace")

    @property
    def count(self) -> int:
        if not isinstance(self.value, int) or isinstance(self.value, bool) or self.value < 0:
            raise Refused(INVALID_PARAMS, f"{self._name} isn't a whole number from 0 on")
        return self.value

    @property
    def items(self) -> list[Params]:
        if not isinstance(self.value, list):
            raise Refused(INVALID_PARAMS, f"{self._name} isn't a list")
        return [Params(item, f"an item of {self._name}") for item in self.value]
