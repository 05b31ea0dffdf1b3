"""The pages over HTTP, for a browser on this machine."""

from __future__ import annotations

import json
from collections.abc import Callable
from http import HTTPStatus
from http.server import BaseHTTPRequestHandler, ThreadingHTTPServer
from importlib.resources import files
from typing import Any
from urllib.parse import urlsplit

from ._completing import completed
from ._looking import Asked, languages, looked_at, tidied
from ._project import Project

HOST = "127.0.0.1"

# A request isn't longer, in bytes, and a browser that sends nothing is waited for as many seconds.
_LONGEST = 4 * 2**20
_PATIENCE = 30

_FILES = {
    "/": ("page.html", "text/html; charset=utf-8"),
    "/page.css": ("page.css", "text/css; charset=utf-8"),
    "/page.js": ("page.js", "text/javascript; charset=utf-8"),
    "/assist.js": ("assist.js", "text/javascript; charset=utf-8"),
}

_HEADERS = {
    "Content-Security-Policy": (
        "default-src 'none'; script-src 'self'; style-src 'self'; connect-src 'self'; img-src data:; "
        "base-uri 'none'; form-action 'none'; frame-ancestors 'none'"
    ),
    "X-Content-Type-Options": "nosniff",
    "Referrer-Policy": "no-referrer",
    "Cross-Origin-Opener-Policy": "same-origin",
    "Cross-Origin-Resource-Policy": "same-origin",
    "Cache-Control": "no-store",
}


class _Refused(Exception):
    """A request that gets a status other than 200."""

    def __init__(self, status: HTTPStatus, words: str) -> None:
        super().__init__(words)
        self.status = status


class Playground(ThreadingHTTPServer):
    """Serves the page on 127.0.0.1. `start` returns what it shows at first; port 0 is any that is free.

    Each request has a thread, and there is no lock: others run while the library reads and lints.
    """

    daemon_threads = True

    def __init__(self, port: int, start: Callable[[], dict[str, Any]]) -> None:
        super().__init__((HOST, port), _Handler)
        self._start = start
        self.project, self.writes = Project(), False

    def begin(self) -> dict[str, Any]:
        """What the page shows at first. The files are read anew."""
        started = self._start()
        project = started.pop("project", None)
        self.project = project if isinstance(project, Project) else Project()
        self.writes = started.get("writes") is True
        files = {"files": self.project.files, "references": self.project.references}
        return {"name": "", "writes": False, "examples": [], **started, **files, "languages": languages()}

    @property
    def address(self) -> str:
        """The address of the page."""
        return f"http://{HOST}:{self.server_port}/"

    def handle_error(self, request: object, client_address: object) -> None:
        """A browser that goes away is nothing to report."""


class _Handler(BaseHTTPRequestHandler):
    server: Playground
    timeout = _PATIENCE
    server_version = "kozhvadi"
    sys_version = ""

    def do_GET(self) -> None:  # noqa: N802
        self._answer(self._got)

    def do_HEAD(self) -> None:  # noqa: N802
        self._answer(self._got)

    def do_POST(self) -> None:  # noqa: N802
        self._answer(self._posted)

    def log_message(self, format: str, *args: object) -> None:
        """Requests aren't logged."""

    def _answer(self, answer: Callable[[str], tuple[str, bytes]]) -> None:
        try:
            self._refuse_strangers()
            kind, body = answer(urlsplit(self.path).path)
            status = HTTPStatus.OK
        except _Refused as refused:
            status, kind = refused.status, "text/plain; charset=utf-8"
            body = f"{refused}\n".encode()
        except Exception as error:  # noqa: BLE001 whatever goes wrong, the browser gets an answer
            status, kind = HTTPStatus.INTERNAL_SERVER_ERROR, "text/plain; charset=utf-8"
            body = f"{type(error).__name__}: {error}\n".encode(errors="replace")
        self.send_response(status)
        for name, value in {**_HEADERS, "Content-Type": kind, "Content-Length": str(len(body))}.items():
            self.send_header(name, value)
        self.end_headers()
        if self.command != "HEAD":
            self.wfile.write(body)

    def _refuse_strangers(self) -> None:
        """Only pages of this server may ask it: another site that names this machine has another host or origin."""
        port = self.server.server_port
        hosts = {f"{HOST}:{port}", f"localhost:{port}"}
        if self.headers.get_all("Host", []) not in [[host] for host in hosts]:
            raise _Refused(HTTPStatus.MISDIRECTED_REQUEST, f"this server is {self.server.address}")
        if not self.path.startswith("/"):
            raise _Refused(HTTPStatus.MISDIRECTED_REQUEST, f"this server is {self.server.address}")
        origin = self.headers.get("Origin")
        if origin is not None and origin not in {f"http://{host}" for host in hosts}:
            raise _Refused(HTTPStatus.FORBIDDEN, "another site may not ask this server")
        is_page = self.command != "POST" and self.path != "/start"
        if self.headers.get("Sec-Fetch-Site", "none") not in ("same-origin", "none") and not is_page:
            raise _Refused(HTTPStatus.FORBIDDEN, "another site may not ask this server")

    def _got(self, path: str) -> tuple[str, bytes]:
        if path == "/start":
            return _json(self.server.begin())
        if path not in _FILES:
            raise _Refused(HTTPStatus.NOT_FOUND, "there is no such page")
        name, kind = _FILES[path]
        return kind, files(__package__).joinpath(name).read_bytes()

    def _posted(self, path: str) -> tuple[str, bytes]:
        if self.headers.get_content_type() != "application/json":
            raise _Refused(HTTPStatus.UNSUPPORTED_MEDIA_TYPE, "a request is JSON")
        given = self._given()
        if path == "/look":
            found = looked_at(self._asked(given))
        elif path == "/complete":
            found = completed(self._asked(given))
        elif path == "/tidy":
            found = tidied(_text(given, "source"))
        elif path == "/save":
            found = self._saved(_text(given, "name"), _text(given, "source"))
        else:
            raise _Refused(HTTPStatus.NOT_FOUND, "there is no such request")
        return _json(found)

    def _asked(self, given: dict[str, Any]) -> Asked:
        """What a page asks about: its file among those of the project, with the texts that the page has of others."""
        name, place = _text(given, "name"), given.get("at", 0)
        project = self.server.project
        is_one = name in project.files
        return Asked(
            source=_text(given, "source"),
            reference=_text(given, "reference"),
            locale=_text(given, "locale"),
            arguments=_texts(given, "arguments"),
            name=name or "source.ftl",
            others={**project.files, **_texts(given, "others")} if is_one else {},
            references=project.references if is_one else {},
            at=place if isinstance(place, int) and not isinstance(place, bool) else 0,
        )

    def _saved(self, name: str, source: str) -> dict[str, Any]:
        if not self.server.writes:
            raise _Refused(HTTPStatus.FORBIDDEN, "this server writes no files: start it with --write")
        try:
            self.server.project.save(name, source)
        except KeyError:
            raise _Refused(HTTPStatus.NOT_FOUND, "there is no such file") from None
        except (OSError, ValueError) as error:
            return {"problem": f"{error}."}
        return {"saved": name}

    def send_error(self, code: int, message: str | None = None, explain: str | None = None) -> None:
        """Answers what the class refuses by itself, with the headers of all answers."""
        body = f"{message or code}\n".encode(errors="replace")
        self.send_response(code, message)
        for name, value in {**_HEADERS, "Content-Type": "text/plain; charset=utf-8"}.items():
            self.send_header(name, value)
        self.send_header("Content-Length", str(len(body)))
        self.send_header("Connection", "close")
        self.end_headers()
        self.wfile.write(body)

    def _given(self) -> dict[str, Any]:
        lengths = self.headers.get_all("Content-Length", [""])
        length = lengths[0] if len(lengths) == 1 else ""
        if not (length.isascii() and length.isdigit()):
            raise _Refused(HTTPStatus.LENGTH_REQUIRED, "the length of a request is a number")
        if len(length) > 9 or int(length) > _LONGEST:
            raise _Refused(HTTPStatus.REQUEST_ENTITY_TOO_LARGE, f"a request has at most {_LONGEST} bytes")
        try:
            given = json.loads(self.rfile.read(int(length)))
        except (ValueError, RecursionError) as error:
            raise _Refused(HTTPStatus.BAD_REQUEST, f"the request isn't JSON: {error}") from error
        if not isinstance(given, dict):
            raise _Refused(HTTPStatus.BAD_REQUEST, "a request is an object")
        return given


def _text(given: dict[str, Any], name: str) -> str:
    value = given.get(name, "")
    if not isinstance(value, str):
        raise _Refused(HTTPStatus.BAD_REQUEST, f"{name} is a text")
    return _clean(value)


def _texts(given: dict[str, Any], name: str) -> dict[str, str]:
    """The texts by their names in a member, if it is an object."""
    value = given.get(name)
    return {_clean(key): _clean(text) for key, text in value.items()} if isinstance(value, dict) else {}


def _clean(value: object) -> str:
    """A text that can be written in UTF-8: halves of surrogate pairs are U+FFFD."""
    return str(value).encode("utf-16-le", "surrogatepass").decode("utf-16-le", "replace")


def _json(value: object) -> tuple[str, bytes]:
    return "application/json", json.dumps(value, separators=(",", ":")).encode()
