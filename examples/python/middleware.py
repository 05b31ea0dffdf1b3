#!/usr/bin/env python3
"""A site whose pages are in the languages of its visitors, as an application of WSGI with a middleware.

    middleware.py FOLDER [PORT]

FOLDER has a folder for each language, such as `de`, with a file main.ftl; English is en-US, and its texts stand in for those
that a language lacks. `/?name=Jane` greets Jane. The middleware knows nothing of the pages: it puts the texts for a visitor
into the request, so that it can go around an application of any framework that speaks WSGI.

It needs the module kozhvadi: in the repository, put bindings/python into PYTHONPATH.
"""
import logging
import sys
import threading
from collections.abc import Callable, Iterable
from html import escape
from pathlib import Path
from typing import Any
from urllib.parse import parse_qs
from wsgiref.simple_server import make_server

from kozhvadi import Bundle, Localization, accepted_languages, negotiate_languages

# The language that the texts are written in.
FIRST = "en-US"

# Where a request has its texts, and the key of a cookie with the language that a visitor chose.
TEXTS, COOKIE = "site.texts", "language"

Environ = dict[str, Any]
Application = Callable[[Environ, Callable[..., Any]], Iterable[bytes]]

log = logging.getLogger("site")


class Texts:
    """The texts for a visitor."""

    def __init__(self, localization: Localization) -> None:
        self._localization = localization
        self.language = localization.locales[0]

    def __call__(self, id: str, /, **arguments: object) -> str:
        """A text. What translators should mend goes into the log."""
        if id not in self._localization:
            log.error("no language has the message %s", id)
            return id
        text, errors, locale = self._localization.format(id, **arguments)
        for error in errors:
            log.warning("%s: %s: %s", locale, id, error)
        return text


class Languages:
    """A middleware that finds the texts for each visitor. A language is read once, and all visitors share its bundle."""

    def __init__(self, application: Application, folder: Path) -> None:
        self._application = application
        files = {path.parent.name: path for path in sorted(folder.glob("*/main.ftl"))}
        self._bundles = {locale: Bundle.from_files(path, locale=locale) for locale, path in files.items()}
        self._chains: dict[tuple[str, ...], Texts] = {}
        self._lock = threading.Lock()
        for locale, bundle in self._bundles.items():
            for error in bundle.errors:
                log.warning("%s: %s", locale, error)

    def __call__(self, environ: Environ, start_response: Callable[..., Any]) -> Iterable[bytes]:
        environ[TEXTS] = texts = self.texts_for(environ)

        def start(status: str, headers: list[tuple[str, str]], *others: Any) -> Any:
            found_by = [("Content-Language", texts.language), ("Vary", "Accept-Language, Cookie")]
            return start_response(status, headers + found_by, *others)

        return self._application(environ, start)

    def texts_for(self, environ: Environ) -> Texts:
        """The texts for a request: in the language that was chosen, or else in those that the browser asks for."""
        requested = accepted_languages(environ.get("HTTP_ACCEPT_LANGUAGE", ""))
        requested = chosen(environ.get("HTTP_COOKIE", "")) + requested
        locales = tuple(negotiate_languages(requested, self._bundles, FIRST))
        # There are as many chains as visitors can ask for, but each is small: it holds no texts of its own.
        with self._lock:
            if locales not in self._chains:
                if len(self._chains) > 1000:
                    self._chains.clear()
                self._chains[locales] = Texts(Localization({locale: self._bundles[locale] for locale in locales}))
            return self._chains[locales]


def chosen(cookies: str) -> list[str]:
    """The language that a cookie names, if there is one."""
    pairs = (pair.strip().split("=", 1) for pair in cookies.split(";"))
    return [pair[1] for pair in pairs if len(pair) == 2 and pair[0] == COOKIE]


def page(environ: Environ, start_response: Callable[..., Any]) -> Iterable[bytes]:
    """The site, which is one page."""
    texts: Texts = environ[TEXTS]
    (name,) = parse_qs(environ.get("QUERY_STRING", "")).get("name", ["you"])[:1]
    lines = [texts("welcome", name=name), texts("thanks"), texts("bye")]
    body = "".join(f"<p>{escape(line)}</p>\n" for line in lines)
    html = f'<!doctype html>\n<html lang="{texts.language}">\n<meta charset="utf-8">\n{body}</html>\n'
    start_response("200 OK", [("Content-Type", "text/html; charset=utf-8")])
    return [html.encode()]


def main() -> None:
    folder, port = Path(sys.argv[1]), int((sys.argv[2:] or ["0"])[0])
    with make_server("127.0.0.1", port, Languages(page, folder)) as server:
        print(f"http://127.0.0.1:{server.server_port}/", flush=True)
        server.serve_forever()


if __name__ == "__main__":
    main()
