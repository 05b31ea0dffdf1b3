"""A client of the language server, for tests: it starts the server, and speaks the protocol with it."""

import json
import subprocess
import sys
import threading
from pathlib import Path

FOLDER = Path(__file__).resolve().parents[1]

CAPABILITIES = {
    "textDocument": {
        "documentSymbol": {"hierarchicalDocumentSymbolSupport": True},
        "completion": {"completionItem": {"snippetSupport": True}},
        "hover": {"contentFormat": ["markdown", "plaintext"]},
    }
}


def framed(message):
    """A message with its header. Bytes are framed as they are."""
    body = message if isinstance(message, bytes) else json.dumps(message).encode()
    return b"Content-Length: %d\r\n\r\n%s" % (len(body), body)


class Client:
    """A running server, which is killed if it takes longer than its patience, in seconds."""

    def __init__(self, *words, log=subprocess.DEVNULL, patience=900):
        self.process = subprocess.Popen(
            [sys.executable, "-m", "kozhvadi.server", *words],
            stdin=subprocess.PIPE,
            stdout=subprocess.PIPE,
            stderr=log,
            cwd=FOLDER,
        )
        self.told, self._number = [], 0
        # What the server showed to the user, as far as its messages were read.
        self.shown = []
        self._watch = threading.Timer(patience, self.process.kill)
        self._watch.daemon = True
        self._watch.start()

    def __enter__(self):
        return self

    def __exit__(self, *_):
        self._watch.cancel()
        self.process.stdin.close()
        self.process.stdout.close()
        self.process.wait(120)

    def send(self, data):
        self.process.stdin.write(data)
        self.process.stdin.flush()

    def read(self):
        """The next message of the server."""
        length = None
        for line in iter(self.process.stdout.readline, b"\r\n"):
            if not line:
                raise EOFError("the server has ended")
            name, _, value = line.partition(b":")
            if name.lower() == b"content-length":
                length = int(value)
        message = json.loads(self.process.stdout.read(length))
        if isinstance(message, dict) and message.get("method") == "window/showMessage":
            self.shown.append(message["params"]["message"])
        return message

    def request(self, method, params=None):
        """Sends a request, and returns its id."""
        self._number += 1
        self.send(framed({"jsonrpc": "2.0", "id": self._number, "method": method, "params": params or {}}))
        return self._number

    def reply(self, id):
        """The reply to a request. What comes before it is kept in `told`."""
        while True:
            message = self.read()
            if "method" not in message and message.get("id") == id:
                return message
            self.told.append(message)

    def ask(self, method, **params):
        """The result of a request, or its error."""
        reply = self.reply(self.request(method, params))
        return reply["result"] if "result" in reply else reply["error"]

    def tell(self, method, **params):
        self.send(framed({"jsonrpc": "2.0", "method": method, "params": params}))

    def start(self, root=None, **settings):
        capabilities = settings.pop("capabilities", CAPABILITIES)
        uri = Path(root).as_uri() if root else None
        result = self.ask(
            "initialize", processId=None, capabilities=capabilities, rootUri=uri, initializationOptions=settings
        )
        self.tell("initialized")
        return result

    def open(self, path, text=None):
        """Opens a file in the editor, and returns its URI."""
        uri = path if isinstance(path, str) else path.as_uri()
        text = path.read_bytes().decode() if text is None else text
        self.tell("textDocument/didOpen", textDocument={"uri": uri, "languageId": "fluent", "version": 1, "text": text})
        return uri

    def change(self, uri, text, version=2):
        self.tell(
            "textDocument/didChange", textDocument={"uri": uri, "version": version}, contentChanges=[{"text": text}]
        )

    def diagnostics(self, uri, version=None):
        """What is found in a document, once the server has sent it."""
        while True:
            message = self.told.pop(0) if self.told else self.read()
            params = message.get("params", {})
            if message.get("method") == "textDocument/publishDiagnostics" and params["uri"] == uri:
                if version is None or params.get("version") == version:
                    return params["diagnostics"]


def at(uri, source, words, inside=0):
    """The parameters that ask about the place where a source has these words."""
    before = source[: source.index(words) + inside]
    line = before.count("\n")
    character = len(before[before.rfind("\n") + 1 :].encode("utf-16-le")) // 2
    return {"textDocument": {"uri": uri}, "position": {"line": line, "character": character}}


def edited(source, edits):
    """A source after edits by the protocol."""
    lines = source.split("\n")

    def offset(position):
        line = lines[position["line"]].encode("utf-16-le")[: 2 * position["character"]].decode("utf-16-le")
        return sum(len(each) + 1 for each in lines[: position["line"]]) + len(line)

    # Of texts at one place the first one is before the others.
    for edit in reversed(sorted(edits, key=lambda edit: offset(edit["range"]["start"]))):
        start, end = offset(edit["range"]["start"]), offset(edit["range"]["end"])
        source = source[:start] + edit["newText"] + source[end:]
    return source
