"""Random messages to the language server, and many edits.

    python3 -m tests.fuzz_server [MESSAGES [EDITS [SEED]]]

Sends messages that are cut, have wrong lengths, unknown methods, parameters of any shape, or are no messages at all,
and asks after each 500 whether the server still answers. Then changes a document many times, and prints by how many KB
the memory of the server grew after the first tenth. Ends with 1 if it grew by more than 4 MB.
"""

import json
import random
import sys
import threading

from .language_client import CAPABILITIES, Client, framed

METHODS = [
    "initialize",
    "initialized",
    "textDocument/didOpen",
    "textDocument/didChange",
    "textDocument/didClose",
    "textDocument/didSave",
    "textDocument/definition",
    "textDocument/references",
    "textDocument/documentHighlight",
    "textDocument/documentSymbol",
    "workspace/symbol",
    "textDocument/prepareRename",
    "textDocument/rename",
    "textDocument/hover",
    "textDocument/completion",
    "textDocument/codeAction",
    "textDocument/formatting",
    "textDocument/rangeFormatting",
    "textDocument/signatureHelp",
    "textDocument/foldingRange",
    "textDocument/selectionRange",
    "textDocument/inlayHint",
    "textDocument/codeLens",
    "textDocument/semanticTokens/full",
    "textDocument/semanticTokens/range",
    "textDocument/diagnostic",
    "workspace/diagnostic",
    "workspace/executeCommand",
    "workspace/willRenameFiles",
    "workspace/didChangeConfiguration",
    "workspace/didChangeWatchedFiles",
    "workspace/didChangeWorkspaceFolders",
    "$/cancelRequest",
    "$/setTrace",
    "no/such",
    "",
    "exit ",
    "\ud800",
]
KEYS = [
    "textDocument",
    "uri",
    "text",
    "version",
    "position",
    "line",
    "character",
    "contentChanges",
    "range",
    "start",
    "end",
    "newName",
    "query",
    "context",
    "settings",
    "event",
    "positions",
    "files",
    "oldUri",
    "newUri",
    "command",
    "arguments",
    "previousResultIds",
    "processId",
    "added",
    "removed",
    "options",
    "id",
    "capabilities",
    "rootUri",
    "initializationOptions",
    "workspaceFolders",
]
TEXTS = [
    "file:///tmp/none/a.ftl",
    "file:///tmp/none/b.ftl",
    "untitled:1",
    "file://[",
    "file:///%00",
    "a = b\n",
    "a = { $x }\n-t = T\n",
    "a = { $n ->\n    [one] x\n   *[other] { -t }\n}\n",
    "\ud83d",
    "x",
    "",
    "\x00",
    "{" * 3000,
    "a = " + "{" * 2000,
    "\u202e",
    "\r",
]


def value(chance, depth):
    """A value of JSON."""
    kind = chance.randrange(10 if depth else 7)
    if kind < 3:
        return chance.choice(TEXTS)
    if kind < 7:
        return chance.choice([0, 1, 2, -1, 1.5, 2**40, 10**300, True, False, None])
    if kind == 7:
        return [value(chance, depth - 1) for _ in range(chance.randrange(3))]
    return {chance.choice(KEYS): value(chance, depth - 1) for _ in range(chance.randrange(5))}


def parameters(chance):
    """Parameters that are mostly of the right shape."""
    if chance.random() < 0.1:
        return value(chance, 4)
    uri, text = chance.choice(TEXTS[:4]), chance.choice(TEXTS[5:])
    place = {"line": chance.randrange(6), "character": chance.randrange(12)}
    given = {
        "textDocument": {"uri": uri, "text": text, "version": chance.randrange(9)},
        "position": place,
        "newName": text,
        "range": {"start": place, "end": place},
        "contentChanges": [changed(chance, text) for _ in range(chance.choice([1, 1, 2]))],
        "context": {"diagnostics": []},
        "query": text,
        "settings": value(chance, 2),
        "capabilities": {},
        "event": {"added": [], "removed": []},
        "positions": [place],
        "files": [{"oldUri": uri, "newUri": chance.choice(TEXTS[:4])}],
        "command": "kozhvadi.createMissingFiles",
        "arguments": [uri],
        "previousResultIds": [],
    }
    if chance.random() < 0.2:
        given[chance.choice(list(given))] = value(chance, 3)
    return given


def changed(chance, text):
    """A change of a document, or of what is in a range of it."""
    if chance.random() < 0.5:
        return {"text": text}
    start, end = ({"line": chance.randrange(6), "character": chance.randrange(12)} for _ in range(2))
    return {"range": {"start": start, "end": end}, "text": text}


def message(chance):
    """The bytes of a message, or of what is none."""
    methods = METHODS if chance.random() < 0.2 else METHODS[2:30]
    made = {"jsonrpc": "2.0", "method": chance.choice(methods), "params": parameters(chance)}
    if chance.random() < 0.7:
        made["id"] = chance.randrange(1000) if chance.random() < 0.9 else chance.choice(["x", None, 1.5, [], True])
    data = framed(made)
    kind = chance.random()
    if kind < 0.75:
        return data
    if kind < 0.8:
        return data[: chance.randrange(len(data))]
    if kind < 0.87:
        body = json.dumps(made).encode()
        return b"Content-Length: %d\r\n\r\n%s" % (max(0, len(body) + chance.randrange(-40, 40)), body)
    if kind < 0.92:
        return framed(json.dumps(value(chance, 3)).encode())
    noise = bytes(chance.randrange(256) for _ in range(chance.randrange(60)))
    return chance.choice(
        [noise, framed(noise), b"Content-Length: x\r\n\r\n", b"\r\n\r\n", b"Content-Length: -5\r\n\r\n", data * 2]
    )


def flooded(count, seed=0):
    """Sends this many random messages. Raises an exception if the server stops answering."""
    chance = random.Random(seed)
    with Client(patience=60 + count) as client:
        client.start()
        for number in range(0, count, 500):
            data = b"".join(message(chance) for _ in range(min(500, count - number)))
            sender = threading.Thread(target=client.send, args=(data + probe(number),))
            sender.start()
            told = replies(client, f"probe {number}")
            sender.join()
            broken = [each for each in told if each.get("error", {}).get("code") == -32603]
            if broken:
                raise AssertionError(broken[:3])
        reply = client.reply(client.request("workspace/symbol", {"query": ""}))
        if "result" not in reply:
            raise AssertionError(reply)


def replies(client, id):
    """What the server sends up to the reply to a request."""
    told = []
    while not told or told[-1].get("id") != id:
        told.append(client.read())
    return told


def probe(number):
    """A request whose reply shows that the server goes on."""
    return framed(
        {"jsonrpc": "2.0", "id": f"probe {number}", "method": "workspace/symbol", "params": {"query": "probe"}}
    )


def flat(count):
    """By how many KB the server's memory grows in this many edits, after the first tenth."""
    lines = "".join(f"message-{number} = Text {{ $x }} of {{ -term }}\n" for number in range(50))
    with Client(patience=60 + count) as client:
        client.ask("initialize", capabilities=CAPABILITIES)
        uri = client.open("file:///tmp/none/en.ftl", lines)
        before = 0
        for number in range(count):
            text = f"new-{number} = {{ message-{number % 60} }}\n"
            change(client, uri, number, {"text": lines + text} if number % 5 == 0 else {"range": LAST, "text": text})
            client.diagnostics(uri, number)
            if number % 10 == 0:
                place = {"line": 50, "character": number % 20}
                client.ask("textDocument/completion", textDocument={"uri": uri}, position=place)
                client.ask("textDocument/hover", textDocument={"uri": uri}, position=place)
                client.told.clear()
            if number == count // 10:
                before = memory(client.process.pid)
        return memory(client.process.pid) - before


# The line after the first 50.
LAST = {"start": {"line": 50, "character": 0}, "end": {"line": 51, "character": 0}}


def change(client, uri, version, change):
    document = {"uri": uri, "version": version}
    client.tell("textDocument/didChange", textDocument=document, contentChanges=[change])


def memory(process):
    """The memory of a process, in KB."""
    with open(f"/proc/{process}/status", encoding="utf-8") as file:
        return next(int(line.split()[1]) for line in file if line.startswith("VmRSS:"))


def main():
    messages, edits, seed = [*map(int, sys.argv[1:]), *[100_000, 10_000, 0][len(sys.argv) - 1 :]]
    flooded(messages, seed)
    print(f"{messages} messages: the server answers")
    grown = flat(edits)
    print(f"{edits} edits: {grown} KB more")
    return grown > 4_000


if __name__ == "__main__":
    sys.exit(main())
