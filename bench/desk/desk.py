"""Tidies files by the program `ftl`, and compares what it answers from each, before and after: see run.sh."""

import json
import os
import subprocess
import sys
import tempfile
from collections import Counter

from shapes import shapes

WHOLE = ("all-en.ftl", "all.ftl")
VALUES = (None, "1", "2.50", "Jane")

# How often a command is timed. The least time counts.
ROUNDS = 7


class Desk:
    """The program, and a folder for the texts that it is given."""

    def __init__(self, program, folder):
        self.program = program
        self.folder = folder

    def call(self, command, *files, requests=b""):
        """What a command writes, and the fault that it tells."""
        done = subprocess.run([self.program, command, *files], input=requests, capture_output=True)
        return done.stdout, done.stderr.decode().removeprefix("ftl: ").strip()

    def time(self, command, *files):
        """The least seconds of processor time that a command takes, start to end, without requests."""
        return min(self.time_once(command, *files) for _ in range(ROUNDS))

    def time_once(self, command, *files):
        """The seconds of processor time of one run. What it writes is let go."""
        streams = {"stdin": subprocess.DEVNULL, "stdout": subprocess.DEVNULL, "stderr": subprocess.DEVNULL}
        process = subprocess.Popen([self.program, command, *files], **streams)
        _, status, used = os.wait4(process.pid, 0)
        process.returncode = os.waitstatus_to_exitcode(status)
        return used.ru_utime + used.ru_stime

    def keep(self, name, text):
        """A file that holds a text."""
        path = os.path.join(self.folder, name)
        with open(path, "wb") as file:
            file.write(text)
        return path


def parts_of(part, kind):
    """All parts of a kind in a part of a tree."""
    found = []
    waiting = [part]
    while waiting:
        part = waiting.pop()
        if isinstance(part, dict):
            found += [part] if part.get("type") == kind else []
            waiting += reversed(part.values())
        elif isinstance(part, list):
            waiting += reversed(part)
    return found


def requests_of(tree, variables):
    """Request lines for each message and attribute: without arguments, and with the variables set to each value."""
    lines = []
    for message in parts_of(tree, "Message"):
        name = message["id"]["name"]
        names = [f"{name}.{attribute['id']['name']}" for attribute in message["attributes"]]
        for asked in [name, *names]:
            for value in VALUES if variables else VALUES[:1]:
                given = "" if value is None else "".join(f"\t{name}={value}" for name in variables)
                lines.append(f"{asked}{given}\n")
    return "".join(lines).encode()


class Tally:
    """What was found in all files."""

    def __init__(self):
        self.count = Counter()
        self.shapes_without = Counter()
        self.shapes_with = Counter()
        self.wrong = []

    def expect(self, holds, what, file):
        """Counts a law that holds for a file, and keeps the file where it doesn't."""
        self.count[what] += bool(holds)
        if not holds:
            self.wrong.append(f"{file}: not so: {what}")


def try_file(desk, file, tally):
    """Tidies a file, and compares the answers."""
    tally.count["files"] += 1
    cut, fault = desk.call("clean", file)
    if fault:
        tally.count[fault] += 1
        return
    with open(file, "rb") as source:
        tally.count["cut as they are"] += source.read() == cut
    exported = desk.call("export", file)[0]
    normal, fault = desk.call("normalize", file)
    imported = desk.call("import", desk.keep("tree.json", exported))
    tally.expect(imported == (normal, fault), "imported as their normal text", file)
    tree = json.loads(exported)
    held = shapes(cut.decode(), tree)
    (tally.shapes_without if fault else tally.shapes_with).update(held)
    tally.count["normal"] += not fault
    tally.expect(not fault or fault == "not normal" and held, "normal, or with a shape", file)
    texts = [desk.keep("cut.ftl", cut)] + ([] if fault else [desk.keep("normal.ftl", normal)])
    variables = sorted({part["id"]["name"] for part in parts_of(tree, "VariableReference")})
    compare(desk, file, texts, requests_of(tree, variables), tally)


def compare(desk, file, texts, requests, tally):
    """Asks a file and the texts that it was tidied into for the same."""
    asked = requests.count(b"\n")
    answers = desk.call("run", file, requests=requests)
    tally.count["requests"] += asked
    tally.expect(not answers[1] and frames(answers[0]) == asked, "all answered", file)
    for text in texts:
        same = desk.call("run", text, requests=requests) == answers
        tally.expect(same, f"same answers from {os.path.basename(text)}", file)


def frames(answers):
    """How many answers there are."""
    count = at = 0
    while at < len(answers):
        end = answers.index(b"\n", at)
        head = answers[at:end].split()
        at = end + 1
        if head[0] == b"ok":
            at += int(head[1]) + 1
            for _ in range(int(head[2])):
                at = answers.index(b"\n", at) + 1
        count += 1
    return count


def try_join(desk, files, tally):
    """Joins files, and compares the answers."""
    joined, fault = desk.call("join", *files)
    if fault:
        tally.wrong.append(f"join: {fault}")
        return
    text = desk.keep("joined.ftl", joined)
    tree = json.loads(desk.call("export", text)[0])
    requests = requests_of(tree, [])
    same = desk.call("run", text, requests=requests) == desk.call("run", *files, requests=requests)
    tally.expect(same, "same answers from the joined files", "join")


def tell_times(desk, wholes, parts):
    """Prints the times of the commands as multiples of reading: of `run` without requests. The program's start is taken off."""
    start = desk.time("run", desk.keep("empty.ftl", b""))
    for file in wholes:
        tree = desk.keep("tree.json", desk.call("export", file)[0])
        read = desk.time("run", file) - start
        given = {"clean": file, "normalize": file, "export": file, "import": tree}
        times = {command: desk.time(command, text) - start for command, text in given.items()}
        ratios = ", ".join(f"{command} {time / read:.2f}" for command, time in times.items())
        print(f"{os.path.basename(file)}: read by `run` in {read * 1e3:.1f} ms; as multiples of that {ratios}")
    ratio = (desk.time("join", *parts) - start) / (desk.time("run", *parts) - start)
    print(f"join of {len(parts)} files: as a multiple of reading them by `run` {ratio:.2f}")


def tell(tally):
    """Prints what was found."""
    for what, count in tally.count.items():
        print(f"{what}: {count}")
    for where, found in (("without", tally.shapes_without), ("with", tally.shapes_with)):
        for shape, count in found.most_common():
            print(f"files {where} a normal text that hold {shape}: {count}")
    print("\n".join(tally.wrong) or "nothing was wrong")


def main(program):
    files = sys.stdin.read().splitlines()
    wholes = [file for file in files if os.path.basename(file) in WHOLE]
    parts = [file for file in files if file not in wholes]
    tally = Tally()
    with tempfile.TemporaryDirectory() as folder:
        desk = Desk(program, folder)
        tell_times(desk, wholes, parts)
        for file in files:
            try_file(desk, file, tally)
        try_join(desk, parts, tally)
    tell(tally)
    return 1 if tally.wrong else 0


if __name__ == "__main__":
    sys.exit(main(*sys.argv[1:]))
