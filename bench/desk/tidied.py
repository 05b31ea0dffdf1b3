#!/usr/bin/env python3
"""Tidies a copy of a folder in place by `ftl tidy`, and compares what `ftl run` answers from each file, before and after.

    bench/desk/tidied.py [--line-ends crlf|mixed|spaced] FOLDER [PROGRAM]

Each message and attribute of a file is asked for, without arguments and with its variables set to a few values. Prints how many
files were changed and how many weren't touched, what differs, and the seconds of a processor that both calls of `tidy` took. Ends
with 1 if an answer differs, if a second call changes anything, or if a file that isn't tidy afterwards wasn't reported.

`--line-ends` gives the copies other line ends before anything is asked: CR LF, or CR LF on every other line, or CR LF with spaces
on each blank line.
"""

import argparse
import os
import re
import shutil
import subprocess
import sys
import tempfile
from pathlib import Path

PROGRAM = Path(__file__).resolve().parents[2] / "crates/ftl/out/ftl"
VALUES = (None, "1", "2.50", "Jane")
LINE_ENDS = {
    "crlf": lambda line, number: line + b"\r\n",
    "mixed": lambda line, number: line + (b"\r\n" if number % 2 else b"\n"),
    "spaced": lambda line, number: (line if line.strip(b" ") else b" " * (number % 7)) + b"\r\n",
}
ID = rb"[a-zA-Z][a-zA-Z0-9_-]*"
NAMED = re.compile(rb"^(" + ID + rb") *=|^ +\.(" + ID + rb") *=", re.M)


def requests_of(source: bytes) -> bytes:
    """Request lines for all that looks like a message or an attribute."""
    variables = sorted(set(re.findall(rb"\$(" + ID + rb")", source)))
    lines, message = [], b""
    for name, attribute in NAMED.findall(source.removeprefix(b"\xef\xbb\xbf")):
        message = name or message
        for value in VALUES if variables else VALUES[:1]:
            given = b"" if value is None else b"".join(b"\t%s=%s" % (each, value.encode()) for each in variables)
            lines.append(message + (b"." + attribute if attribute else b"") + given + b"\n")
    return b"".join(lines)


def answers(program: Path, file: Path, requests: bytes) -> tuple[int, bytes, bytes]:
    """The status of a run on a file, its answers, and what it says on standard error."""
    ran = subprocess.run([program, "run", file], input=requests, capture_output=True)
    return ran.returncode, ran.stdout, ran.stderr


def tidied(program: Path, folder: Path) -> tuple[list[bytes], bytes, float]:
    """The files that `tidy` changed in a folder, what it reported, and the seconds of a processor that it took."""
    before = os.times()
    ran = subprocess.run([program, "tidy", "."], cwd=folder, capture_output=True)
    after = os.times()
    seconds = after.children_user + after.children_system - before.children_user - before.children_system
    return ran.stdout.splitlines(), ran.stderr, seconds


def with_line_ends(source: bytes, line_ends: str) -> bytes:
    """A source whose lines end otherwise. What comes after the last line end stays."""
    *lines, rest = source.split(b"\n")
    return b"".join(map(LINE_ENDS[line_ends], lines, range(len(lines)))) + rest


def copied(folder: Path, scratch: Path, line_ends: str | None) -> list[Path]:
    """The paths of the copies of all files below a folder, with other line ends if these are named."""
    files = []
    for file in sorted(folder.rglob("*.ftl")):
        copy = scratch / file.relative_to(folder)
        copy.parent.mkdir(parents=True, exist_ok=True)
        files.append(Path(shutil.copyfile(file, copy)))
        if line_ends:
            copy.write_bytes(with_line_ends(file.read_bytes(), line_ends))
    return files


def main() -> int:
    words = argparse.ArgumentParser()
    words.add_argument("--line-ends", choices=LINE_ENDS)
    words.add_argument("folder", type=Path)
    words.add_argument("program", type=Path, nargs="?", default=PROGRAM)
    given = words.parse_args()
    command = given.program.resolve()
    with tempfile.TemporaryDirectory() as scratch:
        files = copied(given.folder, Path(scratch), given.line_ends)
        sources = [file.read_bytes() for file in files]
        asked = [requests_of(source) for source in sources]
        before = [answers(command, *each) for each in zip(files, asked)]
        changed, reports, first = tidied(command, Path(scratch))
        texts = [file.read_bytes() for file in files]
        again, _, second = tidied(command, Path(scratch))
        after = [answers(command, *each) for each in zip(files, asked)]
        wrong = [f"{file}: other answers" for file, old, new in zip(files, before, after) if old != new]
        wrong += [f"{name.decode()}: changed again" for name in again]
        wrong += [f"{file}: other bytes" for file, text in zip(files, texts) if file.read_bytes() != text]
    count = sum(source != text for source, text in zip(sources, texts))
    wrong += [f"{len(changed)} names for {count} files that were changed"] if count != len(changed) else []
    answered = sum(requests.count(b"\n") for requests in asked)
    print(f"{len(files)} files, {sum(map(len, sources))} bytes, {answered} requests, {sum(old[0] == 0 for old in before)} files read")
    print(f"{count} were changed, {first:.1f} s; the second call took {second:.1f} s")
    print(reports.decode(errors="replace"), end="")
    print(*wrong or ["nothing was wrong"], sep="\n")
    return bool(wrong) or not files


if __name__ == "__main__":
    sys.exit(main())
