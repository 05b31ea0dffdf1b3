#!/usr/bin/env python3
"""Runs the rows of tests/rows over a built program, and compares what comes of each with what the row says.

    tools/rows.py [PROGRAM [FILE..]]

PROGRAM is crates/ftl/out/ftl, and FILE is each .jsonl of tests/rows, unless they are given. A line of a file is a row: an
object that tests/rows/README.md describes. Each row runs in a new folder with its files, which must be left as they were, but
for those that it says hold something else afterwards. The last line is 'N passed, M failed', and the status is 1 if anything
failed.
"""
import json
import os
import pathlib
import pty
import re
import shutil
import subprocess
import sys
import tempfile
import tty

TOP = pathlib.Path(__file__).resolve().parent.parent
ROWS = TOP / "tests" / "rows"
SECONDS = 60
# Who runs the rows whose files have modes, if root does the others: for root no mode is in the way.
NOBODY = 65534


def is_name(text):
    """Whether a file of this name lies in the folder of its row."""
    return text != "" and not text.startswith("/") and ".." not in text.split("/")


WANTED = {
    "words": lambda it: type(it) is list and all(type(word) is str for word in it),
    "status": lambda it: type(it) is int,
    "stdout": lambda it: type(it) is str,
    "stderr": lambda it: type(it) is str,
}
FREE = {
    "what": lambda it: type(it) is str,
    "files": lambda it: type(it) is dict and all(is_name(key) and type(it[key]) in (str, type(None)) for key in it),
    "after": lambda it: type(it) is dict and all(is_name(key) and type(it[key]) in (str, type(None)) for key in it),
    "links": lambda it: type(it) is dict and all(is_name(key) and type(it[key]) is str for key in it),
    "modes": lambda it: type(it) is dict and all(is_name(key) and re.fullmatch("[0-7]{3}", it[key]) for key in it),
    "stdin": lambda it: type(it) in (str, type(None)),
    "from": lambda it: type(it) is str and is_name(it),
    "full": lambda it: type(it) is bool,
    "gone": lambda it: type(it) is bool,
    "terminal": lambda it: type(it) is bool,
    "screen": lambda it: type(it) is bool,
    "environment": lambda it: type(it) is dict and all(type(value) is str for value in it.values()),
}


def checked(line):
    """The row of a line. ValueError if it is none."""
    row = json.loads(line)
    if type(row) is not dict:
        raise ValueError("it is no object")
    if strange := sorted(row.keys() - WANTED.keys() - FREE.keys()):
        raise ValueError(f"nothing is known of {strange}")
    for key, is_right in {**WANTED, **FREE}.items():
        if key in row and not is_right(row[key]) or key in WANTED and key not in row:
            raise ValueError(f"`{key}` is missing, or of another kind")
    return row


def bytes_of(row):
    """The bytes of the row's files by their names."""
    shared = ROWS / "files"
    files = row.get("files", {}).items()
    return {name: (shared / name).read_bytes() if text is None else text.encode() for name, text in files}


def bytes_after(row, files):
    """The bytes that the files must have after the run, of those that must be there."""
    after = {**files, **row.get("after", {})}
    return {name: text.encode() if type(text) is str else text for name, text in after.items() if text is not None}


def bytes_in(folder):
    return {str(it.relative_to(folder)): it.read_bytes() for it in folder.rglob("*") if it.is_file() and not it.is_symlink()}


def unread():
    """The end for writing of a pipe that nobody reads."""
    reader, writer = os.pipe()
    os.close(reader)
    return writer


def terminal():
    """Both ends of a terminal that shows bytes as they come."""
    screen, device = pty.openpty()
    tty.setraw(device)
    return screen, device


def shown(screen):
    """What a terminal shows whose other end is closed."""
    shown = b""
    while True:
        try:
            block = os.read(screen, 65536)
        except OSError:
            block = b""
        if not block:
            os.close(screen)
            return shown
        shown += block


def set_modes(row, folder):
    """Gives the row's files and folders their modes, what is in a folder before the folder."""
    if "modes" in row and os.geteuid() == 0:
        for path in [folder, *folder.rglob("*")]:
            os.chown(path, NOBODY, NOBODY, follow_symlinks=False)
    for name in sorted(row.get("modes", {}), key=len, reverse=True):
        (folder / name).chmod(int(row["modes"][name], 8))


def have_modes(row, folder):
    """Whether the row's files and folders have their modes. They can all be read then."""
    right = True
    for name in sorted(row.get("modes", {}), key=len):
        right = right and (folder / name).stat().st_mode & 0o777 == int(row["modes"][name], 8)
        (folder / name).chmod(0o700)
    return right


def runner(program, row, tools):
    """The program that runs a row, and as whom: a copy of it in the folder `tools`, if root may not run it."""
    if "modes" not in row or os.geteuid() != 0:
        return program, {}
    tools.chmod(0o755)
    return shutil.copy(program, tools / "ftl"), {"user": NOBODY, "group": NOBODY, "extra_groups": []}


def input_of(row):
    """The bytes of the row's input, or None if it can't be read."""
    if "from" in row:
        return (ROWS / "files" / row["from"]).read_bytes()
    text = row.get("stdin", "")
    return None if text is None else text.encode()


def ended(program, row, folder, **user):
    """How the program ends that runs on the row in this folder: its status, its output and its errors."""
    given = input_of(row)
    # A folder can be opened, and not read.
    source = os.open(folder, os.O_RDONLY) if given is None else subprocess.PIPE
    target = os.open("/dev/full", os.O_WRONLY) if row.get("full") else unread() if row.get("gone") else subprocess.PIPE
    page, target = terminal() if row.get("screen") else (None, target)
    screen, faults = terminal() if row.get("terminal") else (None, subprocess.PIPE)
    devices = {"stdin": source, "stdout": target, "stderr": faults}
    with subprocess.Popen([program, *row["words"]], cwd=folder, env=row.get("environment", {}), **devices, **user) as run:
        try:
            output, errors = run.communicate(given, timeout=SECONDS)
        except subprocess.TimeoutExpired:
            run.kill()
            output, errors = run.communicate()
    for it in {source, target, faults} - {subprocess.PIPE}:
        os.close(it)
    output = output if page is None else shown(page)
    errors = errors if screen is None else shown(screen)
    return {"status": run.returncode, "stdout": output or b"", "stderr": errors}


def differences(program, line):
    """What came otherwise than the row of a line wants, a text each."""
    row = checked(line)
    wanted = {"status": row["status"], "stdout": row["stdout"].encode(), "stderr": row["stderr"].encode()}
    with tempfile.TemporaryDirectory() as name, tempfile.TemporaryDirectory() as tools:
        folder = pathlib.Path(name)
        files = bytes_of(row)
        for file, text in files.items():
            (folder / file).parent.mkdir(parents=True, exist_ok=True)
            (folder / file).write_bytes(text)
        for link, target in row.get("links", {}).items():
            (folder / link).symlink_to(target)
        set_modes(row, folder)
        program, user = runner(program, row, pathlib.Path(tools))
        came = ended(program, row, folder, **user)
        found = [f"{key}: wanted {wanted[key]!r}, came {came[key]!r}" for key in wanted if wanted[key] != came[key]]
        found += ["its modes are others"] * (not have_modes(row, folder))
        return found + ["its files are others"] * (bytes_in(folder) != bytes_after(row, files))


def main(program=TOP / "crates" / "ftl" / "out" / "ftl", *files):
    program, passed, failed = os.path.abspath(program), 0, 0
    if not os.access(program, os.X_OK):
        sys.exit(f"tools/rows.py: there is no program {program}")
    for file in map(pathlib.Path, files or sorted(ROWS.glob("*.jsonl"))):
        for number, line in enumerate(file.read_bytes().splitlines(), 1):
            try:
                found = differences(program, line)
            except (ValueError, OSError) as error:
                found = [f"it isn't run: {error}"]
            passed, failed = passed + (not found), failed + bool(found)
            for it in found:
                print(f"{os.path.relpath(file)}:{number}: {it}")
    if passed + failed == 0:
        print("there are no rows")
        failed = 1
    print(f"{passed} passed, {failed} failed")
    return failed > 0


if __name__ == "__main__":
    sys.exit(main(*sys.argv[1:]))
