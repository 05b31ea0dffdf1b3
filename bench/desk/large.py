#!/usr/bin/env python3
"""What a file of a million lines takes the program `ftl`, and what a folder of 10,000 files.

    bench/desk/large.py [PROGRAM]

Prints for each command how it ended, the seconds of a processor that it took, and its peak memory, or that of this script if it is
more: some 20 MB.
"""

import multiprocessing
import os
import subprocess
import sys
import tempfile
from pathlib import Path

PROGRAM = Path(__file__).resolve().parents[2] / "crates/ftl/out/ftl"
LINES, FILES = 1_000_000, 10_000


def entries(number: int) -> list[str]:
    """Ten messages from this number on, in 44 lines: the last with a select, which isn't tidy."""
    lines = []
    for each in range(number, number + 10):
        lines += [f"# Shown in window {each}.", f"title-{each} = Welcome to {{ -brand }}, {{ $name }}!"]
        lines += ["    .tooltip = A text of middling length, as a button has it", ""]
    variants = ["    [one] One message.", f"   *[other] {{ $count }} messages in {{ title-{number} }}."]
    return [*lines, f"count-{number} = {{ $count ->", *variants, "}"]


def write(path: Path, first: int, lines: int) -> int:
    """A file of at least so many lines, whose messages are numbered from `first` on. Gives the next number."""
    texts: list[str] = ["-brand = Kozhvadi"] if first == 0 else []
    while len(texts) < lines:
        texts += entries(first)
        first += 10
    path.write_text("\n".join(texts) + "\n", encoding="utf-8")
    return first


def tell(what: str, program: str, words: list[str], folder: Path) -> None:
    """Runs a command, and prints what it took."""
    with open(os.devnull, "r+b") as nothing:
        run = subprocess.Popen([program, *words], cwd=folder, stdin=nothing, stdout=nothing)
        _, status, used = os.wait4(run.pid, 0)
    run.returncode = os.waitstatus_to_exitcode(status)
    seconds = used.ru_utime + used.ru_stime
    print(f"{what}: status {run.returncode}, {seconds:.1f} s, {used.ru_maxrss / 1000:.0f} MB", flush=True)


def write_all(folder: Path, files: list[str]) -> None:
    """Writes the large file and the small ones."""
    write(folder / "million.ftl", 0, LINES)
    first = 0
    for file in files:
        (folder / file).parent.mkdir(parents=True, exist_ok=True)
        first = write(folder / file, first, 44)
    sizes = [(folder / file).stat().st_size for file in ["million.ftl", *files]]
    print(f"{sizes[0]} bytes in one file, {sum(sizes[1:])} in all files", flush=True)


def main(program: str = str(PROGRAM)) -> None:
    path = str(Path(program).resolve())
    files = [f"many/{number // 100:02}/{number % 100:02}.ftl" for number in range(FILES)]
    with tempfile.TemporaryDirectory() as name:
        folder = Path(name)
        # By a process of its own: what this one takes counts for those that it starts.
        writer = multiprocessing.Process(target=write_all, args=(folder, files))
        writer.start()
        writer.join()
        for what, words, paths in [("a file", ["million.ftl"], ["million.ftl"]), ("10,000 files", files, ["many"])]:
            for command in ("run", "check", "lint"):
                tell(f"{command} of {what}", path, [command, *words], folder)
            for options in (["--check"], [], ["--check"]):
                tell(f"tidy {' '.join(options)} of {what}".replace("  ", " "), path, ["tidy", *options, *paths], folder)


if __name__ == "__main__":
    main(*sys.argv[1:])
