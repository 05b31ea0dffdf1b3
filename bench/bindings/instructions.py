#!/usr/bin/env python3
"""Counts the instructions of one step of each work, by valgrind.

    instructions.py [--write] C RUST PYTHON [FOLDER]

It is the second half of `run.sh --instructions`, which builds the programs: C and RUST are those, PYTHON is the folder of the
module, and `-` in the place of one leaves it out. A count is the difference of two runs by their steps, so that what a
program does once isn't in it. FOLDER has the files of the work `files`. `--write` puts the counts into bench/results.json, from
which bench/plot.py makes a table.
"""
from __future__ import annotations

import compileall
import json
import os
import re
import subprocess
import sys
import tempfile
from pathlib import Path

HERE = Path(__file__).resolve().parent
RESULTS = HERE.parent / "results.json"
CALL = "bench/bindings/run.sh --instructions"

# Steps of the two runs, of a work and of one that adds resources.
STEPS = (1000, 3000)
ADDING = (1, 3)
ADDS = ("files", "short resources")

# Works of which instructions say nothing: what threads wait for takes time alone.
LEFT_OUT = ("threads",)

# In the same order in each run.
ENVIRONMENT = {**os.environ, "PYTHONHASHSEED": "0"}


def counted(command: list[str]) -> int:
    """The instructions of a command."""
    with tempfile.TemporaryDirectory() as folder:
        valgrind = ["valgrind", "--tool=callgrind", f"--callgrind-out-file={folder}/out"]
        run = subprocess.run([*valgrind, *command], capture_output=True, text=True, env=ENVIRONMENT)
    found = re.search(r"Collected : (\d+)", run.stderr)
    if run.returncode or not found:
        sys.exit(f"{' '.join(command)}: {run.stdout}{run.stderr}")
    return int(found[1])


def step(program: list[str], whose: str, work: str, folder: list[str]) -> int:
    """The instructions of one step of a work."""
    few, many = ADDING if work in ADDS else STEPS
    runs = [counted([*program, whose, work, str(steps), *folder]) for steps in (few, many)]
    return round((runs[1] - runs[0]) / (many - few))


def works(program: list[str]) -> list[str]:
    """The works of a program, as it lists them."""
    listed = subprocess.run([*program, "works"], capture_output=True, text=True, check=True, env=ENVIRONMENT).stdout
    return [work for work in listed.splitlines() if work not in LEFT_OUT]


def has_peer(language: str) -> bool:
    """Whether there is another package to compare with."""
    if language == "Python":
        return subprocess.run([sys.executable, "-c", "import fluent.runtime"], capture_output=True).returncode == 0
    return language == "Rust"


def programs(c: str, rust: str, python: str) -> dict[str, list[str]]:
    """How the program of each language is called."""
    if python != "-":
        ENVIRONMENT["PYTHONPATH"] = python
        # So that no run compiles the module.
        compileall.compile_dir(python, quiet=1)
    given = {"C": (c, [c]), "Rust": (rust, [rust]), "Python": (python, [sys.executable, str(HERE / "works.py")])}
    return {language: program for language, (path, program) in given.items() if path != "-"}


def rows(language: str, program: list[str], folder: list[str]) -> list[dict[str, object]]:
    """The results of a language's works, each of which is printed as it comes."""
    made: list[dict[str, object]] = []
    peer = has_peer(language)
    for work in works(program):
        if work == "files" and not folder:
            continue
        sides = ["ours", "theirs"] if peer else ["ours"]
        counts = [step(program, side, work, folder if work == "files" else []) for side in sides]
        shown = " ".join(f"{count:>12,}" for count in counts)
        ratio = f"  {counts[1] / counts[0]:.2f}" if peer else ""
        print(f"{language:7} {work:36} {shown}{ratio}", flush=True)
        made.append({"what": f"from {language}, {work}", "call": CALL, "instructions": counts})
    return made


def written(made: list[dict[str, object]]) -> None:
    """Puts counts in the place of those of the same works, or at the end. Each result has its line."""
    lines = [line.rstrip(",") for line in RESULTS.read_text().splitlines()[1:-1]]
    by_name = {result["what"]: f"    {json.dumps(result, ensure_ascii=False)}" for result in made}
    for place, line in enumerate(lines):
        result = json.loads(line)
        if result["call"] == CALL:
            lines[place] = by_name.pop(result["what"], line)
    RESULTS.write_text("[\n" + ",\n".join([*lines, *by_name.values()]) + "\n]\n")


def main(words: list[str]) -> None:
    writes = words[:1] == ["--write"]
    c, rust, python, *folder = words[1:] if writes else words
    made = [row for language, program in programs(c, rust, python).items() for row in rows(language, program, folder)]
    if writes:
        written(made)


if __name__ == "__main__":
    main(sys.argv[1:])
