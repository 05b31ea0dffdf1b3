#!/usr/bin/env python3
"""Runs the rows of tests/projects over a built program: what it finds and counts in small projects, or what is wrong.

    tools/projects.py [PROGRAM]

PROGRAM is crates/ftl/out/ftl, unless it is given. A line of tests/projects/rows.jsonl is a project: its `files` and
`links`, more words as `args`, and either the `error` of its l10n.toml, as FILE:LINE, or the `pairs` of files, the
`table` and the `findings` of each language, but for the notes on unused terms. Each row is asked by the name of its
l10n.toml, and once more in the folder of it, without the name. The last line is 'N passed, M failed', and the status is
1 if anything failed.
"""
import json
import os
import subprocess
import sys
import tempfile
from pathlib import Path

TOP = Path(__file__).resolve().parent.parent
ROWS = TOP / "tests/projects/rows.jsonl"
KEYS = ("locale", "file", "line", "severity", "code", "entry")


def make(row, folder):
    """Writes the files of a row, and the links."""
    for name, text in row["files"].items():
        path = folder / name
        path.parent.mkdir(parents=True, exist_ok=True)
        path.write_bytes(text.encode())
    for name, to in row.get("links", {}).items():
        (folder / name).symlink_to(to)


def ask(program, folder, *words):
    """The status, the lines and the faults of a run."""
    run = subprocess.run([program, *words], cwd=folder, capture_output=True, text=True, timeout=60)
    return run.returncode, run.stdout.splitlines(), run.stderr


def finding(line):
    """What a row says of a finding: an attribute is one of its entry. What can't be read has none."""
    found = {key: line[key] for key in KEYS}
    if found["code"] == "syntax":
        found["entry"] = None
    elif found["entry"]:
        found["entry"] = found["entry"].split(".")[0]
    return found


def told(program, folder, words, more):
    """The pairs, the table and the findings of a project."""
    _, lines, faults = ask(program, folder, "status", "--files", "--format", "json", *more["counted"], *words)
    rows = [json.loads(line) for line in lines]
    pairs, table = {}, {}
    for row in rows:
        locale = row.pop("locale")
        if "file" in row:
            pairs.setdefault(locale, []).append([row["file"], row["reference"]])
        elif locale is not None:
            pairs.setdefault(locale, [])
            table[locale] = {key: count for key, count in row.items() if key != "percent"}
    options = ("--notes", "--ignore", "unused-term", "--format", "json")
    _, lines, more_faults = ask(program, folder, "lint", *options, *more["linted"], *words)
    findings = [finding(json.loads(line)) for line in lines]
    return pairs, table, sorted(findings, key=json.dumps), faults + more_faults


def words_of(row):
    """The words of a row, for what is counted, which takes no --only, and for what is linted."""
    args = row.get("args", [])
    counted = [word for n, word in enumerate(args) if "--only" not in (word, args[n - 1] if n else "")]
    return {"counted": counted, "linted": args}


def differences(program, row, folder, words):
    """What is told otherwise than the row says."""
    if "error" in row:
        status, lines, faults = ask(program, folder, "lint", *words)
        if status != 2 or lines or not faults.startswith(f"ftl: {row['error']}:"):
            yield "error", row["error"], (status, lines, faults)
        return
    pairs, table, findings, faults = told(program, folder, words, words_of(row))
    wanted = sorted(map(finding, row["findings"]), key=json.dumps)
    for what, one, other in (
        ("pairs", row["pairs"], pairs),
        ("table", row["table"], table),
        ("findings", wanted, findings),
        ("faults", "", faults),
    ):
        if one != other:
            yield what, one, other


def failures(program, row):
    """The differences of a row, by the name of its file and without it."""
    with tempfile.TemporaryDirectory() as folder:
        make(row, Path(folder))
        name = next(name for name in row["files"] if name.endswith("l10n.toml"))
        yield from differences(program, row, folder, [name])
        if name == "l10n.toml":
            yield from differences(program, row, folder, [])


def main(program):
    passed = failed = 0
    for line in ROWS.read_text(encoding="utf-8").splitlines():
        row = json.loads(line)
        wrong = list(failures(os.path.abspath(program), row))
        passed, failed = passed + (not wrong), failed + bool(wrong)
        for what, wanted, got in wrong:
            print(f"{row['name']}: {what}\n  wanted {wanted}\n  got    {got}")
    print(f"{passed} passed, {failed} failed")
    return 1 if failed else 0


if __name__ == "__main__":
    sys.exit(main(*sys.argv[1:] or [TOP / "crates/ftl/out/ftl"]))
