#!/usr/bin/env python3
"""Asks the built program for the tags of tests/tags/rows.txt: `run --locale` what 1 chooses, and `lint --locale` what is lacking.

    tools/languages/program.py [PROGRAM]

Prints what differs, ends with 'N passed, M failed', two for each row, and with 1 if one failed.
"""

import json
import subprocess
import sys
import tempfile
from pathlib import Path

TOP = Path(__file__).resolve().parents[2]
ROWS = TOP / "tests/tags/rows.txt"
SECONDS = 60

SOURCE = "count = { $n ->\n    [one] one\n   *[other] other\n}\n"
# A language with the category `one` needs a variant for it.
LACKS_ONE = "count = { $n ->\n    [zero] none\n   *[other] other\n}\n"


def ran(program: Path, command: str, tag: str, file: Path) -> subprocess.CompletedProcess[str]:
    words = [program, command, f"--locale={tag}", file.name]
    return subprocess.run(words, input="count\tn=1\n", capture_output=True, text=True, timeout=SECONDS, cwd=file.parent)


def refused(run: subprocess.CompletedProcess[str]) -> bool:
    return run.returncode == 2 and run.stderr.endswith(": unknown locale\n")


def chosen(program: Path, tag: str, file: Path) -> str:
    """What 1 chooses in a language."""
    file.write_text(SOURCE, encoding="utf-8")
    run = ran(program, "run", tag, file)
    return "refused" if refused(run) else run.stdout.split("\n")[1] if run.returncode == 0 else run.stderr


def lacking(program: Path, tag: str, file: Path) -> str:
    """The category that a message lacks in a language, or `other`."""
    file.write_text(LACKS_ONE, encoding="utf-8")
    run = ran(program, "lint", tag, file)
    return "refused" if refused(run) else "one" if "category `one`" in run.stdout else "other"


def main(program: str = str(TOP / "crates/ftl/out/ftl")) -> None:
    passed, failed = 0, 0
    with tempfile.TemporaryDirectory() as folder:
        for line in ROWS.read_text(encoding="utf-8").splitlines():
            tag, end = json.JSONDecoder().raw_decode(line)
            # No word of a program has a byte 0 in it.
            for ask in (chosen, lacking) if "\0" not in tag else ():
                expected = line[end:].split()[0]
                came = ask(Path(program).resolve(), tag, Path(folder, "a.ftl"))
                passed, failed = passed + (came == expected), failed + (came != expected)
                if came != expected:
                    print(f"{ask.__name__} in {tag!r}: {came!r} for {expected!r}")
    print(f"{passed} passed, {failed} failed")
    sys.exit(bool(failed))


if __name__ == "__main__":
    main(*sys.argv[1:])
