#!/usr/bin/env python3
"""Runs the rows of tests/checks/rows.jsonl over a built program: what `ftl lint` finds of a translation beside its reference.

    tools/checks.py [PROGRAM]

PROGRAM is crates/ftl/out/ftl unless it is given. A row has the sources of a message, in the reference and in the translation, and
the findings of CODES that must come, each with its line and column. Rows without findings are right texts that look nearly like
mistakes. The last line is 'N passed, M failed', and the status is 1 if anything failed.
"""
import json
import pathlib
import subprocess
import sys
import tempfile

TOP = pathlib.Path(__file__).resolve().parent.parent
CODES = {
    "access-key-not-in-label", "broken-entity", "broken-tag", "changed-number", "changed-placeholder", "changed-style",
    "changed-url", "control-character", "double-space", "doubled-word", "edge-space", "empty-text", "final-punctuation",
    "long-access-key", "long-key", "long-text", "missing-element", "missing-l10n-name", "missing-variable",
    "mixed-scripts", "placeable-in-literal", "plural-dropped", "replacement-character", "straight-quote",
    "term-as-text", "three-dots", "unbalanced-direction", "unbalanced-element", "unknown-category", "unknown-element",
    "unknown-l10n-name", "unknown-term-argument", "unknown-term-variant", "unpaired-quote", "unused-category",
    "variant-lacks-variable", "wrong-encoding", "zero-width",
}


def found(program: str, row: dict) -> list:
    with tempfile.TemporaryDirectory() as folder:
        for name in ("reference", "translation"):
            (pathlib.Path(folder) / f"{name}.ftl").write_bytes(row[name].encode())
        words = ["lint", "--select", ",".join(sorted(CODES)), "--format", "json", "--locale", row["locale"]]
        words += ["--reference", "reference.ftl", "translation.ftl"]
        told = subprocess.run([program, *words], cwd=folder, capture_output=True, timeout=60, check=False)
    objects = [json.loads(line) for line in told.stdout.splitlines()]
    return [[it["code"], it["line"], it["column"]] for it in objects if "code" in it]


def main() -> int:
    program = str(pathlib.Path(sys.argv[1] if len(sys.argv) > 1 else TOP / "crates/ftl/out/ftl").resolve())
    failed = passed = 0
    for line in (TOP / "tests" / "checks" / "rows.jsonl").read_text(encoding="utf-8").splitlines():
        row = json.loads(line)
        came = found(program, row)
        if came == row["findings"]:
            passed += 1
        else:
            failed += 1
            print(f"{row['name']}: wanted {row['findings']}, came {came}")
    print(f"{passed} passed, {failed} failed")
    return 1 if failed else 0


if __name__ == "__main__":
    sys.exit(main())
