#!/usr/bin/env python3
"""Builds a program of the repository without proofs.

    tools/unproved.py OUT [CRATE]

OUT is the program, that of the crate `ftl` if no other is named. It is the same code, compiled with no check but that of
types and borrows. `./ftl --unproved` builds and runs it.
"""

import shutil
import sys
from pathlib import Path

from building.unproved import COMPILES, ROOT, clang, kit, linked, made_anew, module_of, room


def main(out: str, crate: str = "ftl") -> None:
    tool = kit()
    with made_anew(Path(out)) as program, room() as folder:
        shutil.copytree(ROOT / "crates" / crate / "src", folder / "src")
        clang(tool, module_of(tool, crate, folder), folder / "program.o", *COMPILES)
        linked(tool, folder / "program.o", program)


if __name__ == "__main__":
    if len(sys.argv) not in (2, 3):
        sys.exit(__doc__)
    main(*sys.argv[1:])
