"""Reads crates.txt, for the scripts in Python; crates.sh does for those that run without it.

tools/house/check.py holds the two against each other.
"""
from pathlib import Path

ROOT = Path(__file__).resolve().parents[2]


def lines(root: Path = ROOT) -> dict[str, str]:
    """The line of each crate without its comment, by the crate's name, in the order of the file."""
    bare = [line.partition('#')[0].strip() for line in (root / 'crates.txt').read_text(encoding='utf-8').split('\n')]
    return {name_in(line): line for line in bare if ':' in line}


def name_in(line: str) -> str:
    """The crate that a line is of. A static library has a second word before the colon."""
    return line.partition(':')[0].split()[0]


def uses_in(line: str) -> list[str]:
    """The libraries that a line names: those of the repository, and those of the toolchain."""
    return line.partition(':')[2].split()


def uses(root: Path = ROOT) -> dict[str, list[str]]:
    """The libraries that each crate names."""
    return {name: uses_in(line) for name, line in lines(root).items()}


def below(crate: str, used: dict[str, list[str]]) -> list[str]:
    """The crates of the repository that one of them uses, directly or not: each after those that it uses itself."""
    found: list[str] = []

    def walk(name: str) -> None:
        for library in used[name]:
            if library in used and library not in found:
                walk(library)
                found.append(library)

    walk(crate)
    return found
