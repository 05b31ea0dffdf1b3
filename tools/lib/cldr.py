"""The version of Unicode CLDR whose data is in the repository, which tools/cldr.txt names, and the folders of this data."""
from pathlib import Path

from lib.crates import ROOT


def version(root: Path = ROOT) -> str:
    return (root / 'tools/cldr.txt').read_text(encoding='utf-8').strip()


def data(part: str, root: Path = ROOT) -> Path:
    """The folder of the data of `plurals`, `numbers`, `dates` or `languages`."""
    return root / 'tools' / part / f'cldr-{version(root)}'
