"""Builds the package of pyproject.toml, with the library that run.sh makes, and the extension if it made one."""

from pathlib import Path

from setuptools import Distribution, setup

LIBRARY = Path(__file__).with_name("kozhvadi") / "libfluent_c.so"


class WithLibrary(Distribution):
    """A package with a library in it, which makes its wheel one of this platform."""

    def has_ext_modules(self) -> bool:
        return True


if not LIBRARY.is_file():
    raise SystemExit(f"there is no {LIBRARY}: make it by run.sh, next to this file")
# The extension has the stable ABI, so one wheel is for each Python from 3.10 on.
setup(distclass=WithLibrary, options={"bdist_wheel": {"py_limited_api": "cp310"}})
