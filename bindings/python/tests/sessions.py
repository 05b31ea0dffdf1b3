"""The sessions of README.md and of the pages on Python, as tests. They are run at the top of the repository."""
import doctest
import os
import re
from pathlib import Path

TOP = Path(__file__).resolve().parents[3]
PAGES = [TOP / "bindings/python/README.md", *sorted(TOP.glob("docs/python/*.md"))]


def sessions_of_pages():
    """A test of each session, in the order of the pages."""
    return [_test(page, number, session) for page in PAGES for number, session in enumerate(_sessions(page), 1)]


def _sessions(page):
    return re.findall(r"^```python\n(>>> .*?)^```$", page.read_text(encoding="utf-8"), re.M | re.S)


def _test(page, number, session):
    folder = os.getcwd()
    read = doctest.DocTestParser().get_doctest(session, {}, f"{page.name}, session {number}", str(page), 0)
    return doctest.DocTestCase(read, setUp=lambda _: os.chdir(TOP), tearDown=lambda _: os.chdir(folder))
