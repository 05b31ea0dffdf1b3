"""The structs of ctypes, against the sizes and places that the test for C asserts."""

import ctypes
import re
import unittest
from pathlib import Path

from kozhvadi import _library

LAYOUT = Path(__file__).parents[2] / "c" / "tests" / "layout.c"


class Layout(unittest.TestCase):
    def test_sizes_and_places(self) -> None:
        text = LAYOUT.read_text(encoding="utf-8")
        structs = [it for it in vars(_library).values() if isinstance(it, type) and issubclass(it, ctypes.Structure)]
        sizes = {(it.__name__, str(ctypes.sizeof(it))) for it in structs}
        places = {(it.__name__, field[0], str(getattr(it, field[0]).offset)) for it in structs for field in it._fields_}
        self.assertEqual(sizes, set(re.findall(r"^SIZE\((\w+), (\d+)\);$", text, re.M)))
        self.assertEqual(places, set(re.findall(r"^AT\((\w+), (\w+), (\d+)\);$", text, re.M)))


if __name__ == "__main__":
    unittest.main()
