"""Bundles over the same sources."""

import subprocess
import sys
import threading
import unittest

from kozhvadi import Bundle, FluentError

SOURCE = "a = { $n } files\nb = Text\n"

# The memory of ten bundles over a source of 1 MB that begins with a message, in MB, and with how many it began.
MEASURED = """
import sys
from kozhvadi import Bundle
def peak():
    with open("/proc/self/status") as status:
        return next(int(line.split()[1]) for line in status if line.startswith("VmHWM:")) / 1000
source = sys.argv[1] + "".join(f"key-{n} = The text of the message {n} is this one, with {{ $name }}\\n" for n in range(15_000))
before = peak()
bundles = [Bundle(source, locale="en", isolating=False) for _ in range(10)]
texts = {bundle.format("key-7", name="it").text for bundle in bundles}
print(len(source), peak() - before, texts)
"""


class SharingTest(unittest.TestCase):
    def test_what_is_shared(self):
        bundle = Bundle(SOURCE, locale="en")
        self.assertIs(Bundle([SOURCE], locale="en")._kept, bundle._kept)
        for other in (
            Bundle(SOURCE, locale="de"),
            Bundle(SOURCE, locale="en", isolating=False),
            Bundle(SOURCE, locale="en", numbers=False),
            Bundle(SOURCE, locale="en", overriding=True),
            Bundle(SOURCE, locale="en", stack=100_000),
            Bundle(SOURCE, locale="en", functions={"F": str}),
            Bundle([SOURCE, ""], locale="en"),
        ):
            self.assertIsNot(other._kept, bundle._kept)

    def test_sources_that_are_rewritten_are_shared(self):
        source = "a = { DATETIME($day) } { $n }\nb\n"
        first, second = Bundle(source, locale="en"), Bundle([source], locale="en")
        self.assertIs(first._kept, second._kept)
        self.assertIs(first._sources[0][1], second._sources[0][1])
        self.assertEqual([str(error) for error in first.errors], [str(error) for error in second.errors])
        self.assertEqual((first.errors[0].line, first.errors[0].column), (2, 2))
        names = (["NUMBER"], ["NUMBER", "F"], ["F"])
        own = [Bundle(SOURCE, functions=dict.fromkeys(each, str)) for each in names]
        self.assertEqual(len({id(bundle._kept) for bundle in own}), 3)

    def test_functions_are_those_of_the_bundle(self):
        first, second = (Bundle("a = { F() }", isolating=False, functions={"F": lambda n=n: n}) for n in (1, 2))
        self.assertIs(first._kept, second._kept)
        self.assertEqual([bundle.format("a").text for bundle in (first, second, first)], ["1", "2", "1"])

    def test_one_is_closed(self):
        first, second = Bundle(SOURCE), Bundle(SOURCE)
        first.close()
        self.assertEqual(second.format("b").text, "Text")
        with self.assertRaisesRegex(FluentError, "closed"):
            first.format("b")
        self.assertEqual(Bundle(SOURCE).format("b").text, "Text")
        second.close()
        for bundle in (first, second):
            with self.assertRaisesRegex(FluentError, "closed"):
                bundle.messages()

    def test_threads_have_their_own(self):
        made = []
        thread = threading.Thread(target=lambda: made.append(Bundle(SOURCE)))
        thread.start()
        thread.join()
        self.assertIsNot(made[0]._kept, Bundle(SOURCE)._kept)

    @unittest.skipUnless(sys.platform == "linux", "there is no /proc")
    def test_ten_take_the_memory_of_one(self):
        for message in ("", "day = { DATETIME($day) }\n"):
            run = subprocess.run([sys.executable, "-c", MEASURED, message], capture_output=True, text=True, check=True)
            length, megabytes, texts = run.stdout.split(" ", 2)
            self.assertGreater(int(length), 1_000_000)
            self.assertLess(float(megabytes), 20, message)
            self.assertEqual(texts, "{'The text of the message 7 is this one, with it'}\n")


if __name__ == "__main__":
    unittest.main()
