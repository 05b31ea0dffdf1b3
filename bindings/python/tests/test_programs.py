"""What programs do beyond the first page: objects, files, warnings, threads, signals and forks."""

import copy
import datetime
import os
import pickle
import signal
import subprocess
import sys
import tempfile
import threading
import time
import unittest
import warnings
from pathlib import Path

import kozhvadi
from kozhvadi import Bundle, FluentError, FluentWarning, MissingMessageError, Number, ResolverError

FOLDER = Path(__file__).resolve().parents[1]


class Lazy:
    """A text that is made when it is asked for."""

    def __str__(self):
        return "lazy"


class Odd(str):
    """A text with another `encode`."""

    def encode(self, *_arguments):
        return b"\xff"


class ObjectsTest(unittest.TestCase):
    source = "a = { $x }\nn = { $x ->\n    [one] one\n   *[other] other\n}\n"

    def test_other_objects_are_shown_by_str(self):
        with Bundle(self.source, isolating=False) as bundle:
            for value, shown in [
                (None, "None"), (Lazy(), "lazy"), (datetime.date(2024, 2, 29), "2024-02-29"), ([1], "[1]"),
                (Odd("odd"), "odd"),
            ]:
                self.assertEqual(bundle.format("a", x=value), (shown, []))

    def test_a_formatter_makes_texts_and_numbers(self):
        def shown(value):
            if isinstance(value, datetime.date):
                return value.strftime("%d.%m.%Y")
            return Number("1") if value is None else value

        with Bundle(self.source, isolating=False, formatter=shown) as bundle:
            self.assertEqual(bundle.format("a", x=datetime.date(2024, 2, 29)).text, "29.02.2024")
            self.assertEqual(bundle.format("n", x=None).text, "one")
            with self.assertRaisesRegex(TypeError, "'x': list"):
                bundle.format("a", x=[])
        with self.assertRaisesRegex(TypeError, "formatter"):
            Bundle(self.source, formatter="str")

    def test_wrong_arguments_are_named(self):
        bundle = Bundle(self.source)
        for wrong, kind, words in [
            (lambda: bundle.format(1), TypeError, "the id isn't a text: int"),
            (lambda: bundle.format("a", {"x": 1}), TypeError, "the name of the attribute isn't a text: dict"),
            (lambda: bundle.format("a", x="\ud800"), ValueError, "the argument 'x' can't be written"),
            (lambda: bundle.format("\ud800"), ValueError, "the id can't be written"),
            (lambda: bundle.format("a", x=Number("")), ValueError, "the argument 'x' isn't a number"),
            (lambda: Bundle(b"a = b"), TypeError, "a source is a text, .*: bytes"),
            (lambda: Bundle(Path("en.ftl")), TypeError, "Bundle.from_files reads files: PosixPath"),
            (lambda: Bundle(3), TypeError, "a source is a text"),
            (lambda: Bundle(["a = b", 3]), TypeError, "source 2 isn't a text: int"),
            (lambda: Bundle("locales/en.ftl"), ValueError, "source 1 is a name, and not a source: 'locales/en.ftl'"),
            (lambda: Bundle(["en-US"]), ValueError, "source 1 is a name"),
            (lambda: Bundle("a = b", locale=1), TypeError, "the locale isn't a text: int"),
            (lambda: Bundle("a = b", stack=1.5), TypeError, "the budget of the stack isn't a number of bytes: float"),
            (lambda: Bundle("a = b", stack=2**40), ValueError, "too large, or negative: 1099511627776"),
            (lambda: copy.copy(bundle), TypeError, "neither copied nor pickled"),
            (lambda: copy.deepcopy(bundle), TypeError, "neither copied nor pickled"),
            (lambda: pickle.dumps(bundle), TypeError, "neither copied nor pickled"),
        ]:
            with self.assertRaisesRegex(kind, words):
                wrong()
        self.assertNotIn(("a", "b", "c"), bundle)
        self.assertNotIn("\ud800", bundle)
        self.assertEqual(bundle.format("a", x=1).text, "1")

    def test_what_nests_too_deep_is_named(self):
        deep = f"a = {'{' * 3000}\"x\"{'}' * 3000}\n"
        with Bundle(["b = B\n", deep]) as bundle:
            with self.assertWarnsRegex(FluentWarning, "source 2:1:1: nests too deep for 1572864 bytes"):
                self.assertEqual(bundle.format("b").text, "B")
        calls = "".join(f"m{n} = {'{NUMBER(' * 200}{{ m{n + 1} }}{')}' * 200}\n" for n in range(50))
        with Bundle([calls, "m50 = x\n"]) as bundle:
            self.assertEqual(bundle.format("m49").text, "NUMBER()")
            with self.assertRaisesRegex(MemoryError, "the answer to 'm0' nests too deep"):
                bundle.format("m0")

    def test_kinds_of_errors(self):
        source = "a = { b } { b.c } { -d } { F() } { $v }\nn =\n    .x = X\nm = { n } { m }\n"
        with Bundle(source) as bundle:
            told = [(error.kind, error.id, error.attribute) for error in bundle.format("a").errors]
            self.assertEqual(
                told,
                [
                    ("message", "b", None), ("message", "b", "c"), ("term", "d", None), ("function", "F", None),
                    ("variable", "v", None),
                ],
            )
            value, cycle = bundle.format("m").errors
            self.assertEqual((value.kind, value.id, cycle.kind, cycle.id), ("value", "n", "cycle", None))
            self.assertIsInstance(value, FluentError)
        kinds = [ResolverError(line).kind for line in ["No default", "Too many placeables"]]
        self.assertEqual(kinds, ["default", "placeables"])

    def test_many_arguments(self):
        count = 3645
        names = [f"v{number * 7919 % count}" for number in range(count)]
        with Bundle("a = { $v0 } { $v3644 }\n", isolating=False) as bundle:
            answer = bundle.format("a", **{name: name for name in names})
        self.assertEqual(answer, ("v0 v3644", []))


class FilesTest(unittest.TestCase):
    def setUp(self):
        folder = tempfile.TemporaryDirectory()
        self.addCleanup(folder.cleanup)
        self.folder = Path(folder.name)

    def file(self, name, data):
        path = self.folder / name
        path.write_bytes(data)
        return path

    def test_files_are_read(self):
        one = self.file("one.ftl", b"\xef\xbb\xbfa = A\n")
        two = self.file("two.ftl", "b = Ž\nb@d\n".encode())
        with Bundle.from_files([one, str(two)], locale="pl", isolating=False) as bundle:
            (error,) = bundle.errors
            self.assertEqual((error.file, error.line), (str(two), 2))
            self.assertEqual((bundle.format("a").text, bundle.format("b").text), ("A", "Ž"))
        with Bundle.from_files(one) as bundle:
            self.assertEqual((bundle.format("a").text, bundle.errors), ("A", []))
        with self.assertRaisesRegex(ValueError, "three.ftl isn't UTF-8"):
            Bundle.from_files([one, self.file("three.ftl", b"a = \xff\n")])
        with self.assertRaises(FileNotFoundError):
            Bundle.from_files(self.folder / "none.ftl")
        deep = self.file("deep.ftl", b"d = " + b"{" * 3000 + b'"x"' + b"}" * 3000 + b"\n")
        with Bundle.from_files([one, deep]) as bundle:
            (error,) = bundle.errors
            self.assertEqual((error.kind, error.file, error.line), ("TooDeep", str(deep), 1))
            self.assertEqual(bundle.messages(), ["a"])

    def test_errors_are_warned_of_once(self):
        path = self.file("bad.ftl", b"a = A\n" + b"b?\n" * 5)
        with Bundle.from_files(path) as bundle:
            told = r"bad\.ftl:2:2: expected `=` after `b`, found `\?`; .*; and 2 more: Bundle\.errors"
            with self.assertWarnsRegex(FluentWarning, told) as warned:
                self.assertEqual(bundle.format("a").text, "A")
            self.assertEqual(warned.filename, __file__)
            self.assertEqual(len(bundle.errors), 5)
            with warnings.catch_warnings():
                warnings.simplefilter("error")
                bundle.format("a")
        with warnings.catch_warnings():
            warnings.simplefilter("error")
            with Bundle.from_files(path) as bundle:
                self.assertEqual(len(bundle.errors), 5)
                bundle.format("a")
            with Bundle(["a = A\n", "a = B\n"], overriding=True) as bundle:
                self.assertEqual(bundle.format("a").text, "B")

    def test_errors_are_kept(self):
        bundle = Bundle("a = A\n?\n")
        errors = bundle.errors
        bundle.close()
        self.assertEqual(bundle.errors, errors)
        closed = Bundle("a = A\n")
        closed.close()
        with self.assertRaises(FluentError):
            closed.errors


class ProcessTest(unittest.TestCase):
    source = "a = { $x } { $y } { $z }\n"

    def test_a_signal_handler_asks_the_same_bundle(self):
        bundle = Bundle(self.source, isolating=False)
        inner = []

        def handle(number, _frame):
            inner.append(bundle.format("a", x="i", y="n", z=number).text)

        before = signal.signal(signal.SIGALRM, handle)
        self.addCleanup(signal.signal, signal.SIGALRM, before)
        signal.setitimer(signal.ITIMER_REAL, 0.002, 0.002)
        try:
            ends = time.monotonic() + 120
            while len(inner) <= 10 and time.monotonic() < ends:
                self.assertEqual(bundle.format("a", x="o", y="u", z="t").text, "o u t")
        finally:
            signal.setitimer(signal.ITIMER_REAL, 0)
        self.assertEqual(set(inner), {f"i n {signal.SIGALRM.value}"})
        self.assertGreater(len(inner), 10)

    def test_a_signal_handler_closes_the_bundle(self):
        bundle = Bundle(self.source, isolating=False)
        before = signal.signal(signal.SIGALRM, lambda _number, _frame: bundle.close())
        self.addCleanup(signal.signal, signal.SIGALRM, before)
        signal.setitimer(signal.ITIMER_REAL, 0.01)
        with self.assertRaisesRegex(FluentError, "closed"):
            while True:
                self.assertEqual(bundle.format("a", x="o", y="u", z="t").text, "o u t")

    def test_a_child_asks_what_threads_of_its_parent_were_asking(self):
        bundle = Bundle(self.source, isolating=False)
        ended = threading.Event()

        def ask():
            while not ended.is_set():
                bundle.format("a", x=1, y=2, z=3)

        threads = [threading.Thread(target=ask) for _ in range(3)]
        for thread in threads:
            thread.start()
        try:
            for _ in range(20):
                child = os.fork()
                if child == 0:
                    signal.alarm(20)
                    os._exit(0 if bundle.format("a", x="c", y=1, z=2).text == "c 1 2" else 1)
                self.assertEqual(os.waitpid(child, 0)[1], 0)
        finally:
            ended.set()
            for thread in threads:
                thread.join()

    def test_threads_have_their_own_answers(self):
        bundle = Bundle(self.source, isolating=False)
        wrong = []

        def ask(name):
            for number in range(2000):
                if bundle.format("a", x=name, y=number, z="z").text != f"{name} {number} z":
                    wrong.append(name)

        threads = [threading.Thread(target=ask, args=(f"t{number}",)) for number in range(8)]
        for thread in threads:
            thread.start()
        for thread in threads:
            thread.join()
        self.assertEqual(wrong, [])

    def test_without_the_library_the_error_says_what_to_do(self):
        environment = {**os.environ, "KOZHVADI_LIBRARY": "/nowhere/libfluent_c.so", "PYTHONPATH": str(FOLDER)}
        run = subprocess.run([sys.executable, "-c", "import kozhvadi"], env=environment, capture_output=True, text=True)
        self.assertEqual(run.returncode, 1)
        self.assertIn("ImportError: the library /nowhere/libfluent_c.so can't be loaded", run.stderr)
        self.assertIn("bindings/python/run.sh", run.stderr)

    def test_the_version_is_that_of_the_package_for_rust(self):
        manifest = (FOLDER.parent / "rust" / "Cargo.toml").read_text(encoding="utf-8")
        self.assertIn(f'\nversion = "{kozhvadi.__version__}"\n', manifest)

    def test_missing_messages_are_still_errors_of_keys(self):
        with Bundle(self.source) as bundle, self.assertRaises(KeyError) as raised:
            bundle.format("b")
        self.assertEqual(str(raised.exception), "there is no message 'b'")
        self.assertIsInstance(raised.exception, MissingMessageError)


if __name__ == "__main__":
    unittest.main()
