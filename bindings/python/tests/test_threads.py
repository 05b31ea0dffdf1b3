"""What is made at the first question is made once, and by one thread, and a process may fork meanwhile."""

import os
import signal
import threading
import unittest
import warnings

from kozhvadi import Bundle, FluentWarning, Localization, tidy
from kozhvadi._locks import new_lock
from kozhvadi.runtime import AbstractResourceLoader, FluentBundle, FluentLocalization, FluentResource


def in_threads(ask, count=8):
    """What `ask` gives or raises in each of some threads that begin at once."""
    told, starts = [], threading.Barrier(count)

    def asks():
        starts.wait()
        try:
            told.append(ask())
        except Exception as error:
            told.append(error)

    threads = [threading.Thread(target=asks) for _ in range(count)]
    for thread in threads:
        thread.start()
    for thread in threads:
        thread.join()
    return told


class Loader(AbstractResourceLoader):
    """Resources in two bundles for each locale."""

    def __init__(self):
        self.asked, self.fails = [], False

    def resources(self, locale, resource_ids):
        for part in (1, 2):
            if self.fails and locale == "fr":
                raise OSError("the disk is gone")
            self.asked.append((locale, part))
            yield [FluentResource(f"{locale}-{part} = {locale} {part}\n")]


class RuntimeTest(unittest.TestCase):
    def test_threads_ask_first(self):
        for _ in range(200):
            loader = Loader()
            texts = FluentLocalization(["de", "fr", "en"], ["main.ftl"], loader)
            self.assertEqual(in_threads(lambda: texts.format_value("en-2")), ["en 2"] * 8)
            self.assertEqual(loader.asked, [(locale, part) for locale in ("de", "fr", "en") for part in (1, 2)])

    def test_a_bundle_is_made_when_it_is_asked(self):
        loader = Loader()
        texts = FluentLocalization(["de", "fr", "en"], ["main.ftl"], loader)
        self.assertEqual((texts.format_value("de-1"), loader.asked), ("de 1", [("de", 1)]))
        self.assertEqual((texts.format_value("nothing"), len(loader.asked)), ("nothing", 6))
        self.assertEqual((texts.format_value("de-1"), len(loader.asked)), ("de 1", 6))

    def test_a_loader_that_fails_is_asked_again(self):
        loader = Loader()
        texts = FluentLocalization(["de", "fr", "en"], ["main.ftl"], loader)
        loader.fails = True
        for _ in range(2):
            with self.assertRaises(OSError):
                texts.format_value("en-1")
        self.assertEqual(texts.format_value("de-2"), "de 2")
        loader.fails = False
        self.assertEqual([texts.format_value(id) for id in ("en-1", "fr-2", "de-1")], ["en 1", "fr 2", "de 1"])

    def test_no_resource_is_lost(self):
        for _ in range(50):
            bundle, numbers = FluentBundle(["en"]), iter(range(8))

            def ask():
                number = next(numbers)
                bundle.add_resource(FluentResource(f"m{number} = {number}\n"))
                return bundle.has_message(f"m{number}")

            self.assertEqual(in_threads(ask), [True] * 8)
            self.assertTrue(all(bundle.has_message(f"m{number}") for number in range(8)))


class ThreadsTest(unittest.TestCase):
    def test_an_answer_keeps_its_bundle(self):
        with Localization({"en": "a = { $x }\n"}, isolating=False, formatter=lambda value: texts.close() or "x") as texts:
            self.assertEqual([texts.format("a", x=None).text for _ in range(2)], ["x", "x"])

    def test_bundles_are_closed_while_threads_ask(self):
        texts, ended = Localization({"de": "a = A\n", "en": "b = B\n"}), threading.Event()

        def close():
            while not ended.is_set():
                texts.close()

        closing = threading.Thread(target=close)
        closing.start()
        try:
            told = in_threads(lambda: {texts.format("b").text for _ in range(500)}, 4)
        finally:
            ended.set()
            closing.join()
        self.assertEqual(told, [{"B"}] * 4)

    def test_a_bundle_warns_once(self):
        for _ in range(50):
            with warnings.catch_warnings(record=True) as told, Bundle("a = A\n?\n") as bundle:
                warnings.simplefilter("always")
                self.assertEqual([answer.text for answer in in_threads(lambda: bundle.format("a"))], ["A"] * 8)
            self.assertEqual([each.category for each in told], [FluentWarning])

    def test_an_answer_waits_for_who_has_the_bundle(self):
        told = []
        with Bundle("a = { $x }\n", isolating=False) as bundle:
            self.assertEqual(bundle.format("a", x=0).text, "0")
            asking = threading.Thread(target=lambda: told.append(bundle.format("a", x=1).text))
            with bundle._lock:
                asking.start()
                asking.join(0.2)
                self.assertEqual((told, bundle.format("a", x=2).text), ([], "2"))
            asking.join()
            self.assertEqual((told, bundle.format("a", x=3).text), (["1"], "3"))

    def test_a_lock_that_nobody_has_is_not_given_back(self):
        lock = new_lock()
        for _ in range(2):
            with self.assertRaises(RuntimeError):
                lock.release()
            with lock:
                self.assertTrue(lock.acquire(blocking=False))
                self.assertEqual(in_threads(lambda: lock.acquire(blocking=False), 2), [False] * 2)
                lock.release()

    def test_others_go_on_while_the_library_works(self):
        """A call of the library lets go of Python's lock: a thread that counts goes on."""
        source = "".join(f"a{number} = {{ $x }}\n" for number in range(100_000))
        steps, ends = [], threading.Event()

        def counts():
            while not ends.wait(0.001):
                steps.append(len(steps))

        thread = threading.Thread(target=counts)
        thread.start()
        before = len(steps)
        self.assertEqual(tidy(source), source)
        counted = len(steps) - before
        ends.set()
        thread.join()
        self.assertGreater(counted, 10)

    def test_a_process_forks_while_threads_make_bundles(self):
        texts, ended = Localization({"en": "a = A\n"}), threading.Event()

        class Asking(AbstractResourceLoader):
            """A loader that asks a bundle, and so waits for its lock."""

            def resources(self, locale, resource_ids):
                yield [FluentResource(f"a = {texts.format('a').text}\n")]

        def make():
            while not ended.is_set():
                texts.close()
                FluentLocalization(["en"], ["main.ftl"], Asking()).format_value("a")

        threads = [threading.Thread(target=make) for _ in range(3)]
        for thread in threads:
            thread.start()
        # A process that waits forever is ended.
        before = signal.signal(signal.SIGALRM, signal.SIG_DFL)
        signal.alarm(300)
        try:
            for _ in range(20):
                child = os.fork()
                if child == 0:
                    signal.alarm(60)
                    os._exit(0 if texts.format("a").text == "A" else 1)
                self.assertEqual(os.waitpid(child, 0)[1], 0)
        finally:
            signal.alarm(0)
            signal.signal(signal.SIGALRM, before)
            ended.set()
            for thread in threads:
                thread.join()


if __name__ == "__main__":
    unittest.main()
