"""Bundles that are kept."""

from __future__ import annotations

import os
import re
import resource
import threading
import warnings
from collections.abc import Callable, Iterable
from pathlib import Path
from types import TracebackType
from typing import NoReturn, SupportsIndex, Union

from . import _dates
from . import _library as c
from ._answers import Answer, resolver_errors
from ._errors import FluentError, FluentWarning, MissingMessageError, SourceError, UnknownLocaleError
from ._extension import calls_type, quick
from ._functions import Answers, Called, Functions, called_of, each_call, functions_of, rewriting_of, told_apart, with_dates
from ._kept import Asking, Kept, kept_of, read
from ._numbers import FluentNumber
from ._reports import Sources, source_errors, too_deep
from ._values import Formatter, NeedsShowing, arguments_of, encoded

Paths = Union[str, "os.PathLike[str]", Iterable[Union[str, "os.PathLike[str]"]]]

# What a call takes of the machine's stack in addition to the budget of a bundle.
_BESIDE = 400 * 1024

# A warning shows this many errors.
_SHOWN = 3

# Where a part of a source begins that may be a message or a term.
_PART = re.compile(rb"^(?=[A-Za-z-])", re.M)

# A text of one line that is the name of a file or of a locale.
_NAME = re.compile(r"[^\n=#]*\.ftl|[A-Za-z]{2,3}(?:[-_][A-Za-z0-9]+)*")


class _Texts:
    """The text and the errors of an answer, and a call, whose memory another answer uses."""

    __slots__ = ("text", "errors", "call")

    def __init__(self) -> None:
        self.text, self.errors, self.call = c.FluentText(), c.FluentText(), c.FluentText()

    def __del__(self, free: Callable[[c.FluentText], None] = c.library.fluent_free_text) -> None:
        for text in (self.text, self.errors, self.call):
            free(text)


class Bundle:
    """Messages and terms of sources, which are read once and kept.

    `locale` names the language whose plural rules choose variants, such as "pl", and as which numbers are written:
    1234.5 is "1.234,5" in German. Without one the rules are those of English, and numbers are written plainly; with
    `numbers=False` they are, too, whatever the locale. With `isolating` the values of placeables are between marks that
    keep their direction from that of the text around them. With `overriding` the last entry of an id counts, and else
    the first. `formatter` makes a text or a number of an argument that is neither, such as a date or `None`: `str` if
    you set none.

    `functions` are those that messages call, by their names: `functions={"PLATFORM": lambda: sys.platform}` for
    `{ PLATFORM() }`. A function gets texts as `str`, numbers as `int` or `Decimal`, and `None` for what has no value; what
    the formatter made a text of, such as a date, it gets itself, and a number of `fluent_number`, too. It gives a text, a
    number, what the formatter takes, or `None` for no value. It is called once for each different call that an answer
    meets, so it has to give the same for the same arguments. If it raises an `Exception`, as for arguments that it doesn't
    take, the call is shown as `{PLATFORM()}`, and the answer has a `ResolverError` of the kind "raised". `NUMBER` is that of
    the library, unless it is among them. `ValueError` is raised for a name that no message calls: others begin with a
    capital letter and have capital letters, digits, `_` and `-`.

    `stack` is how many bytes of the machine's stack a message or a term may take when it is read, and an answer: the
    usual 1.5 MB suit a thread with 2 MB. A source that nests deeper is left out, which is one of the `errors`, and such
    an answer raises `MemoryError`. A thread that makes or asks the bundle needs 400 KB more: `ValueError` is raised if
    the thread that makes it doesn't have them.

    If the sources have errors, the first `format` warns of them by a `FluentWarning`, unless you looked at `errors`
    before.
    """

    def __init__(
        self,
        sources: str | Iterable[str],
        *,
        locale: str | None = None,
        numbers: bool = True,
        isolating: bool = True,
        overriding: bool = False,
        formatter: Formatter = str,
        functions: Functions | None = None,
        stack: int = c.THREAD_STACK,
    ) -> None:
        texts = _texts_of(sources)
        named = [(f"source {number}", text) for number, text in enumerate(texts, 1)]
        self._make(named, locale, numbers, isolating, overriding, formatter, functions, stack)

    @classmethod
    def from_files(
        cls,
        paths: Paths,
        *,
        locale: str | None = None,
        numbers: bool = True,
        isolating: bool = True,
        overriding: bool = False,
        formatter: Formatter = str,
        functions: Functions | None = None,
        stack: int = c.THREAD_STACK,
    ) -> Bundle:
        """A bundle of files, in their order. They are in UTF-8, and a byte order mark is passed over.

        Raises `OSError` if a file can't be read, and `ValueError` with its name if it isn't UTF-8.
        """
        each = [paths] if isinstance(paths, (str, os.PathLike)) else list(paths)
        bundle = cls.__new__(cls)
        named = [_file(path) for path in each]
        bundle._make(named, locale, numbers, isolating, overriding, formatter, functions, stack)
        return bundle

    def _make(
        self,
        named: list[tuple[str, bytes]],
        locale: str | None,
        numbers: bool,
        isolating: bool,
        overriding: bool,
        formatter: Formatter,
        functions: Functions | None,
        stack: SupportsIndex,
        shows: Callable[[FluentNumber], str] | None = None,
    ) -> None:
        tag = b"" if locale is None else encoded(locale, "the locale")
        if not callable(formatter):
            raise TypeError(f"the formatter can't be called: {type(formatter).__name__}")
        self._spare: list[_Texts] = []
        self._functions = with_dates(functions_of(functions), (text for _, text in named))
        self._called = called_of(self._functions, shows)
        self._rewriting = rewriting_of(self._functions, shows is not None)
        if formatter is str and numbers and tag:
            formatter = _dates.formatter_of(tag)
        self._formatter, self._overriding, self._stack = formatter, bool(overriding), _budget(stack)
        self._locale, self._isolating, self._numbers = locale, bool(isolating), bool(numbers)
        self._errors: list[SourceError] = []
        made, kept = self._new(named, tag)
        if made == c.NO_MEMORY:
            named = self._without_deep(named)
            made, kept = self._new(named, tag)
        if made == c.UNKNOWN_LOCALE:
            raise UnknownLocaleError(f"the locale {locale!r} is no tag of a language")
        if made != c.READ:
            raise MemoryError("memory ran out")
        # The texts are those that the other bundles have.
        named = [(name, text) for (name, _), text in zip(named, kept.texts)]
        # The sources; whether nobody asked for `errors` yet; and whether the next answer warns of them.
        self._sources: Sources = named
        self._is_unread = True
        self._warns = True
        # What shows numbers with options: the same messages with each value shown by a call, and a number by its options.
        self._showing: Bundle | None = None
        self._shown: dict[str, Bundle] = {}
        # It is another one, of nothing, once the bundle is closed. What is here is under its lock, too.
        self._kept, self._lock = kept, kept.lock
        # The extension takes numbers without their options, so it isn't for a bundle that shows them.
        new_calls = None if shows else calls_type
        self._calls = new_calls(kept.address, kept, kept.lock) if new_calls else None
        # It answers what is usual, once no answer warns of the sources any more.
        self._quick: object = None

    def _new(self, named: Sources, tag: bytes) -> tuple[int, Kept]:
        """What the library keeps of the sources, and its status."""
        functions = [name.encode() for name in self._called]
        asking = Asking(
            tag, self._isolating, self._overriding, self._numbers, self._stack, functions, self._rewriting
        )
        return kept_of([text for _, text in named], asking)

    def _that_shows(self) -> Bundle:
        """A bundle of the same messages that shows numbers by all their options, which is made if it isn't there."""
        with self._lock:
            if self._showing is None:
                bundle = Bundle.__new__(Bundle)
                bundle._make(
                    self._sources, self._locale, self._numbers, self._isolating, self._overriding, self._formatter,
                    self._functions, self._stack, self._number_shown,
                )
                bundle._hush()
                self._showing = bundle
            return self._showing

    def _number_shown(self, number: FluentNumber) -> str:
        """A number as `NUMBER` shows it by its options."""
        options = number.options.arguments()
        with self._lock:
            if options not in self._shown:
                source = f"number = {{ NUMBER($number{options}) }}\n"
                self._shown[options] = Bundle(source, locale=self._locale, numbers=self._numbers, isolating=False)
            bundle = self._shown[options]
        return bundle.format("number", number=number.plain()).text

    def _without_deep(self, named: Sources) -> Sources:
        """The sources, with nothing in the place of each that nests too deep, which is an error."""
        read: Sources = []
        for name, text in named:
            if self._is_read(text):
                read.append((name, text))
            else:
                self._errors.append(too_deep(name, self._deep_line(text), self._stack))
                read.append((name, b""))
        return read

    def _deep_line(self, text: bytes) -> int | None:
        """The line on which the first part of a source begins that nests too deep by itself."""
        starts = [0, *(part.start() for part in _PART.finditer(text))]
        for start, end in zip(starts, [*starts[1:], len(text)]):
            if not self._is_read(text[start:end]):
                return text.count(b"\n", 0, start) + 1
        return None

    def _is_read(self, text: bytes) -> bool:
        """Whether the library can read a source."""
        alone = Kept([])
        return read([text], Asking(b"", True, self._overriding, False, self._stack, []), alone.handle) == c.READ

    @quick
    def format(self, id: str, attribute: str | None = None, /, **arguments: object) -> Answer:
        """The text of a message's value, or of its first attribute of a name, for these arguments.

        A float and a `Decimal` are rounded to 18 digits after the point. One that is `nan`, infinite or too large, with
        2^64 or more before its point, is a text, and so is such an `int`. Raises `MissingMessageError` if there is no
        such message, value or attribute, `ValueError` if a `Number` is none or a text can't be written in UTF-8, and
        `MemoryError` if the answer nests too deep for the stack.
        """
        if self._warns:
            self._warn()
        ask = self._calls.format if self._calls else self._format
        try:
            answered = ask(id, attribute, arguments, self._formatter, self._called)
        except NeedsShowing:
            return self._that_shows().format(id, attribute, **arguments)
        if isinstance(answered, Answer):
            return answered
        if answered in (c.NO_MESSAGE, c.NO_PATTERN):
            raise MissingMessageError(_missing(id, attribute, answered))
        self._refuse(answered, f"the answer to {id!r}")

    def _format(
        self,
        id: str,
        attribute: str | None,
        arguments: dict[str, object],
        formatter: Formatter,
        functions: Called,
        /,
    ) -> Answer | int:
        """An answer, or the status of the library if there is none. The extension has it too.

        Functions are called until each call that the answer meets has an answer.
        """
        key = encoded(id, "the id")
        name = b"" if attribute is None else encoded(attribute, "the name of the attribute")
        given, dates = told_apart(arguments, formatter) if functions.shows else (arguments, {})
        array, count = arguments_of(given, formatter, functions.shows is None)
        answers = Answers(functions, formatter, given, dates) if functions else None
        # An answer that comes up meanwhile, in a function, a signal handler or another thread, has other texts.
        try:
            texts = self._spare.pop()
        except IndexError:
            texts = _Texts()
        while True:
            kept = self._kept
            with kept.lock:
                answered: int
                if answers is None:
                    answered = c.library.fluent_bundle_format(
                        kept.handle, key, len(key), name, len(name), array, count, texts.text, texts.errors
                    )
                else:
                    answered = c.library.fluent_bundle_call(
                        kept.handle, key, len(key), name, len(name), array, count, *answers.given(),
                        texts.text, texts.errors, texts.call,
                    )
                if answers is None or answered != c.CALL:
                    break
                calls = [c.string_of(texts.call)]
                # A message with one call isn't asked for others.
                if answers.are_any:
                    listed = c.library.fluent_bundle_calls(
                        kept.handle, key, len(key), name, len(name), array, count, *answers.given(), texts.call
                    )
                    if listed == c.READ:
                        calls = each_call(calls[0], c.string_of(texts.call))
            for call in calls:
                answers.add(call)
        if answered != c.READ:
            return answered
        errors = resolver_errors(c.string_of(texts.errors)) if texts.errors.held else []
        if answers is not None:
            errors = answers.errors + errors
        answer = Answer(c.string_of(texts.text), errors)
        self._spare.append(texts)
        return answer

    def has_message(self, id: str) -> bool:
        """Whether there is a message of this id, with a value or with attributes alone."""
        return self._has(id, None) != c.NO_MESSAGE

    def _has(self, id: str, attribute: str | None) -> int:
        """Whether there is a value or an attribute, as a status of the library."""
        found = self._calls.has(id, attribute) if self._calls else self._look_for(id, attribute)
        if found not in (c.READ, c.NO_MESSAGE, c.NO_PATTERN):
            self._refuse(found, "the question")
        return found

    def _look_for(self, id: str, attribute: str | None) -> int:
        """The same. The extension has it too."""
        key = encoded(id, "the id")
        name = b"" if attribute is None else encoded(attribute, "the name of the attribute")
        kept = self._kept
        with kept.lock:
            found: int = c.library.fluent_bundle_has(kept.handle, key, len(key), name, len(name))
        return found

    def __contains__(self, key: object) -> bool:
        """Whether there is a message of this id with a value, or with an attribute: `("id", "attribute") in bundle`."""
        name, of = key if isinstance(key, tuple) and len(key) == 2 else (key, "")
        if not isinstance(name, str) or not isinstance(of, str):
            return False
        try:
            return self._has(name, of) == c.READ
        except ValueError:
            # It can't be written in UTF-8, so no message has it.
            return False

    def messages(self) -> list[str]:
        """The ids of the messages, in the order of their first entries in the sources.

        A message of attributes alone is there, too.
        """
        listed, ids = self._list(c.library.fluent_bundle_messages)
        if listed != c.READ:
            self._refuse(listed, "the list of the messages")
        return ids

    def attributes(self, id: str) -> list[str]:
        """The names of a message's attributes, in its order.

        A name that it has twice is there twice: the first is the one that `format` takes. Raises `MissingMessageError`
        if there is no such message.
        """
        return self._list_of(id, c.library.fluent_bundle_attributes, "attributes")

    def variables(self, id: str) -> list[str]:
        """The names of the variables that a message is shown with, each once.

        They are those of its value and its attributes, and those of the messages that it refers to, directly or not:
        first its own, then those of the messages that it names, and so on. The variables of terms aren't there: they
        are the terms' own arguments. Raises `MissingMessageError` if there is no such message.

        >>> with Bundle("inbox = { $user }: { unread }\\nunread = { $count } messages") as bundle:
        ...     bundle.variables("inbox")
        ['user', 'count']
        """
        return self._list_of(id, c.library.fluent_bundle_variables, "variables")

    def _list_of(self, id: str, call: Callable[..., int], what: str) -> list[str]:
        """What a call lists of a message."""
        key = encoded(id, "the id")
        listed, names = self._list(call, key, len(key))
        if listed == c.NO_MESSAGE:
            raise MissingMessageError(_missing(id, None, listed))
        if listed != c.READ:
            self._refuse(listed, f"the list of the {what} of {id!r}")
        return names

    def _list(self, call: Callable[..., int], *of: object) -> tuple[int, list[str]]:
        """The status of a call that lists, and the lines of its text."""
        text, kept = c.FluentText(), self._kept
        try:
            with kept.lock:
                listed = call(kept.handle, *of, text)
            return listed, c.lines_of(text)
        finally:
            c.library.fluent_free_text(text)

    @property
    def errors(self) -> list[SourceError]:
        """What is wrong with the sources: those that nest too deep, each error of the others, and each entry whose id
        was there before it.

        The sources are read for it once.
        """
        with self._lock:
            if self._is_unread:
                self._errors += source_errors(self._report(), self._sources, self._overriding)
                self._is_unread = False
            self._hush()
            return list(self._errors)

    def _report(self) -> list[str]:
        """The lines of what is wrong with the sources. Bundles that share what is kept find it once."""
        kept = self._kept
        if kept.report is None:
            listed, lines = self._list(c.library.fluent_bundle_errors)
            # A source that is rewritten has the same errors, at other places.
            if self._rewriting and any(line.startswith("source ") for line in lines):
                listed, lines = self._report_as_is()
            if listed != c.READ:
                self._refuse(listed, "the report")
            kept.report = lines
        return kept.report

    def _report_as_is(self) -> tuple[int, list[str]]:
        """The status of the report and its lines, with the places of the sources before they are rewritten."""
        alone, text = Kept([]), c.FluentText()
        try:
            asking = Asking(b"", True, self._overriding, False, self._stack, [])
            listed = read([source for _, source in self._sources], asking, alone.handle)
            if listed == c.READ:
                listed = c.library.fluent_bundle_errors(alone.handle, text)
            return listed, c.lines_of(text)
        finally:
            c.library.fluent_free_text(text)

    def _hush(self) -> None:
        """Warns of no error: the program has them, reports them in another way, or wants none of them."""
        self._warns = False
        self._quick = self._calls

    def _warn(self) -> None:
        """Warns of the errors of the sources, at which nobody has looked. Of the threads that ask at first one warns."""
        with self._lock:
            errors = self.errors if self._warns else []
        if self._overriding:
            errors = [error for error in errors if error.kind != "Overriding"]
        if errors:
            shown = [str(error) for error in errors[:_SHOWN]]
            if len(errors) > _SHOWN:
                shown.append(f"and {len(errors) - _SHOWN} more: Bundle.errors has them all")
            warnings.warn("; ".join(shown), FluentWarning, stacklevel=3)

    def close(self) -> None:
        """Frees the bundle. It can't be asked then."""
        with self._lock:
            self._kept = Kept([])
            if self._calls:
                self._calls.close()
            for bundle in [*self._shown.values(), *([self._showing] if self._showing else [])]:
                bundle.close()
        self._spare.clear()

    def __enter__(self) -> Bundle:
        return self

    def __exit__(
        self,
        kind: type[BaseException] | None,
        error: BaseException | None,
        trace: TracebackType | None,
    ) -> None:
        self.close()

    def __reduce__(self) -> NoReturn:
        raise TypeError("a bundle is neither copied nor pickled: make another one of the sources")

    def _refuse(self, status: int, what: str) -> NoReturn:
        if status == c.NO_BUNDLE:
            raise FluentError("the bundle is closed")
        if status == c.NO_MEMORY:
            raise MemoryError(f"{what} nests too deep for {self._stack} bytes of the stack, or memory ran out")
        raise FluentError(f"the library refuses {what}: status {status}")


def _texts_of(sources: str | Iterable[str]) -> list[bytes]:
    """The sources in UTF-8."""
    if isinstance(sources, (bytes, bytearray, memoryview, os.PathLike)) or not isinstance(sources, Iterable):
        raise TypeError(f"a source is a text, and Bundle.from_files reads files: {type(sources).__name__}")
    texts = [sources] if isinstance(sources, str) else list(sources)
    for number, text in enumerate(texts, 1):
        if isinstance(text, str) and _NAME.fullmatch(text):
            raise ValueError(f"source {number} is a name, and not a source: {text!r}; Bundle.from_files reads files")
    return [encoded(text, "source", number) for number, text in enumerate(texts, 1)]


def _file(path: str | os.PathLike[str]) -> tuple[str, bytes]:
    """The name of a file, and its text in UTF-8."""
    name = os.fspath(path)
    text = Path(name).read_bytes().removeprefix(b"\xef\xbb\xbf")
    try:
        text.decode()
    except UnicodeDecodeError as error:
        raise ValueError(f"{name} isn't UTF-8: {error}") from error
    return name, text


def _budget(stack: SupportsIndex) -> int:
    """A budget of the stack that this thread has."""
    try:
        budget = stack.__index__()
    except AttributeError:
        raise TypeError(f"the budget of the stack isn't a number of bytes: {type(stack).__name__}") from None
    has = _thread_stack()
    if budget < 0 or budget > max(has - _BESIDE, c.THREAD_STACK):
        needs = f"this thread has {has} bytes, and needs {_BESIDE} more"
        raise ValueError(f"the budget of the stack is too large, or negative: {budget}; {needs}")
    return budget


def _thread_stack() -> int:
    """How many bytes of stack this thread has."""
    is_main = threading.current_thread() is threading.main_thread()
    if not is_main and threading.stack_size():
        return threading.stack_size()
    soft, _ = resource.getrlimit(resource.RLIMIT_STACK)
    if soft != resource.RLIM_INFINITY:
        return soft
    # Without a limit the main thread has what memory there is, and another 2 MB.
    return 2**63 if is_main else 2 * 2**20


def _missing(id: str, attribute: str | None, status: int) -> str:
    if status == c.NO_MESSAGE:
        return f"there is no message {id!r}"
    if attribute:
        return f"the message {id!r} has no attribute {attribute!r}"
    return f"the message {id!r} has no value"
