"""Sources and their tokens, for tests of highlighters."""

from kozhvadi import lint
from kozhvadi._tokens import Tokens

from .test_places import Written, sources_of_the_repository


def sources(count=60):
    """Sources that can be read: those of the repository, and some made by chance, with line ends of one kind."""
    made = [Written(seed).source() for seed in range(count)]
    for source in [*sources_of_the_repository(), *made]:
        text = source.replace("\r\n", "\n")
        if not any(0 < ord(each) < 32 and each != "\n" for each in text) and "\0" not in text and is_read(text):
            yield text


def is_read(source):
    try:
        return not any(each.code in ("syntax", "byte-order-mark") for each in lint({"": source}).findings)
    except MemoryError:
        return False


def tokens(source):
    """The tokens of a source, without signs that highlighters need not tell from each other."""
    data = source.encode()
    for each in Tokens(data).tokens:
        if each.kind == "sign" and data[each.start : each.end] not in (b"=", b"->", b"*"):
            continue
        yield each
