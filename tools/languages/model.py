"""A model of negotiation, written from docs/reference/languages.md without a look at the crate."""
import re

LANGUAGE = re.compile(r'[A-Za-z]{2,3}|[A-Za-z]{5,8}')
SCRIPT = re.compile(r'[A-Za-z]{4}')
REGION = re.compile(r'[A-Za-z]{2}|[0-9]{3}')
VARIANT = re.compile(r'[A-Za-z0-9]{5,8}|[0-9][A-Za-z0-9]{3}')


def rows(path):
    """The words of each line in small letters, of which `-` is none."""
    lines = [line for line in path.read_text().splitlines() if not line.startswith('#')]
    return [['' if word == '-' else word.lower() for word in line.split()] for line in lines]


def parse(text):
    """The language, the script, the region and the variants of a tag in small letters, or `None`."""
    language, *rest = re.split('[-_]', text.lower())
    script = rest.pop(0) if rest and SCRIPT.fullmatch(rest[0]) else ''
    region = rest.pop(0) if rest and REGION.fullmatch(rest[0]) else ''
    is_tag = LANGUAGE.fullmatch(language) and all(VARIANT.fullmatch(part) for part in rest)
    return (language, script, region, tuple(rest)) if is_tag else None


def covers(one, other):
    """Whether the parts of a tag are parts of another."""
    return one[0] == other[0] and all(not part or part == whole for part, whole in zip(one[1:], other[1:]))


def fit(one, other):
    return not one or not other or one == other


class Model:
    def __init__(self, data):
        self.likely = {(language, script, region): (full, at) for language, script, region, full, at
                       in rows(data / 'likely.txt')}
        self.aliases = {row[0]: (row + [''])[1:3] for row in rows(data / 'aliases.txt')}
        groups = rows(data / 'clusters.txt')
        self.groups = {row[0]: set(row[2:]) for row in groups}
        self.standing = {row[0]: row[1] for row in groups if row[1]}

    def maximize(self, tag):
        language, script, region, variants = tag
        rest = self.likely.get((language, '', ''), ('', ''))
        in_region = self.likely.get((language, '', region), rest) if region else rest
        in_script = self.likely.get((language, script, ''), rest) if script else rest
        return language, script or in_region[0], region or in_script[1], variants

    def place(self, tag):
        """A tag as it is written, by the newer code of its language, and maximized."""
        language, script, region, variants = tag
        newer, of_newer = self.aliases.get(language, (language, ''))
        modern = newer, script or of_newer, region, variants
        return tag, modern, self.maximize(modern)

    def is_apart(self, tag):
        return tag[2] in self.groups.get(tag[0], ())

    def suits(self, way, request, offer):
        (asked, asked_modern, asked_full), (offered, modern, full) = request, offer
        has_script = fit(asked_full[1], full[1])
        is_near = has_script and self.is_apart(asked_full) == self.is_apart(full)
        has_language = modern[0] == asked_full[0]
        main = self.maximize((*asked_full[:2], '', ()))
        return [
            offered == asked,
            covers(modern, asked_modern) and is_near,
            covers(modern, asked_full) and is_near,
            has_language and fit(modern[1], asked_full[1]) and fit(modern[2], asked_full[2]) and is_near,
            has_language and modern[0] in self.standing and self.standing[modern[0]] == modern[2] and is_near,
            has_language and modern[0] in self.groups and is_near,
            covers(modern, main) and has_script,
            has_language and has_script,
            has_language and modern[0] == 'sr',
        ][way]

    def read(self, text):
        return parse(text)

    def last_of(self, default):
        """The last resort, if it counts."""
        return default

    def is_done(self, found, more):
        """Whether `lookup` ends, by what was found and what was found for this request."""
        return found

    def negotiate(self, requested, available, default, strategy):
        offers = [(at, self.place(tag)) for at, tag in enumerate(map(self.read, available)) if tag]
        found, default = [], self.last_of(default)
        for request in [self.place(tag) for tag in map(self.read, requested) if tag]:
            more = []
            for way in range(9):
                more += [at for at, offer in offers
                         if at not in found and at not in more and self.suits(way, request, offer)]
            found += more if strategy == 'filtering' else more[:1]
            if strategy == 'lookup' and self.is_done(found, more):
                break
        texts = [available[at] for at in found]
        if default and (not texts if strategy == 'lookup' else self.read(default) not in map(self.read, texts)):
            texts.append(default)
        return texts
