"""A small engine for grammars of TextMate: what each character of a source is, by its innermost scope.

It knows `match`, `begin` and `end` with their captures, `include` of the repository, and zero-width ends.
"""

import json
import re
from functools import lru_cache


@lru_cache(maxsize=None)
def _pattern(text):
    return re.compile(text)


class Grammar:
    def __init__(self, path):
        self.rules = json.loads(path.read_text(encoding="utf-8"))

    def _flat(self, patterns):
        for pattern in patterns:
            include = pattern.get("include")
            if not include:
                yield pattern
                continue
            rule = self.rules["repository"][include.removeprefix("#")]
            if "match" in rule or "begin" in rule:
                yield rule
            else:
                yield from self._flat(rule["patterns"])

    def scopes(self, source):
        """The innermost scope of each character of a text, or nothing."""
        found, stack = [], [self.rules]
        for line in source.splitlines(keepends=True) if "\r\n" not in source else _lines(source):
            names = [None] * len(line)
            self._line(line, names, stack)
            found += names
        return found

    def _line(self, line, names, stack):
        at, steps = 0, 0
        while at <= len(line):
            steps += 1
            assert steps < 10_000, "the grammar doesn't go on"
            rule = stack[-1]
            best = _pattern(rule["end"]).search(line, at) if "end" in rule else None
            chosen = rule if best else None
            is_end = best is not None
            for pattern in self._flat(rule["patterns"] if "patterns" in rule else []):
                match = _pattern(pattern.get("match") or pattern["begin"]).search(line, at)
                if match and (best is None or match.start() < best.start()):
                    best, chosen, is_end = match, pattern, False
            if best is None:
                self._fill(names, at, len(line), rule)
                return
            self._fill(names, at, best.start(), rule)
            self._fill(names, *best.span(), chosen)
            key = "endCaptures" if is_end else "beginCaptures" if "begin" in chosen else "captures"
            for number, capture in chosen.get(key, {}).items():
                if best.start(int(number)) >= 0:
                    self._fill(names, *best.span(int(number)), capture)
            if is_end:
                stack.pop()
            elif "begin" in chosen:
                stack.append(chosen)
            elif best.end() == at:
                return
            at = best.end()
            if at == len(line) and not is_end:
                return

    @staticmethod
    def _fill(names, start, end, rule):
        if rule.get("name") and "scopeName" not in rule:
            names[start:end] = [rule["name"]] * (end - start)


def _lines(source):
    """Lines that end in LF: TextMate takes CR for a character of the line."""
    return [f"{line}\n" for line in source.split("\n")[:-1]] + ([source.split("\n")[-1]] if source[-1:] != "\n" else [])
