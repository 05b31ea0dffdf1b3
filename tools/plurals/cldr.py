"""Reads the plural rules of Unicode CLDR: `plurals.xml` and `ordinals.xml`, as its `common/supplemental` has them."""

import re
import xml.etree.ElementTree as ElementTree
from decimal import Decimal
from pathlib import Path
from typing import NamedTuple

CATEGORIES = ["zero", "one", "two", "few", "many", "other"]
# The best known language of a set names it; of none of these, the first does.
WELL_KNOWN = (
    "en zh hi es fr ar bn pt ru ur id de ja tr te ta ko vi it pl uk ro nl cs sv hu el he fa da hr lt sl lv et pa".split()
)


class Relation(NamedTuple):
    """A relation such as `n % 100 != 12..14`."""

    operand: str
    modulus: int | None
    negated: bool
    ranges: tuple[tuple[int, int], ...]

    @property
    def value(self) -> int | None:
        """The one value that is compared with, if there is only one."""
        first, last = self.ranges[0]
        return first if len(self.ranges) == 1 and first == last else None


class Rule(NamedTuple):
    """The category of a rule, its text, and the condition: relations joined by `and`, and these by `or`."""

    category: str
    text: str
    condition: list[list[Relation]]


class RuleSet(NamedTuple):
    """Rules that some languages share. The category `other` has no rule."""

    locales: list[str]
    rules: list[Rule]
    # each with its category, as the file writes it: `2~4`, `0.0`, `1c6`
    samples: list[tuple[str, str]]

    @property
    def name(self) -> str:
        """The name of the set, after one of its languages."""
        return next((known for known in WELL_KNOWN if known in self.locales), self.locales[0])


class Kind(NamedTuple):
    """Rules for counts, or for places in an order."""

    name: str
    purpose: str
    sets: list[RuleSet]


def kinds(folder: str) -> list[Kind]:
    """The rules that the two files of a folder have."""
    return [
        Kind("cardinal", "counts", rule_sets(Path(folder, "plurals.xml"))),
        Kind("ordinal", "places in an order", rule_sets(Path(folder, "ordinals.xml"))),
    ]


def rule_sets(path: Path) -> list[RuleSet]:
    """The sets of rules of a file, in its order."""
    sets = [rule_set(node) for node in ElementTree.parse(path).getroot().iter("pluralRules")]
    names = [rules.name for rules in sets]
    assert len(set(names)) == len(names), f"{path}: two sets have one name"
    return sets


def rule_set(node: ElementTree.Element) -> RuleSet:
    """A set of rules from its element."""
    rules, samples = [], []
    for child in node.iter("pluralRule"):
        category = child.attrib["count"]
        text, *groups = (child.text or "").split("@")
        text = text.strip()
        if category != "other":
            rules.append(Rule(category, text, condition(text)))
        else:
            assert text == "", "`other` has a rule"
        for group in groups:
            _, listed = group.split(None, 1)
            texts = (part.strip() for part in listed.split(","))
            samples += [(category, part) for part in texts if part not in ("", "…")]
    return RuleSet(node.attrib["locales"].split(), rules, samples)


def condition(text: str) -> list[list[Relation]]:
    """The condition that a text says."""
    return [[relation(part) for part in parts.split(" and ")] for parts in text.split(" or ")]


def relation(text: str) -> Relation:
    """The relation that a text says."""
    found = re.fullmatch(r"([niftvwce])(?: % (\d+))? (!?=) ([\d.,]+)", text)
    assert found, f"no relation: {text}"
    operand, modulus, sign, listed = found.groups()
    ranges = []
    for part in listed.split(","):
        ends = part.split("..")
        ranges.append((int(ends[0]), int(ends[-1])))
    # `c` is the older name of `e`
    return Relation("e" if operand == "c" else operand, int(modulus) if modulus else None, sign == "!=", tuple(ranges))


def numbers(sample: str) -> list[str]:
    """The numbers of a sample: `2~4` is three of them, `0.0~1.5` sixteen."""
    if "~" not in sample:
        return [sample]
    first, last = sample.split("~")
    step = Decimal(1).scaleb(-len(first.partition(".")[2]))
    value, texts = Decimal(first), []
    while value <= Decimal(last):
        texts.append(str(value))
        value += step
    return texts
