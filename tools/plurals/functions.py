"""The functions of the rules, as one would write them by hand, each with its definition as its contract."""

import textwrap

from cldr import Kind, Relation, Rule, RuleSet

# Whether a number is whole, and its whole part.
WHOLE = ["    let whole = o.n.fraction() == 0;", "    let n = o.n.whole();"]
# The same where no rule holds of a fraction.
WHOLE_ALONE = ["    if o.n.fraction() != 0 {", "        return PluralCategory::OTHER;", "    }", "    let n = o.n.whole();"]


def documented(text: str, indent: str = "") -> list[str]:
    """The lines of a doc comment."""
    return textwrap.wrap(text, 110, initial_indent=f"{indent}/// ", subsequent_indent=f"{indent}/// ", break_on_hyphens=False)


def languages(rules: RuleSet) -> str:
    """The languages of a set, as a doc comment lists them."""
    return ", ".join(f"`{locale.replace('_', '-')}`" for locale in rules.locales)


def numeral(number: int) -> str:
    """A number, with its digits in groups if there are many."""
    return f"{number:_}" if number >= 10000 else str(number)


def test(relation: Relation) -> str:
    """The test of a relation, for a number that is whole where the relation is on `n`."""
    left = "n" if relation.operand == "n" else f"o.{relation.operand}"
    if relation.modulus:
        left += f" % {numeral(relation.modulus)}"
    if relation.value is not None:
        return f"{left} {'!=' if relation.negated else '=='} {numeral(relation.value)}"
    ranges = " | ".join(
        numeral(first) if first == last else f"{numeral(first)}..={numeral(last)}" for first, last in relation.ranges
    )
    return f"{'!' if relation.negated else ''}matches!({left}, {ranges})"


def needs_whole(relation: Relation) -> bool:
    """Whether a relation holds of whole numbers alone."""
    return relation.operand == "n" and not relation.negated


def ordered(relations: list[Relation]) -> list[Relation]:
    """The relations with those that need a whole number before the others on `n`, which then may lean on it."""
    needing = [relation for relation in relations if needs_whole(relation)]
    if not needing:
        return relations
    others = [relation for relation in relations if relation.operand != "n"]
    negated = [relation for relation in relations if relation.operand == "n" and relation.negated]
    return others + needing + negated


def conjunction(relations: list[Relation]) -> str | None:
    """The test of relations joined by `and`, or None if it never holds. `e` is 0 for every number."""
    tests: list[str] = []
    for relation in ordered(relations):
        if relation.operand == "e":
            if any(first <= 0 <= last for first, last in relation.ranges) == relation.negated:
                return None
        elif needs_whole(relation):
            tests += [test(relation)] if "whole" in tests else ["whole", test(relation)]
        elif relation.operand == "n" and "whole" not in tests:
            tests.append(f"!(whole && {test(relation._replace(negated=False))})")
        else:
            tests.append(test(relation))
    return " && ".join(tests)


def rule_test(rule: Rule) -> str:
    """The test of a rule."""
    return " || ".join(found for relations in rule.condition if (found := conjunction(relations)) is not None)


def is_for_whole_numbers(rules: RuleSet) -> bool:
    """Whether each alternative of each rule needs a whole number."""
    return all(any(map(needs_whole, relations)) for rule in rules.rules for relations in rule.condition)


def split_function(rules: RuleSet, rule: Rule) -> list[str]:
    """The function of a rule that has one of its own."""
    text = rule_test(rule)
    return [
        *documented(f"`{rule.text}`"),
        f"fn {rules.name}_{rule.category}(o: &PluralOperands) -> bool",
        f"    ensures {{ result ≡ holds rules.{rules.name}_{rule.category} o.now }}",
        "{",
        *(WHOLE if "whole" in text else []),
        f"    {text}",
        "}",
        "",
    ]


def function(rules: RuleSet, is_split: bool) -> list[str]:
    """The function of a set of rules."""
    tests = [f"{rules.name}_{rule.category}(o)" if is_split else rule_test(rule) for rule in rules.rules]
    opening: list[str] = []
    if not is_split and is_for_whole_numbers(rules):
        opening = WHOLE_ALONE
        tests = [text.replace("whole && ", "") for text in tests]
    elif any("whole" in text for text in tests):
        opening = WHOLE
    lines = [
        *documented(f"The rules of {languages(rules)}."),
        "///",
        *(f"/// - `{rule.category}`: `{rule.text}`" for rule in rules.rules),
        f"pub(crate) fn {rules.name}(o: &PluralOperands) -> PluralCategory",
        f"    ensures {{ result ≡ category_by rules.{rules.name} o.now }}",
        "{",
        *opening,
    ]
    for place, (text, rule) in enumerate(zip(tests, rules.rules)):
        lines.append(f"    {'if' if place == 0 else '} else if'} {text} {{")
        lines.append(f"        PluralCategory::{rule.category.upper()}")
    lines += ["    } else {", "        PluralCategory::OTHER", "    }", "}", ""]
    if is_split:
        lines += [line for rule in rules.rules for line in split_function(rules, rule)]
    return lines


def rules_module(kind: Kind, head: str, split: list[str]) -> str:
    """The module with the functions of a kind."""
    sets = [rules for rules in kind.sets if rules.rules]
    cited = "category_by, holds" if any(rules.name in split for rules in sets) else "category_by"
    lines = [
        f"//! The rules for {kind.purpose}. Each set is named after one of its languages.",
        f"// {head}",
        "ghost use Rattle.std.specs.Prelude.{◌≡◌};",
        f"ghost use Rattle.fluent_plurals.specs.Conditions.{{{cited}}};",
        f"ghost use Rattle.fluent_plurals.specs.{kind.name.capitalize()} as rules;",
        "",
        "use fluent_number::{PluralCategory, PluralOperands};",
        "",
        *(line for rules in sets for line in function(rules, rules.name in split)),
    ]
    return "\n".join(lines).rstrip() + "\n"


def sets_enum(kind: Kind) -> list[str]:
    """The type of the sets of a kind."""
    lines = [
        f"/// The sets of rules for {kind.purpose}. Each is named after one of its languages.",
        "#[derive(Clone, Copy, Debug, PartialEq, Eq)]",
        f"pub(crate) enum {kind.name.capitalize()} {{",
        "    /// No rule: every number is `other`.",
        "    Root,",
    ]
    for rules in kind.sets:
        if rules.rules:
            lines += [*documented(f"{languages(rules)}.", "    "), f"    {rules.name.capitalize()},"]
    return [*lines, "}", ""]


def sets_impl(kind: Kind) -> list[str]:
    """The categories by the sets of a kind."""
    module = kind.name.capitalize()
    lines = [
        f"impl {module} {{",
        "    /// The category of a number with these operands.",
        "    pub(crate) fn category(self, operands: &PluralOperands) -> PluralCategory",
        f"        ensures {{ result ≡ category_by ({kind.name}_rules self) operands.now }}",
        "    {",
        "        match self {",
        f"            {module}::Root => PluralCategory::OTHER,",
    ]
    for rules in kind.sets:
        if rules.rules:
            lines.append(f"            {module}::{rules.name.capitalize()} => {kind.name}::{rules.name}(operands),")
    return [*lines, "        }", "    }", "}", ""]


def sets_module(kinds: list[Kind], head: str) -> str:
    """The module with the sets of both kinds."""
    lines = [
        "//! The sets of rules.",
        f"// {head}",
        "ghost use Rattle.std.specs.Prelude.{◌≡◌};",
        "ghost use Rattle.fluent_plurals.specs.Conditions.{category_by};",
        "ghost use Rattle.fluent_plurals.specs.Sets.{cardinal_rules, ordinal_rules};",
        "",
        "use crate::{cardinal, ordinal};",
        "use fluent_number::{PluralCategory, PluralOperands};",
        "",
        *(line for kind in kinds for line in sets_enum(kind)),
        *(line for kind in kinds for line in sets_impl(kind)),
    ]
    return "\n".join(lines).rstrip() + "\n"


def table_module(rows: list[tuple[str, str, str]], head: str) -> str:
    """The module with the table of languages."""
    lines = [
        "//! Which language has which rules.",
        f"// {head}",
        "use crate::language::Language;",
        "use crate::sets::{Cardinal, Ordinal};",
        "",
        "/// The languages that have rules, by their tags in small letters. A longer tag stands before one that it begins with.",
        f"pub(crate) const LANGUAGES: [Language; {len(rows)}] = [",
        *(f'    Language("{tag}", Cardinal::{cardinal}, Ordinal::{ordinal}),' for tag, cardinal, ordinal in rows),
        "];",
    ]
    return "\n".join(lines) + "\n"
