"""The definitions of the rules, in the words of `crates/fluent_plurals/specs/Conditions.antt`."""

from cldr import CATEGORIES, Kind, Relation, Rule, RuleSet

WIDTH = 110
CRATE = "Rattle.fluent_plurals.specs"
# What a condition is written with, as it is imported.
NAMES = ["n", "i", "v", "w", "f", "t", "e", "only"]
OPERATORS = ["modulo", "‥", "∪", "∈", "∉", "equals", "differs_from", "and", "or", "when"]


def values(relation: Relation) -> str:
    """The values of a relation."""
    return " ∪ ".join(f"only {first}" if first == last else f"{first} ‥ {last}" for first, last in relation.ranges)


def term(relation: Relation) -> str:
    """A relation."""
    left = relation.operand + (f" modulo {relation.modulus}" if relation.modulus else "")
    if relation.value is not None:
        return f"{left} {'differs_from' if relation.negated else 'equals'} {relation.value}"
    return f"{left} {'∉' if relation.negated else '∈'} {values(relation)}"


def alternatives(rule: Rule, before: str) -> str:
    """The condition of a rule, on a line of its own for each `or` where one line would be too long."""
    parts = [" and ".join(map(term, relations)) for relations in rule.condition]
    line = " or ".join(parts)
    return line if len(before + line) <= WIDTH else "\n      or ".join(parts)


def definition(rules: RuleSet, is_split: bool) -> list[str]:
    """The lines that define a set of rules; its conditions have names of their own if it is split."""
    name, before, body = rules.name, [], []
    for rule in rules.rules:
        words = alternatives(rule, f"    ({rule.category.upper()} when ")
        if is_split:
            condition = f"{name}_{rule.category}"
            before += [f"abbrev pub {condition} : Condition", f"{condition} = {words}", ""]
            words = condition
        body.append(f"  ({rule.category.upper()} when {words}) ∷")
    return [f"-- {' '.join(rules.locales)}", *before, f"abbrev pub {name} : List Rule", f"{name} =", *body, "  []", ""]


def imported(lines: list[str]) -> str:
    """The words of conditions that lines have, as an import names them."""
    found = {word for line in lines if not line.startswith("--") for word in line.replace("(", " ").split()}
    return ", ".join([name for name in NAMES if name in found] + [f"◌{word}◌" for word in OPERATORS if word in found])


def rules_module(kind: Kind, head: str, split: list[str]) -> str:
    """The module that defines the rules of a kind."""
    sets = [rules for rules in kind.sets if rules.rules]
    body = [line for rules in sets for line in definition(rules, rules.name in split)]
    used = [name.upper() for name in CATEGORIES if any(rule.category == name for rules in sets for rule in rules.rules)]
    types = "Condition, Rule" if any(rules.name in split for rules in sets) else "Rule"
    lines = [
        f"-- {head}",
        f"-- The rules for {kind.purpose}. Each set is named after one of its languages.",
        "use Rattle.std.specs.Prelude.{List, [], ◌∷◌}",
        f"use Rattle.fluent_number.specs.declared.plural.PluralCategory.TheVariants.{{{', '.join(used)}}}",
        f"use {CRATE}.Conditions.{{{types}, {imported(body)}}}",
        "",
        *body,
    ]
    return "\n".join(lines).rstrip() + "\n"


def sets_module(kinds: list[Kind], head: str) -> str:
    """The module that says which rules each set has."""
    lines = [
        f"-- {head}",
        "-- The rules of each set.",
        "use Rattle.std.specs.Prelude.{List, []}",
        f"use {CRATE}.Conditions.{{Rule}}",
    ]
    for kind in kinds:
        module = kind.name.capitalize()
        lines += [
            f"use {CRATE}.{module} as {kind.name}",
            f"use {CRATE}.declared.sets.{module}.{{{module}}}",
            f"use {CRATE}.declared.sets.{module}.TheVariants as {kind.name}_set",
        ]
    for kind in kinds:
        function, sets = f"{kind.name}_rules", f"{kind.name}_set"
        lines += ["", f"abbrev pub {function} : {kind.name.capitalize()} → List Rule", f"{function} {sets}.Root = []"]
        for rules in kind.sets:
            if rules.rules:
                lines.append(f"{function} {sets}.{rules.name.capitalize()} = {kind.name}.{rules.name}")
    return "\n".join(lines) + "\n"


def table_module(rows: list[tuple[str, str, str]], head: str) -> str:
    """The module that says which sets of rules each language has."""
    lines = [
        f"-- {head}",
        "-- The languages that have rules: their tags in small letters, and their sets of rules for counts and for places in an",
        "-- order. A longer tag stands before one that it begins with.",
        "use Rattle.std.specs.Prelude.{List, [], ◌∷◌, codes}",
        f"use {CRATE}.Lookup.{{Entry}}",
        f"use {CRATE}.declared.sets.Cardinal.TheVariants as cardinal",
        f"use {CRATE}.declared.sets.Ordinal.TheVariants as ordinal",
        "",
        "abbrev pub languages : List Entry",
        "languages =",
        *(f'  (codes "{tag}", cardinal.{cardinal}, ordinal.{ordinal}) ∷' for tag, cardinal, ordinal in rows),
        "  []",
    ]
    return "\n".join(lines) + "\n"
