#!/usr/bin/env python3
"""Changes all translations as the texts that they are translated from were changed.

    migrate.py FOLDER [--id OLD=NEW].. [--variable ID.OLD=NEW].. [--remove ID].. [--write]

Say that a program's texts now say `{ $person }` where they said `{ $name }`, and that a message has another id. Then each
translation has to follow, in the message and in those that refer to it, and this program does it for all files *.ftl below
a folder. Without `--write` it shows what it would change.

A file in which something can't be read is reported and stays as it is: its junk may be the very message that is changed.
It ends with 1 if there is such a file. It needs the module kozhvadi: in the repository, put bindings/python into PYTHONPATH.
"""
import argparse
import difflib
import sys
from pathlib import Path

from kozhvadi.syntax import Transformer, Visitor, ast, parse, serialize


class Changes(Transformer):
    """What is done to the tree of a file."""

    def __init__(self, ids: dict[str, str], variables: dict[str, dict[str, str]], removed: set[str]) -> None:
        self.ids, self.variables, self.removed = ids, variables, removed
        # The variables of the message that is visited, by their old names.
        self.renamed: dict[str, str] = {}

    def visit_Message(self, node: ast.Message) -> ast.Message | None:
        if node.id.name in self.removed:
            return None
        self.renamed = self.variables.get(node.id.name, {})
        self.generic_visit(node)
        node.id.name = self.ids.get(node.id.name, node.id.name)
        return node

    def visit_Term(self, node: ast.Term) -> ast.Term:
        # The variables of a term are its own.
        self.renamed = {}
        self.generic_visit(node)
        return node

    def visit_MessageReference(self, node: ast.MessageReference) -> ast.MessageReference:
        node.id.name = self.ids.get(node.id.name, node.id.name)
        return node

    def visit_VariableReference(self, node: ast.VariableReference) -> ast.VariableReference:
        node.id.name = self.renamed.get(node.id.name, node.id.name)
        return node

    def visit_Comment(self, node: ast.Comment) -> ast.Comment:
        # The comment of a message says what its variables are: `# $name (String) - who is greeted`.
        lines = (node.content or '').split('\n')
        node.content = '\n'.join(map(self.commented, lines))
        return node

    def commented(self, line: str) -> str:
        """A line of a comment that describes a variable, with its new name."""
        name, blank, rest = line.partition(' ')
        new = self.renamed.get(name.removeprefix('$'))
        return f'${new}{blank}{rest}' if name.startswith('$') and new else line


class Removed(Visitor):
    """The references to messages that are removed, which nobody can repair but a person."""

    def __init__(self, removed: set[str]) -> None:
        self.removed, self.places = removed, []

    def visit_MessageReference(self, node: ast.MessageReference) -> None:
        if node.id.name in self.removed:
            self.places.append((node.span.start, node.id.name))


def line_of(source: str, index: int) -> int:
    return source.count('\n', 0, index) + 1


def changed(path: Path, source: str, changes: Changes) -> str | None:
    """The text of a file after the changes, or nothing if it can't be read."""
    resource = parse(source)
    junk = [entry for entry in resource.body if isinstance(entry, ast.Junk)]
    for stretch in junk:
        for note in stretch.annotations:
            print(f'{path}:{line_of(source, note.span.start)}: {note.message}', file=sys.stderr)
    if junk:
        return None
    references = Removed(changes.removed)
    references.visit(resource)
    for start, id in references.places:
        print(f'{path}:{line_of(source, start)}: refers to {id}, which is removed', file=sys.stderr)
    untouched = serialize(resource)
    written = serialize(changes.visit(resource))
    # A file that the changes don't concern keeps its layout, too.
    return source if written == untouched else written


def pair(text: str) -> tuple[str, str]:
    old, sign, new = text.partition('=')
    if not sign:
        raise argparse.ArgumentTypeError(f'{text!r} has no "="')
    return old, new


def options() -> argparse.Namespace:
    parser = argparse.ArgumentParser(description=__doc__.partition('\n')[0])
    parser.add_argument('folder', type=Path)
    parser.add_argument('--id', type=pair, action='append', default=[], metavar='OLD=NEW')
    parser.add_argument('--variable', type=pair, action='append', default=[], metavar='ID.OLD=NEW')
    parser.add_argument('--remove', action='append', default=[], metavar='ID')
    parser.add_argument('--write', action='store_true')
    return parser.parse_args()


def main() -> int:
    asked = options()
    variables: dict[str, dict[str, str]] = {}
    for old, new in asked.variable:
        id, _, name = old.partition('.')
        variables.setdefault(id, {})[name] = new
    changes = Changes(dict(asked.id), variables, set(asked.remove))
    status = 0
    for path in sorted(asked.folder.rglob('*.ftl')):
        with path.open(encoding='utf-8', newline='') as file:
            source = file.read()
        text = changed(path, source, changes)
        if text is None:
            status = 1
        elif text != source and asked.write:
            path.write_text(text, encoding='utf-8', newline='')
            print(f'{path}: changed')
        elif text != source:
            lines = difflib.unified_diff(source.splitlines(), text.splitlines(), str(path), str(path), lineterm='')
            print('\n'.join(lines))
    return status


if __name__ == '__main__':
    sys.exit(main())
