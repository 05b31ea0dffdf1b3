"""What the table of the library's functions has that the one of the package for Python hasn't, and the other way round."""
import importlib.util
import re

CODE = 'crates/lint_flaws/src/builtins.rt'
PACKAGE = 'bindings/python/kozhvadi/_builtins.py'
ROW = re.compile(r'Builtin \{\s*name: "(\w+)",\s*operand: Operand::(\w+),\s*options: &\[(.*?)\n {4,8}\],'
                 r'\s*styles: &\[(.*?)\],\s*components: &\[(.*?)\],', re.S)
OPTION = re.compile(r'FunctionOption \{\s*name: "(\w+)",\s*takes: Takes::(\w+)(?:\(&\[(.*?)\]\))?,\s*\}', re.S)
TEXT = re.compile(r'"(.*?)"')
TAKES = {'Number': 'a number', 'AnyText': 'any text'}
OPERANDS = {'Number': 'a number', 'Date': 'a date'}


def of_code(root):
    """The rows of the library."""
    for name, operand, options, styles, components in ROW.findall((root / CODE).read_text()):
        taken = {option: tuple(TEXT.findall(texts)) if takes == 'OneOf' else TAKES[takes]
                 for option, takes, texts in OPTION.findall(options)}
        yield name, OPERANDS[operand], [*taken.items()], TEXT.findall(styles), TEXT.findall(components)


def of_package(root):
    """The rows of the package."""
    spec = importlib.util.spec_from_file_location('_builtins_of_package', root / PACKAGE)
    module = importlib.util.module_from_spec(spec)
    spec.loader.exec_module(module)
    for name, row in module.BUILTINS.items():
        options = [(option, known.takes) for option, known in row.options.items()]
        yield name, row.operand, options, [*row.styles], [*row.components]


def differences(root):
    """A line for each row that only one of both has."""
    library, package = [*of_code(root)], [*of_package(root)]
    if not library:
        yield f'{CODE}: no row of a function is found'
    for rows, others, place in ((library, package, PACKAGE), (package, library, CODE)):
        for row in rows:
            if row not in others:
                yield f'{place}: has not this row: {row}'
