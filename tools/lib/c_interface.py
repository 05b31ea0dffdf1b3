"""The interface of the library for C, as each of the four places has it that speak of it: the header, the library's own code, and
the packages for Rust and Python. tools/house/check.py holds the other three against the header.

Each is read as numbers, structs and calls, whose types are those of C.
"""
from __future__ import annotations

import ast
import ctypes
import re
from pathlib import Path
from types import SimpleNamespace
from typing import Iterator, NamedTuple

# Names and their types.
Named = list[tuple[str, str]]


class Call(NamedTuple):
    parameters: Named
    result: str


class Interface(NamedTuple):
    numbers: dict[str, int]
    structs: dict[str, Named]
    calls: dict[str, Call]


# What a type of Rust is in C. A pointer to bytes that may change is the library's own.
SCALARS = {'bool': 'bool', 'usize': 'size_t', 'u8': 'uint8_t', 'u32': 'uint32_t', 'u64': 'uint64_t', 'i16': 'int16_t', 'i32': 'int32_t',
           'i64': 'int64_t'}
OWNED = 'void *'
# A struct for C.
REPR_C = r'^#\[repr\(C\)\]\n(?:#\[[^\n]*\n)*pub struct (\w+)(?:<.*?>)? \{(.*?)^\}'


def in_c(kind: str) -> str:
    """The type of C that a type of Rust without pointers is."""
    return SCALARS.get(kind, f'struct {kind}')


def named_in(text: str) -> Named:
    """The names and types of a list such as `text: &[u8], made: &mut FluentText`."""
    return [(name, kind) for name, _, kind in (each.strip().partition(': ') for each in text.split(',')) if name]


def without_comments(text: str, comment: str) -> str:
    return re.sub(comment, '', text, flags=re.S | re.M)


def of_header(text: str) -> Interface:
    text = without_comments(text, r'/\*.*?\*/').replace(' FLUENT_ZERO', '')
    numbers = {name: int(number) for name, number in re.findall(r'^#define (FLUENT_\w+) (\d+)$', text, re.M)}

    def declared(words: str) -> tuple[str, str]:
        kind, name = re.fullmatch(r'(.*?)(\w+)', ' '.join(words.split())).groups()
        return name, kind.strip()

    structs = {name: [declared(field) for field in body.split(';') if field.strip()]
               for name, body in re.findall(r'^struct (\w+) \{(.*?)^\};', text, re.M | re.S)}
    calls = {name: Call([declared(each) for each in parameters.split(',') if each.strip() != 'void'], result)
             for result, name, parameters in re.findall(r'^(\w+) (fluent_\w+)\(([^)]*)\);', text, re.M)}
    return Interface(numbers, structs, calls)


def expanded(named: Named) -> Iterator[tuple[str, str]]:
    """Fields or parameters of the library's code, as C has them: a slice is a pointer and a length, and an allocator is nothing."""
    for name, kind in named:
        kind = re.sub(r"'\w+ |<'\w+>", '', kind)
        shape = re.fullmatch(r'(&mut |&|\*const |\*mut )?(\[)?(\w+)\]?', kind)
        pointer, is_slice, pointed = shape.groups()
        if kind == 'Global':
            continue
        if pointer == '*mut ':
            yield name, OWNED
        elif pointer:
            yield name, f'{"" if pointer == "&mut " else "const "}{in_c(pointed)} *'
        else:
            yield name, in_c(pointed)
        if is_slice:
            yield '', 'size_t'


def library_structs(text: str) -> dict[str, Named]:
    """The structs that the library's own code has for C, with its types."""
    text = without_comments(text, r'^ *//.*?$|^ *pub ghost .*?$')
    return {name: named_in(body.replace('pub ', '')) for name, body in re.findall(REPR_C, text, re.M | re.S)}


def library_calls(text: str) -> dict[str, Call]:
    """The calls that the library's own code exports, with its types."""
    return {name: Call(named_in(parameters), result)
            for name, parameters, result in re.findall(r'pub extern "C" fn (\w+)(?:<[^>]*>)?\(([^)]*)\)(?: -> (\w+))?', text)}


def of_library(text: str) -> Interface:
    """That of the library's own code. What is the length of a slice in C has no name there."""
    numbers = {name: int(number) for name, number in re.findall(r'^pub const (FLUENT_\w+): \w+ = (\d+);', text, re.M)}
    structs = {name: [*expanded(fields)] for name, fields in library_structs(text).items()}
    calls = {name: Call([*expanded(call.parameters)], SCALARS[call.result] if call.result else 'void')
             for name, call in library_calls(text).items()}
    return Interface(numbers, structs, calls)


def of_rust(text: str) -> Interface:
    text = without_comments(text, r'^ *//.*?$')
    numbers = {name: int(number) for name, number in re.findall(r'^pub const (FLUENT_\w+): \w+ = (\d+);', text, re.M)}

    def named(words: str) -> Named:
        return [*expanded(named_in(words.replace('pub ', '')))]

    def parameters(words: str) -> Named:
        """A pointer to what a call changes is a `*mut` here."""
        return [(name, f'{in_c(kind.removeprefix("*mut "))} *' if kind.startswith('*mut ') else made)
                for (name, kind), (_, made) in zip(named_in(words), named(words))]

    structs = {name: named(body) for name, body in re.findall(REPR_C, text, re.M | re.S)}
    calls = {name: Call(parameters(words), SCALARS[result] if result else 'void')
             for name, words, result in re.findall(r'pub fn (fluent_\w+)\(([^)]*)\)(?: -> (\w+))?;', text)}
    return Interface(numbers, structs, calls)


# What types of ctypes are in C, but for `const`, which they haven't.
CTYPES = {ctypes.c_char_p: 'uint8_t *', ctypes.c_void_p: OWNED, ctypes.c_bool: 'bool', ctypes.c_size_t: 'size_t',
          ctypes.c_uint8: 'uint8_t', ctypes.c_int16: 'int16_t', ctypes.c_int32: 'int32_t', ctypes.c_uint32: 'uint32_t',
          ctypes.c_int64: 'int64_t', ctypes.c_uint64: 'uint64_t', None: 'void'}


def of_ctypes(kind: object) -> str:
    """The type of C, without `const`."""
    if kind in CTYPES:
        return CTYPES[kind]
    if hasattr(kind, '_type_') and not isinstance(kind._type_, str):
        return f'{of_ctypes(kind._type_)} *'
    return f'struct {kind.__name__}'


class Asked:
    """In the place of a library: keeps what is said of its calls."""

    def __init__(self) -> None:
        self.calls: dict[str, SimpleNamespace] = {}

    def __getattr__(self, name: str) -> SimpleNamespace:
        return self.calls.setdefault(name, SimpleNamespace(argtypes=[], restype=ctypes.c_int))


def of_python(text: str) -> Interface:
    """That of the module of ctypes, which is run but for its line that loads the library."""
    tree = ast.parse(text)
    tree.body = [it for it in tree.body if not (isinstance(it, ast.Assign) and getattr(it.targets[0], 'id', '') == 'library')]
    names: dict[str, object] = {'__name__': 'read', '__file__': ''}
    exec(compile(tree, '_library.py', 'exec'), names)
    asked = Asked()
    names['_opened'] = lambda: asked
    names['_load']()
    numbers = {f'FLUENT_{name}': value for name, value in names.items() if name.isupper() and isinstance(value, int)}
    structs = {name: [(field, of_ctypes(kind)) for field, kind in value._fields_] for name, value in names.items()
               if isinstance(value, type) and issubclass(value, ctypes.Structure) and value is not ctypes.Structure}
    calls = {name: Call([('', of_ctypes(kind)) for kind in call.argtypes], of_ctypes(call.restype))
             for name, call in asked.calls.items()}
    return Interface(numbers, structs, calls)


# Where each is, and where the places of fields are.
HEADER = 'crates/fluent_c/fluent_c.h'
LIBRARY = 'crates/fluent_c/src', 'crates/fluent_kept/src'
RUST = 'bindings/rust/src/c.rs'
PYTHON = 'bindings/python/kozhvadi/_library.py'
LAYOUT = 'bindings/c/tests/layout.c'
# Fields of the library's own code whose names are words of C.
OTHER_NAMES = {'unsigned': 'unsigned_integer'}


def library_text(root: Path) -> str:
    return '\n'.join(path.read_text(encoding='utf-8') for folder in LIBRARY for path in sorted((root / folder).rglob('*.rt')))


def bare(named: Named) -> Named:
    """As ctypes says it: without `const`, with one type for all pointers to bytes, and with another name of `size_t`."""
    kinds = {'uint8_t *': OWNED, 'size_t': 'uint64_t', 'size_t *': 'uint64_t *'}
    return [(name, kinds.get(kind.removeprefix('const '), kind.removeprefix('const '))) for name, kind in named]


def is_like(named: Named, header: Named) -> bool:
    """Whether types are those of the header, and names, too, but for what has none."""
    return len(named) == len(header) and all(
        kind == wanted and name in ('', wanted_name) for (name, kind), (wanted_name, wanted) in zip(named, header))


def unnamed(named: Named) -> Named:
    return [('', kind) for _, kind in named]


def faults_of(place: str, other: Interface, header: Interface) -> Iterator[str]:
    """What the interface of a place has otherwise than the header."""
    for name, number in other.numbers.items():
        if header.numbers.get(name, number) != number:
            yield f'{place}: {name} is {header.numbers[name]} in {HEADER}, and not {number}'
    for name in other.structs:
        if not is_like(other.structs[name], header.structs.get(name, [])):
            yield f'{place}: the struct {name} has other fields in {HEADER}'
    for name, call in other.calls.items():
        if name not in header.calls:
            yield f'{place}: no call {name} is in {HEADER}'
        elif not is_like(call.parameters, header.calls[name].parameters) or call.result != header.calls[name].result:
            yield f'{place}: the call {name} has another type in {HEADER}'


def layout_faults(text: str, library: Interface, header: Interface) -> Iterator[str]:
    """Fields whose places no line of the file has, and the size of options if the library knows another."""
    for name, fields in header.structs.items():
        if f'SIZE({name}, ' not in text:
            yield f'{LAYOUT}: no size of {name}'
        yield from (f'{LAYOUT}: no place of {field} in {name}' for field, _ in fields if f'AT({name}, {field}, ' not in text)
    if f'SIZE(FluentBundleOptions, {library.numbers["FLUENT_BUNDLE_OPTIONS_SIZE"]})' not in text:
        yield f'{LAYOUT}: another size of FluentBundleOptions than FLUENT_BUNDLE_OPTIONS_SIZE'


def differences(root: Path) -> Iterator[str]:
    """What the library, the packages and the test of places have otherwise than the header."""
    def read(name: str) -> str:
        return (root / name).read_text(encoding='utf-8')

    header, library = of_header(read(HEADER)), of_library(library_text(root))
    rust, python = of_rust(read(RUST)), of_python(read(PYTHON))
    named = {name: [(OTHER_NAMES.get(field, field), kind) for field, kind in fields] for name, fields in library.structs.items()}
    calls = {name: call._replace(parameters=unnamed(call.parameters)) for name, call in library.calls.items()}
    yield from faults_of(LIBRARY[0], Interface(library.numbers, named, calls), header)
    yield from (f'{LIBRARY[0]}: no {name}, which {HEADER} has' for whole, part in zip(header, library) for name in whole if name not in part)
    yield from faults_of(RUST, rust, header)
    of_ctypes = Interface(header.numbers, {name: bare(fields) for name, fields in header.structs.items()},
                          {name: Call(bare(call.parameters), call.result) for name, call in header.calls.items()})
    in_bare = {name: bare(fields) for name, fields in python.structs.items()}
    asked = {name: Call(bare(call.parameters), call.result) for name, call in python.calls.items()}
    yield from faults_of(PYTHON, Interface(python.numbers, in_bare, asked), of_ctypes)
    yield from layout_faults(read(LAYOUT), library, header)
