#!/usr/bin/env python3
"""Holds the pages and the doc comments against the sources.

    tools/house/check.py [--sources|--calls] [--program PROGRAM] [ROOT]

Each block of code in a page is cut from an example, and each in the doc comment of a public crate from an example or
another crate that the gate proves or tries, unless its fence is `no_run`: such a block was only tried once. Each
public type that programs use has a block. Each link leads to a file and a heading that are there, and so does each
path in `crates` that a page names; each page that a comment names is there; no line of prose in a page is wider than
120 columns; no page has words that docs/style.md leaves out, and no comment of the code, its definitions and its
proofs has "behind" for "after"; no doc comment begins with "The same" or "What", but in the crates that are named here;
no comment of code is wider than 100 columns; the README has at most 110 lines, 25
links and 15 words a sentence, and no cell of the pages on what is proved more than 40; each time, size and count in
thousands that a page says, unless it is a bound, has a call that shows it, or a link to a page with the calls, in its
paragraph; a release has each page that its readers are led to; each call in a shell block of a page prints what follows
it there; each public call that can fail says how, under `# Errors`; no clause is longer than 200
characters, and at most 33 are longer than 120; each file that names the version names the same one, and each that
lists the codes of findings lists the same ones; each place that names the version of CLDR names that of
tools/cldr.txt; crates.txt is read alike in Python and in shell; the library for C and the packages for Rust and Python
have the numbers, structs and calls of its header; the library and the package for Python know the same of the
functions that come with the library; each file that names its interpreter can be run, and each edit that must fail
applies; the counts of crates and functions in the pages on proofs are those of the sources, and those of lines nearly; the figures that a file of
results has are those of the pages; each test that the page on validation names is there; and each law, function and clause that a row of `proved.md` names is in the row's
crates.

Prints what isn't so, then how many of these checks passed and failed, and ends with 1 if one failed. The calls of shell
blocks need a built program, which is `crates/ftl/out/ftl` if no other is named: without it they are skipped. `--calls` runs
them alone, and `--sources` all other checks, which need no build. `./ftl --unproved` is the script's in any case.
"""
import argparse
import os
import re
import shlex
import shutil
import subprocess
import sys
import tempfile
from pathlib import Path

sys.path.insert(0, str(Path(__file__).resolve().parents[1]))

import reflow
from lib import c_interface, cldr, function_table, sessions
from lib.crates import below, uses
from release import pages as release
from trying.edited import edits_of


def arguments():
    parser = argparse.ArgumentParser(allow_abbrev=False)
    part = parser.add_mutually_exclusive_group()
    part.add_argument('--sources', action='store_true')
    part.add_argument('--calls', action='store_true')
    parser.add_argument('--program', type=Path)
    parser.add_argument('root', metavar='ROOT', nargs='?', type=Path, default=Path(__file__).parents[2])
    return parser.parse_args()


ARGUMENTS = arguments()
ROOT = ARGUMENTS.root.resolve()
PAGES = [page for files in ('*.md', 'docs/**/*.md', 'bindings/**/*.md', 'crates/*/CALLING.md', 'tests/*/README.md', 'tools/*/README.md')
         for page in sorted(ROOT.glob(files))]
SOURCES = sorted(ROOT.glob('crates/*/src/**/*.rt'))
# Crates of rows and examples: nobody calls them.
PRIVATE = re.compile(r'^(example|rows_|all_rows)')
LONGEST_CLAUSE, LONG_CLAUSE, LONG_CLAUSES = 200, 120, 36
# Where all codes of findings are listed, and what of each match are codes.
CODES = {
    'docs/reference/lint.md': r'^\| (`[a-z0-9`, -]+`) \| (?:error|warning|note) \|',
    'crates/ftl_arguments/specs/Linting.antt': r'^finding_codes =(.*?)\[\]',
    'crates/ftl_arguments/src/linting.rt': r'^pub\(crate\) const CODES: \[&str; \d+\] = \[(.*?)\]',
    'crates/ftl_arguments/src/program.rt': r'^Codes[^\n]*:\n(.*?)\n\n',
}
WIDEST = 120
# How long the README is at most: lines, links, and words a sentence.
README_LINES, README_LINKS, README_WORDS = 110, 25, 15
# What was measured or counted, and what says how: a call, or a link to a page with the calls. What a page says of a bound
# is neither.
TIMES = re.compile(r'\b\d[\d,.]*(?: to \d[\d,.]*)? ?(?:ns|µs|ms|s|seconds|minutes|hours|times as (?:fast|long))\b'
                   r'|\b(?:an|half an|two|three|four|some|a quarter of an) (?:hours?|minutes?)\b')
SIZES = re.compile(r'\b\d[\d,.]*(?: to \d[\d,.]*)? ?(?:[KMG]i?B|instructions)\b|\b\d{1,3}(?:,\d{3})+\b(?!,| ?bytes\b)')
BOUND = re.compile(r'\b(?:at most|at least|below|from|larger than|more than|within|with|may take|is|(?:stack|budget|threads) of) $', re.I)
MEASURING = re.compile(r'`[^`]*(?:tools|bench|bindings|crates|tests)/[^`]*`|`(?:(?:\./)?ftl|rt|cargo|python3|\w+\.(?:sh|py))[^`]*`'
                       r'|(?:speed|checks|validation)\.md|^    (?:tools|bench|bindings|rt|python3|\./ftl|\(cd|cd|\$ )', re.M)
# How many words a cell of the pages on what is proved has at most.
CELL_WORDS = 40
PROGRAM = (ARGUMENTS.program or ROOT / 'crates/ftl/out/ftl').resolve()
# What `./ftl` is in a page.
SCRIPT = """#!/bin/sh
[ "${{1-}}" = --unproved ] && exec {script} "$@"
exec {program} "$@"
"""
STYLE = ROOT / 'docs/style.md'
# The crates that programs call, with those whose types they pass on, and the types of these that only crates of this
# repository use.
CALLED = '''
    fluent_ast fluent_parsed fluent_parser fluent_serializer fluent_text fluent_syntax fluent_json fluent_json_write
    fluent_number fluent_value fluent_plurals fluent_errors fluent_resource fluent_ids fluent_bundle fluent_check fluent_tidy
    fluent_serve fluent_run fluent_desk fluent_kept fluent_c
'''.split()
INNER = {
    'fluent_parsed': ['Collected', 'DedentedElements', 'IndentedElements'],
    'fluent_json_write': ['Object'],
    'fluent_run': ['Caller', 'DateTimeCaller', 'Desk'],
    'fluent_text': ['Texts', 'Slices', 'StackBudget'],
    'fluent_kept': ['Bundle', 'RawBox', 'Question', 'Answer', 'Sources'],
}
# What the pages on proofs count: what is counted, in which sources, and how a page says the number.
COUNTED = [
    ('#[cycle(parser)', 'fluent_parser/src/*.rt', r'(\w+) readers call each other'),
    ('#[cycle(resolving)', 'fluent_resolver/src/*.rt', r'(?:first of|each of the) (\w+) functions'),
    ('impl From<', 'fluent_number/src/*_integers.rt', r'(\w+) conversions'),
]
# How a page says the numbers of lines, and which files have them. What it says may be a tenth off.
LINES_PAGE = 'docs/inside/trusted.md'
LINES = [
    (r'([\d,]+) lines of code', 'crates/*/src/**/*.rt'),
    (r'([\d,]+) of definitions', 'crates/*/specs/**/*.antt'),
    (r'([\d,]+) of proofs', 'crates/*/proofs/**/*.antt'),
]
# The figures of pages that a file has: the page and how it says one, and the file and the lines whose numbers are added up.
FIGURES = [
    ('docs/inside/proved.md', r'Each of ([\d,]+) prefixes', 'tests/more_rows/stdout', r'^(?:syntax|prefixes)\.jsonl: (\d+) prefixes'),
    ('docs/inside/proved.md', r'([\d,]+) samples of CLDR', 'tests/more_rows/stdout', r'^plurals\.txt: (\d+) rows'),
    ('docs/inside/proved.md', r'([\d,]+) tags with Intl', 'tests/more_rows/stdout', r'^likely\.txt: (\d+) rows'),
    ('docs/inside/proved.md', r'([\d,]+) negotiations with the answers', 'tests/more_rows/stdout', r'^negotiation\.txt: (\d+) rows'),
    ('docs/inside/proved.md', r'([\d,]+) texts of `Intl', 'tests/more_rows/stdout', r'^numerals\.txt: (\d+) rows'),
    ('docs/inside/validation.md', r'calls of `fluent_c` \| ([\d,]+)', 'bindings/c/tests/expected', r'^refused allocations: (\d+) tried'),
]
NUMBERS = """zero one two three four five six seven eight nine ten eleven twelve thirteen fourteen fifteen sixteen seventeen
    eighteen nineteen twenty""".split()
# What names pages by their paths in comments.
NAMING = ['crates/*/src/**/*.rt', 'crates/*/specs/**/*.antt', 'crates/*/*.h', 'crates/*/CALLING.md', 'bench/**/*.sh',
          'bench/**/*.py']
# Where a block of code is cut from, by the language of its fence. In a doc comment a fence names none, or is `no_run`.
EXAMPLES = {
    '': [*(f'crates/{crate}/src/**/*.rt' for crate in ('example*', 'rows_*', 'ftl_*', 'fluent_c')),
         'tests/more_rows/src/**/*.rt.txt'],
    'rust': ['crates/example*/src/**/*.rt', 'bindings/rust/README.md', 'docs/rust/*.md'],
    'c': ['*s/c/*.c', 'docs/c-and-cpp/first-program-in-c.md'],
    'python': ['examples/python/*.py', 'bindings/python/README.md', 'docs/python/*.md'],
}
# What parts a program's `main.rt` from its module in the crate `examples`: a line of root files, and that its `main` is called.
OF_ROOT_FILE = re.compile(r'^#!\[tactic\(auto\)\]$|^pub (?=fn main\()')
# The row of the index for a reader who has the repository, and pages that the other rows name and no release has.
OF_REPOSITORY = '| change it |'
NOT_RELEASED = {'README.md', 'docs/inside/architecture.md'}
# Paths in `crates` that are there once a reader has made them.
OF_READER = re.compile(r'^crates/hello/|/out\b')
# What has comments that are read, and how a line's comment begins.
COMMENTED = {
    'crates/*/src/**/*.rt': r'//[/!]?',
    'crates/*/specs/**/*.antt': r'--',
    'crates/*/proofs/**/*.antt': r'--',
    'tests/more_rows/src/**/*.rt.txt': r'//[/!]?',
    'bench/*/src/**/*.rs': r'//[/!]?',
    'bindings/rust/src/**/*.rs': r'//[/!]?',
    'examples/rust/*.rs': r'//[/!]?',
}
# How no doc comment begins: only the one before it explains it, or its subject is none. Crates that have such comments yet
# are below many others: a change of a comment would have all of these proved anew.
BEGINNING = re.compile(r'\s*//[/!] (The same|What)\b')
NOT_YET_CLEAN = '''
    fluent_answers fluent_ast fluent_bundle fluent_c fluent_check fluent_date_tables fluent_dates fluent_errors fluent_grammar
    fluent_ids fluent_kept fluent_languages fluent_lint fluent_meaning fluent_number fluent_numerals fluent_parsed fluent_parser
    fluent_plurals fluent_progress fluent_project fluent_resolver fluent_serializer fluent_serve fluent_text fluent_tidy
    fluent_tidy_laws fluent_tokens fluent_value ftl_project lint_comparison lint_markup lint_texts
'''.split()
# Where "behind" doesn't mean "after".
GOOD_BEHIND = re.compile(r'\b(?:left|leaves?|far|call)\b[^.;]*?\bbehind\b')
# Where the version is named. The first match counts: in the changelog that is the topmost release. What only some checkouts
# have may name none.
VERSIONS = {
    'crates/ftl_arguments/src/version.rt': r'VERSION: &str = "([^"]+)"',
    'bindings/rust/Cargo.toml': r'^version = "([^"]+)"',
    'editors/vscode/package.json': r'^  "version": "([^"]+)"',
    'CHANGELOG.md': r'^## (\d\S*)',
    'docs/reference/protocol.md': r'`ftl (\d[^`]*)`',
}
VERSIONS_IF_THERE = {
    'README.md': r'\bkozhvadi-(\d[\d.]*\d)-',
    'docs/install.md': r'\bkozhvadi-(\d[\d.]*\d)-',
    'docs/command/in-ci.md': r'\bkozhvadi-(\d[\d.]*\d)-',
    'bindings/python/pyproject.toml': r'^version = "([^"]+)"',
    'bindings/python/kozhvadi/__init__.py': r"^__version__ = ['\"]([^'\"]+)",
}


# What names the version of CLDR whose data is here, and the other versions that pages speak of. The changelog has older ones too.
NAMING_CLDR = ['crates/*/src/*.rt', 'crates/*/specs/*.antt', 'crates/*/CALLING.md', 'tools/*/README.md', 'tools/*/cldr-*/*.txt',
               'bindings/python/tests/*.py']
OTHER_CLDR = {'37', '41', '42', '44'}


def place_of(path, line=None):
    name = path.relative_to(ROOT)
    return f'{name}:{line}' if line else str(name)


def crate_of(path):
    return path.relative_to(ROOT / 'crates').parts[0]


def fenced_blocks(lines):
    """The fenced blocks, as (line number, language, lines)."""
    start, language, block = None, '', []
    for number, line in enumerate(lines, 1):
        if not line.startswith('```'):
            block.append(line)
        elif start is None:
            start, language, block = number, line[3:], []
        else:
            yield start, language, block
            start = None


def indented_blocks(lines):
    """The indented blocks, as (line number, lines without their indent)."""
    start, block, is_fenced = 1, [], False
    for number, line in enumerate([*lines, '.'], 1):
        is_fenced ^= line.startswith('```')
        if not is_fenced and (line.startswith('    ') or (block and not line)):
            block.append(line[4:])
        else:
            if block:
                yield start, block
            start, block = number + 1, []


def doc_lines(path):
    """The lines of a source's doc comments, each other line empty."""
    return [re.sub(r'^\s*//[/!] ?', '', line) if re.match(r'\s*//[/!]', line) else '' for line in path.read_text().split('\n')]


def without_comments(lines):
    return [re.sub(r'(^|\s)// .*$|^\s*//$', '', line) for line in lines]


def squeezed(lines):
    """Code without its comments and its layout, which a formatter chooses."""
    code = '\n'.join(OF_ROOT_FILE.sub('', line) for line in without_comments(lines))
    return re.sub(r'\s+', '', code).replace(',)', ')').replace(',}', '}')


def stretches(block):
    """The stretches of a block, which `..` on a line of its own parts."""
    stretch = []
    for line in [*block, '..']:
        if line.strip() == '..':
            yield squeezed(stretch)
            stretch = []
        else:
            stretch.append(line)


def code_of(path, language):
    """The code of an example, squeezed. For doc comments, which name no language, it is without its own doc comments."""
    lines = path.read_text().split('\n')
    return squeezed(line for line in lines if language or not re.match(r'\s*//[/!]', line))


def wrong_quotes():
    examples = {language: [code_of(path, language) for name in files for path in ROOT.glob(name)]
                for language, files in EXAMPLES.items()}
    quoted = [(page, page.read_text().split('\n')) for page in PAGES]
    quoted += [(path, doc_lines(path)) for path in SOURCES if not PRIVATE.search(crate_of(path))]
    for path, lines in quoted:
        for number, language, block in fenced_blocks(lines):
            for stretch in stretches(block) if language in examples else ():
                if not any(stretch in example for example in examples[language]):
                    yield f'{place_of(path, number)}: no example has this code'


def headings(page):
    names = re.findall(r'^#+ (.*)$', page.read_text(), re.M)
    return [re.sub(r'[^\w\- ]', '', name.lower()).replace(' ', '-') for name in names]


def prose_of(page):
    """The lines of a page that are no code, as (line number, line)."""
    is_fenced = False
    for number, line in enumerate(page.read_text().split('\n'), 1):
        is_fenced ^= line.startswith('```')
        if not is_fenced and not line.startswith('    '):
            yield number, line


def wrong_links():
    for page in PAGES:
        for number, line in prose_of(page):
            for link in re.findall(r'\]\((?!https:)([^)\s]+)\)', line):
                path, _, heading = link.partition('#')
                target = (page.parent / path).resolve() if path else page
                if not target.exists():
                    yield f'{place_of(page, number)}: no such file: {link}'
                elif heading and heading not in headings(target):
                    yield f'{place_of(page, number)}: no such heading: {link}'
            for name in re.findall(r'`(crates/[a-z_]+[\w./-]*)`', line):
                if not OF_READER.search(name) and not (ROOT / name).exists():
                    yield f'{place_of(page, number)}: no such file: {name}'
    for path in (path for files in NAMING for path in sorted(ROOT.glob(files))):
        for name in re.findall(r'\bdocs/[\w/-]+\.md\b', path.read_text()):
            if not (ROOT / name).exists():
                yield f'{place_of(path)}: no such page: {name}'


def pages_without_release():
    """Pages to which the index leads a reader who has a release, and which it lacks."""
    index = ROOT / 'docs/README.md'
    places = release.released(ROOT)
    for number, line in prose_of(index):
        for link in re.findall(r'\]\(([^)\s#]+)', '' if line.startswith(OF_REPOSITORY) else line):
            name = os.path.relpath(index.parent / link, ROOT)
            if name not in places and name not in NOT_RELEASED:
                yield f'{place_of(index, number)}: no release has {name}'


def wide_prose():
    for page in PAGES:
        for number, line in prose_of(page):
            if len(line) > WIDEST and not line.startswith('|'):
                yield f'{place_of(page, number)}: {len(line)} columns'


def words_left_out():
    """The words of the first column of the first table of words to leave out."""
    table = STYLE.read_text().partition('## Words to leave out')[2].partition('`tools/')[0]
    rows = re.findall(r'^\| ([^|]+) \|', table, re.M)[1:]
    return [word for row in rows for word in row.split(', ')]


def sentences(page):
    """The sentences of a page's prose: no code, tables, headings or pictures, and of links their words."""
    prose = re.sub(r'^```.*?^```$', '', page, flags=re.S | re.M)
    prose = '\n'.join(line for line in prose.split('\n') if not re.match(r'    |\||#|!\[', line))
    prose = re.sub(r'\[([^\]]*)\]\([^)]*\)', r'\1', prose)
    for paragraph in re.split(r'\n\s*\n|\n(?=- )', prose):
        yield from filter(str.strip, re.split(r'(?<=[.:!?])\s+', paragraph))


def long_readme():
    """The README is read by a person in a hurry."""
    page = (ROOT / 'README.md').read_text()
    counts = [len(sentence.split()) for sentence in sentences(page)]
    for what, count, most in [('lines', page.count('\n'), README_LINES), ('links', page.count(']('), README_LINKS),
                              ('words a sentence', sum(counts) / len(counts), README_WORDS)]:
        if count > most:
            yield f'README.md: {count:.4g} {what}, and at most {most} are read'


def long_cells():
    """The pages on what is proved are read row by row."""
    for page in (ROOT / 'docs/inside' / name for name in ('proved.md', 'proofs.md')):
        for number, line in prose_of(page):
            for cell in line.split('|') if line.startswith('|') else ():
                count = len(re.sub(r'\[([^\]]*)\]\([^)]*\)', r'\1', cell).split())
                if count > CELL_WORDS:
                    yield f'{place_of(page, number)}: a cell of {count} words, and at most {CELL_WORDS} are read'


def figures_of(paragraph):
    """The figures of a paragraph that were measured or counted, as matches."""
    bare = re.sub(r'`[^`]*`', lambda span: ' ' * len(span[0]), paragraph)
    yield from TIMES.finditer(paragraph)
    yield from (found for found in SIZES.finditer(bare) if not BOUND.search(' '.join(bare[:found.start()].split()) + ' '))


def figures_without_source():
    """Figures in a page, if neither a call nor a link to where the calls are is in the paragraph or the table."""
    for page in PAGES:
        text = re.sub(r'^```.*?^```$', lambda block: '\n' * block[0].count('\n'), page.read_text(), flags=re.S | re.M)
        line = 1
        for paragraph in re.split(r'((?<!:)\n\s*\n)', text) if page != STYLE else ():
            figure = next(figures_of(paragraph), None)
            if figure and not MEASURING.search(paragraph):
                yield f'{place_of(page, line + paragraph[:figure.start()].count(chr(10)))}: {figure[0]}, without a call that shows it'
            line += paragraph.count('\n')


def wrong_words():
    left_out = re.compile(r'\b(' + '|'.join(map(re.escape, words_left_out())) + r')\b', re.I)
    for page in PAGES:
        for number, line in prose_of(page) if page != STYLE else ():
            for word in left_out.findall(re.sub(r'`[^`]*`|\]\([^)]*\)', '', line)):
                yield f'{place_of(page, number)}: the style leaves out "{word}"'


def wrong_comments():
    for files, sign in COMMENTED.items():
        for path in sorted(ROOT.glob(files)):
            for number, line in enumerate(path.read_text().split('\n'), 1):
                comment = re.search(rf'(?:^|\s){sign}(?:\s|$)(.*)', line)
                if comment and re.search(r'\bbehind\b', GOOD_BEHIND.sub('', comment.group(1)), re.I):
                    yield f'{place_of(path, number)}: the style leaves out "behind"'
                if path.suffix == '.rs' and re.match(r'\s*//[/!] The same\b', line):
                    yield f'{place_of(path, number)}: a doc comment that begins with "The same" can\'t be read alone'


def wrong_beginnings():
    for path in SOURCES:
        if PRIVATE.search(crate_of(path)) or crate_of(path) in NOT_YET_CLEAN:
            continue
        before = ''
        for number, line in enumerate(path.read_text().split('\n'), 1):
            begins = BEGINNING.match(line)
            if begins and not re.match(r'\s*//[/!] \S', before):
                yield f'{place_of(path, number)}: a doc comment that begins with "{begins[1]}"'
            before = line


def wide_comments():
    for path, lines in reflow.files_below(ROOT):
        for number in reflow.too_wide(path, lines):
            yield f'{place_of(path, number)}: the comment is wider than {reflow.WIDEST} columns'


def versions_named():
    """The version that each file names, as (place, version)."""
    for name, pattern in {**VERSIONS, **VERSIONS_IF_THERE}.items():
        path = ROOT / name
        named = re.search(pattern, path.read_text(), re.M) if path.exists() else None
        if named or name in VERSIONS:
            yield name, named.group(1) if named else None


def other_versions():
    versions = dict(versions_named())
    first = next(iter(versions))
    for name, version in versions.items():
        if version is None:
            yield f'{name}: no version is named'
        elif version != versions[first]:
            yield f'{name}: version {version}, but {first} has {versions[first]}'


def codes_named():
    """The codes of findings that each place lists, as (place, codes)."""
    for name, pattern in CODES.items():
        for stretch in re.findall(pattern, (ROOT / name).read_text(), re.S | re.M):
            # A definition has the word `codes` before each text.
            yield name, [word for word in re.findall(r'[a-z][a-z0-9]*(?:-[a-z][a-z0-9]*)*', stretch) if word != 'codes']


def other_codes():
    codes = {}
    for name, named in codes_named():
        codes.setdefault(name, set()).update(named)
    first = next(iter(CODES))
    for name in CODES:
        for code in sorted(codes.get(name, set()) ^ codes[first]):
            yield f'{name}: the code `{code}` is {"not " if code in codes[first] else ""}listed, unlike in {first}'


def wrong_outputs():
    script, program = (shlex.quote(str(path)) for path in (ROOT / 'ftl', PROGRAM))
    # So that no call shows how the unproved program is built.
    subprocess.run([ROOT / 'ftl', '--unproved', '--version'], capture_output=True)
    for page in PAGES:
        with tempfile.TemporaryDirectory() as name:
            folder = Path(name)
            (folder / 'ftl').write_text(SCRIPT.format(script=script, program=program))
            (folder / 'ftl').chmod(0o755)
            shutil.copytree(ROOT / 'examples', folder / 'examples')
            (folder / 'tools').symlink_to(ROOT / 'tools')
            blocks = indented_blocks(page.read_text().split('\n'))
            for number, call, printed in sessions.wrong_calls(blocks, folder):
                yield f'{place_of(page, number)}: `{call}` prints\n{printed}'


def signature_of(lines, start):
    """The signature that begins at a line, up to its clauses or its body."""
    text = ''
    for line in lines[start:]:
        if text and re.match(r'\s*(ensures|requires|where|ghost|\{)', line):
            break
        text += line
        if re.search(r'[{;]\s*$', line):
            break
    return text


def fallible_calls(path):
    """The public calls of a source that can fail, as (line number, name, doc comment)."""
    lines, is_in_trait = path.read_text().split('\n'), False
    for start, line in enumerate(lines):
        is_in_trait = line.startswith('pub trait') or (is_in_trait and line != '}')
        called = re.match(r'\s*pub (?:unsafe )?(?:extern "C" )?fn (\w+)', line) or (is_in_trait and re.match(r'    fn (\w+)', line))
        if called and 'Result' in signature_of(lines, start).rpartition('->')[2] and '->' in signature_of(lines, start):
            first = start
            while re.match(r'\s*(///|#\[)', lines[first - 1]):
                first -= 1
            yield start + 1, called.group(1), '\n'.join(lines[first:start])


def silent_calls():
    for path in SOURCES:
        if not PRIVATE.search(crate_of(path)):
            for number, name, doc in fallible_calls(path):
                if '# Errors' not in doc:
                    yield f'{place_of(path, number)}: `{name}` has no `# Errors`'


def is_public(path, name):
    """Whether a crate lets others use a type of one of its files: by `pub mod`, by `pub use`, or since it is in the root file."""
    source = ROOT / 'crates' / crate_of(path) / 'src'
    roots = [root for root in (source / 'lib.rt', path.parent / 'mod.rt', path.parent.with_suffix('.rt')) if root.exists()]
    if path in roots:
        return True
    text = '\n'.join(root.read_text() for root in roots)
    return bool(re.search(rf'pub mod {path.stem};|pub use [^;]*\b{name}\b', text))


def public_types():
    """The types that programs use, as (place, name, doc comment)."""
    for path in SOURCES:
        lines = path.read_text().split('\n') if crate_of(path) in CALLED else []
        for start, line in enumerate(lines):
            named = re.match(r'pub (?:struct|enum|trait|type) (\w+)', line)
            if named and is_public(path, named.group(1)) and named.group(1) not in INNER.get(crate_of(path), ()):
                first = start
                while re.match(r'///|#\[', lines[first - 1]):
                    first -= 1
                yield place_of(path, start + 1), named.group(1), '\n'.join(lines[first:start])


def types_without_examples():
    for place, name, doc in public_types():
        if '```' not in doc:
            yield f'{place}: `{name}` has no example'


def clauses_of(path):
    """The clauses of a source, each on one line, as (line number, clause)."""
    text = path.read_text()
    for opened in re.finditer(r'^[ \t]*(?:ensures|requires)\b[^{\n]*\{', text, re.M):
        end, depth = opened.end(), 1
        while depth:
            depth += {'{': 1, '}': -1}.get(text[end], 0)
            end += 1
        yield text.count('\n', 0, opened.start()) + 1, ' '.join(text[opened.start():end].split())


def long_clauses():
    long = 0
    for path in SOURCES:
        for number, clause in clauses_of(path):
            if len(clause) > LONGEST_CLAUSE:
                yield f'{place_of(path, number)}: a clause of {len(clause)} characters'
            long += len(clause) > LONG_CLAUSE
    if long > LONG_CLAUSES:
        yield f'{long} clauses are longer than {LONG_CLAUSE} characters'


def other_cldr():
    """Where another version of CLDR is named than tools/cldr.txt names, and data that is not of it."""
    version = cldr.version(ROOT)
    paths = {*PAGES, *(path for files in NAMING_CLDR for path in ROOT.glob(files))} - {ROOT / 'CHANGELOG.md'}
    for path in sorted(paths):
        if '/cldr-' in str(path) and cldr.data(path.parts[-3], ROOT) != path.parent:
            continue
        for number, line in enumerate(path.read_text().split('\n'), 1):
            for named in re.findall(r'\b(?:CLDR |cldr-)(\d+(?:\.\d+)*)\b', line):
                if named not in {version, *OTHER_CLDR}:
                    yield f'{place_of(path, number)}: CLDR {named}, but tools/cldr.txt has {version}'
    for part in ('plurals', 'numbers', 'languages'):
        if not cldr.data(part, ROOT).is_dir():
            yield f'tools/{part}: no folder {cldr.data(part, ROOT).name}'
    named = re.search(r'"version": "([^"]+)"', (cldr.data('numbers', ROOT) / 'numbers.json').read_text())
    if not named or named[1] != version:
        yield f'tools/numbers: numbers.json is not of version {version}'


def other_readers():
    """What the two readers of crates.txt, in Python and in shell, don't say alike."""
    named = uses(ROOT)
    run = subprocess.run(['sh', '-c', '. "$root/tools/lib/crates.sh" && crate_lines && echo / && crates_used ftl'],
                         env={**os.environ, 'root': str(ROOT)}, capture_output=True, text=True)
    lines, _, used = run.stdout.partition('/\n')
    if lines != ''.join(f'{" ".join([name, *libraries])}\n' for name, libraries in named.items()):
        yield 'tools/lib/crates.sh reads other lines of crates.txt than crates.py'
    if {*used.split()} != {'ftl', *below('ftl', named)}:
        yield 'tools/lib/crates.sh finds other crates below `ftl` than crates.py'


def other_interfaces():
    """What the library for C and the packages over it don't have as its header has it."""
    yield from c_interface.differences(ROOT)


def other_functions():
    """What the library and the package for Python don't know alike of the functions that come with the library."""
    yield from function_table.differences(ROOT)


def stale_edits():
    """The edits that must fail whose text isn't there, or more than once, in the file that they name."""
    for crate in uses(ROOT):
        for edit in edits_of(crate):
            if not edit.applies():
                yield f'{edit}: its text has to stand once in {edit.path}'


def locked_scripts():
    """The files that name their interpreter and can't be run."""
    for path in sorted(ROOT.glob('*/**/*.[ps][yh]')):
        if 'out' not in path.parts and not os.access(path, os.X_OK) and path.read_bytes()[:3] == b'#!/':
            yield f'{path.relative_to(ROOT)} names its interpreter, but its mode lets nobody run it'


def wrong_counts():
    """Counts in the pages that the sources don't have."""
    named = uses(ROOT)
    pages = [ROOT / 'docs/inside' / name for name in ('proofs.md', 'proved.md')]
    for crate, count in re.findall(r'^\| `(\w+)` \| (\d+) \|$', pages[0].read_text(), re.M):
        above = sum(crate in below(other, named) for other in named)
        if above != int(count):
            yield f'{place_of(pages[0])}: {above} crates use {crate}, and not {count}'
    for counted, files, words in COUNTED:
        count = sum(path.read_text().count(counted) for path in SOURCES if path.match(files))
        said = [(page, word) for page in pages for word in re.findall(words, ' '.join(page.read_text().split()))]
        if not said:
            yield f'no page on proofs says how many {counted} there are: {count}'
        for page, word in said:
            if word.lower() not in (str(count), *NUMBERS[count:count + 1]):
                yield f'{place_of(page)}: {word} is the count of {counted}, and the sources have {count}'


def wrong_lines():
    """Numbers of lines that a page says, and the sources don't nearly have."""
    page = ROOT / LINES_PAGE
    text = ' '.join(page.read_text().split())
    for words, files in LINES:
        said = re.search(words, text)
        count = sum(path.read_bytes().count(b'\n') for path in ROOT.glob(files))
        if not said or abs(int(said[1].replace(',', '')) - count) > count / 10:
            yield f'{place_of(page)}: {said[0] if said else words}, and {files} has {count:,} lines'


def wrong_figures():
    """Figures of pages that the files of results don't have."""
    for name, words, file, lines in FIGURES:
        page = ROOT / name
        said = re.search(words, ' '.join(page.read_text().split()))
        figure = sum(map(int, re.findall(lines, (ROOT / file).read_text(), re.M)))
        if not said:
            yield f'{place_of(page)}: no figure for {words}, and {file} has {figure:,}'
        elif said[1] != f'{figure:,}':
            yield f'{place_of(page)}: {said[1]} is {figure:,} in {file}'


def unknown_tests():
    """Tests that a page names, and no file of tests has."""
    page = ROOT / 'docs/inside/validation.md'
    tests = {name for path in ROOT.glob('bindings/python/tests/*.py') for name in re.findall(r'def (test_\w+)\(', path.read_text())}
    for number, line in enumerate(page.read_text().split('\n'), 1):
        for name in re.findall(r'`(test_\w+)`', line):
            if name not in tests:
                yield f'{place_of(page, number)}: there is no test {name}'


def declared(crates):
    """The functions of these crates, and all words of theirs that a row may name: types, traits, clauses and definitions."""
    folders = [ROOT / 'crates' / crate for crate in crates]
    source = '\n'.join(path.read_text() for folder in folders for path in (folder / 'src').rglob('*.rt'))
    specs = '\n'.join(path.read_text() for folder in folders for path in (folder / 'specs').rglob('*.antt'))
    functions = {*re.findall(r'\bfn (\w+)', source)}
    types = re.findall(r'\b(?:struct|enum|trait|type|ensures|ghost) (\w+)', source)
    traits = re.findall(r'\bimpl(?:<.*?>)? (?:\w+::)*(\w+)', source)
    return functions, {*functions, *types, *traits, *re.findall(r'\bpub (?:record |data )?(\w+)', specs)}


def wrong_rows():
    """Laws, functions and clauses that a row of the page names, and its crates don't have."""
    proved = ROOT / 'docs/inside/proved.md'
    parts = declared(path.name for path in (ROOT / 'crates').iterdir())[1]
    for carried, crates in re.findall(r'^\| .* \| (.*`.*) \| (`\w+`.*) \|$', proved.read_text(), re.M):
        functions, words = declared(re.findall(r'`(\w+)`', crates))
        for part in carried.split('; '):
            named, _, ensured = part.partition(': ')
            known = functions if re.match(r'laws? `', named) else words
            for name in re.findall(r'`([^`]*)`', re.sub(r'`\w+\.antt`', '', named)):
                word = re.split(r'::|\.', re.sub(r'<.*>', '', name))[-1].replace('*', r'\w*')
                if not any(re.fullmatch(word, other) for other in known):
                    yield f'{place_of(proved)}: {crates}: no {name}'
            for name in re.findall(r'`([\w.]*)`', re.sub(r'`\w+\.antt`', '', ensured)):
                first, *others = name.split('.')
                if first not in words or not {*others} <= parts:
                    yield f'{place_of(proved)}: {crates}: no clause {name}'


def checks():
    """The checks that are asked for."""
    if not ARGUMENTS.calls:
        yield from (wrong_quotes, types_without_examples, wrong_links, pages_without_release, wide_prose, long_readme, long_cells, figures_without_source, wrong_words,
                    wrong_comments, wrong_beginnings, wide_comments,
                    silent_calls, long_clauses, other_versions, other_codes, other_cldr, other_readers, other_interfaces,
                    other_functions, stale_edits, locked_scripts, wrong_counts, wrong_lines, wrong_figures, unknown_tests, wrong_rows)
    if ARGUMENTS.sources:
        return
    if PROGRAM.exists():
        yield wrong_outputs
    else:
        print(f'{PROGRAM} is not built: the calls of shell blocks are skipped')


def main():
    passed, failed = 0, 0
    for check in checks():
        faults = list(check())
        print(*faults, sep='\n', end='\n' if faults else '')
        failed += bool(faults)
        passed += not faults
    print(f'{passed} passed, {failed} failed')
    sys.exit(failed > 0)


main()
