#!/usr/bin/env python3
"""Lays the comments of code anew that are wider than 100 columns, and changes nothing else.

    tools/house/reflow.py [--check] [ROOT] [FILE..]

Takes crates/*/src/**/*.rt below ROOT (the current folder if none is named) but for what a script wrote, and the
blocks of Rattle in pages, since these quote such code; or these files of it. A paragraph is laid anew
only if one of its lines is too wide; it keeps its sign (`//`, `///`, `//!`), its indent, and the indent of a list's item. Code in
fences, tables, headings and indented lines stay. Whether only comments changed is checked for each file: its lines that are no
comments are the same, and so are the words of its comments. Prints how many files changed, and the lines that are still too
wide, but for code in fences, tables, and single words. --check writes nothing. Ends with 1 if a line is too wide then.
"""
import re
import sys
from pathlib import Path

WIDEST = 100
# The code, and the pages that quote it.
FILES = ['crates/*/src/**/*.rt', 'crates/*/CALLING.md', '*.md', 'docs/**/*.md', 'bindings/**/*.md']
COMMENT = re.compile(r'( *)(//[/!]?)(?: (.*)|())$')
# What begins an item of a list, and what is never part of a paragraph.
ITEM = re.compile(r'(?:[-*] |\d+\. )')
ALONE = re.compile(r'#|\||    |\t|=|>|\[[^\]]+\]: \S+$')
# What a script writes has its own layout.
GENERATED = re.compile(r'^// Written by tools/.* Do not edit\.$', re.M)


def runs(lines):
    """The lines in runs: (whether it is a comment, its indent and sign, lines)."""
    run, key = [], None
    for line in lines:
        found = COMMENT.match(line)
        now = (found[1], found[2]) if found else None
        if run and (now != key or now is None):
            yield key, run
            run = []
        run.append(line)
        key = now
    if run:
        yield key, run


def paragraphs(texts):
    """The paragraphs of a comment: (whether it may be laid anew, its texts)."""
    paragraph, is_fenced = [], False
    for text in texts:
        is_fence = text.startswith('```')
        is_kept = is_fenced or is_fence or not text.strip() or bool(ALONE.match(text))
        # A line under an item that has the item's indent goes on with it.
        is_more = bool(paragraph) and text.startswith('  ') and ITEM.match(paragraph[0]) and not text.startswith('     ')
        is_kept = is_kept and not (is_more and text.strip() and not is_fenced and not is_fence)
        if is_kept or ITEM.match(text) or (paragraph and text.startswith(' ') and not is_more):
            if paragraph:
                yield True, paragraph
            paragraph = []
        if is_kept:
            yield False, [text]
        else:
            paragraph.append(text)
        is_fenced ^= is_fence
    if paragraph:
        yield True, paragraph


def laid(paragraph, width):
    """A paragraph in lines of this width. Its first line has its own indent, and the others that of the second, or of an item."""
    item = ITEM.match(paragraph[0].lstrip())
    first = re.match(r' *', paragraph[0])[0]
    rest = re.match(r' *', paragraph[1])[0] if len(paragraph) > 1 else first + ' ' * (len(item[0]) if item else 0)
    made, line = [], ''
    for word in pieces(' '.join(part.strip() for part in paragraph)):
        indent = rest if made else first
        if line and len(indent) + len(line) + 1 + len(word) > width:
            made.append(indent + line)
            line = word
        else:
            line = f'{line} {word}' if line else word
    made.append((rest if made else first) + line)
    return made


def pieces(text):
    """The words of a text. What is in backquotes is one word, and so is a sign that would begin an item if it began a line."""
    found = []
    for word in re.findall(r'(?:`[^`]*`|\S)+', text):
        if found and re.fullmatch(r'[-*+#>|=]+|\d+\.', word):
            found[-1] += f' {word}'
        else:
            found.append(word)
    return found


def reflowed(lines):
    for key, run in runs(lines):
        if key is None or all(len(line) <= WIDEST for line in run):
            yield from run
            continue
        head = f'{key[0]}{key[1]}'
        texts = [COMMENT.match(line)[3] or '' for line in run]
        for may_change, paragraph in paragraphs(texts):
            width = WIDEST - len(head) - 1
            if may_change and any(len(text) > width for text in paragraph):
                paragraph = laid(paragraph, width)
            yield from (f'{head} {text}' if text else head for text in paragraph)


def in_fences(lines):
    """A page, of which only blocks of Rattle are code."""
    block, is_code = [], False
    for line in lines:
        if line.startswith('```'):
            yield from reflowed(block) if is_code else block
            yield line
            block, is_code = [], line == '```rust'
        else:
            block.append(line)
    yield from block


def code(lines):
    return [line for line in lines if not COMMENT.match(line)]


def words(lines):
    return [word for line in lines if (found := COMMENT.match(line)) for word in (found[3] or '').split()]


def places(lines):
    """Which comment stands before which line of code: the number of words of comments before each."""
    count = 0
    for line in lines:
        found = COMMENT.match(line)
        if found:
            count += len((found[3] or '').split())
        else:
            yield count


def too_wide(path, lines):
    """The numbers of the lines of code's comments that are too wide, and can be laid in more lines."""
    if path.suffix == '.md':
        return
    is_fenced = False
    for number, line in enumerate(lines, 1):
        is_fence = bool(re.match(r' *//[/!]? ```', line))
        is_fenced ^= is_fence
        found = COMMENT.match(line)
        if found and len(line) > WIDEST and not is_fenced and not is_fence:
            if len(pieces(found[3])) > 1 and not found[3].startswith('|'):
                yield number


def files_below(root):
    """The files below a folder that comments are laid in, without those that a script writes, and their lines."""
    return with_lines(sorted(path for name in FILES for path in root.glob(name)))


def with_lines(paths):
    for path in paths:
        lines = path.read_text(encoding='utf-8').split('\n')
        if not any(map(GENERATED.match, lines[:3])):
            yield path, lines


def laid_anew(path, old):
    """The lines of a file with its comments laid anew."""
    new = [*(in_fences(old) if path.suffix == '.md' else reflowed(old))]
    if code(old) != code(new) or words(old) != words(new) or [*places(old)] != [*places(new)]:
        sys.exit(f'{path}: more than comments would change')
    return new


def main():
    arguments = [it for it in sys.argv[1:] if it != '--check']
    root = Path(arguments[0] if arguments else '.')
    count = changed = wide = 0
    for path, old in with_lines(root / it for it in arguments[1:]) if arguments[1:] else files_below(root):
        new = laid_anew(path, old)
        for number in too_wide(path, new):
            print(f'{path.relative_to(root)}:{number}: {len(new[number - 1])} columns')
            wide += 1
        count += 1
        if new != old:
            changed += 1
            if '--check' not in sys.argv:
                path.write_text('\n'.join(new), encoding='utf-8')
    print(f'{changed} of {count} files changed, {wide} lines are still too wide')
    sys.exit(wide > 0)


if __name__ == '__main__':
    main()
