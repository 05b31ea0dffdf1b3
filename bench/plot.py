#!/usr/bin/env python3
"""Makes the table and the chart of the benchmarks from their results, bench/results.json.

    bench/plot.py [--check]

A result has the keys `what`, `call`, which prints it, and `least` and `most`, the ratios between which several runs lay:
Rust's time by ours. If peak memory was measured, `megabytes` has ours and Rust's. `bar` is its name in the chart, which has
only results with one, and `group` the part of the chart; `time` is ours in microseconds, one or the least and the greatest,
of which the chart also makes the other crate's. `kind` is the name under which pages speak of it. A result with the key
`instructions`, ours and the other package's if there is one, is a step of a program: its `what` is the language and the work,
as `from Rust, two variables`.

Writes the chart docs/images/speed.svg and the tables of docs/inside/speed.md. `--check` writes nothing, and ends with 1 if
one isn't that of the results, or a page says another range of a kind.
"""
import json
import re
import sys
from html import escape
from pathlib import Path

ROOT = Path(__file__).resolve().parents[1]
RESULTS = ROOT / 'bench/results.json'
CHART = ROOT / 'docs/images/speed.svg'
PAGE = ROOT / 'docs/inside/speed.md'
# How pages say the range of a kind, and which pages do.
SAID = {
    'reading': r'real files are read ([\d.]+) to ([\d.]+) times as fast',
    'formatting from Rust': r'formatting (?:a text is )?\[?([\d.]+) to ([\d.]+) times(?:\]\([^)]*\))? as fast(?: from Rust)?,',
    'adding from Rust': r'adding a resource ([\d.]+) times',
    'formatting in Rattle': r'formatting (?:is )?([\d.]+) to ([\d.]+) times as fast',
}
SAYING = {'README.md': [*SAID], 'docs/compared-with.md': [*SAID][1:]}
TABLE_HEAD = '| What | Ratio | Peak memory, ours and Rust\'s, MB | Call |\n|---|---|---|---|\n'
# The table of instructions has a row for each work, in the order of the results.
COUNTS_HEAD = '| What, by `bench/bindings/run.sh` | Rust | `fluent-bundle` | Ratio | C | Python |\n|---|---|---|---|---|---|\n'
MILLION = 1_000_000
# The parts of the chart, what people do most first, and next to what each was measured.
GROUPS = {
    'rust': ('From Rust', 'fluent-bundle', '0.15.3'),
    'files': ('Reading files, in Rattle', 'fluent-syntax', '0.11.1'),
    'command': ('The command', 'a program over fluent-bundle', '0.15.3'),
    'rattle': ('Showing texts, in Rattle', 'fluent-bundle', '0.15.3'),
}
# Lengths in the chart, in pixels: the column of names, one time Rust's speed, a row, a bar, what is above the first row.
NAMES, UNIT, ROW, BAR, HEAD = 250, 100, 26, 14, 40
# How wide a letter is at most, about.
LETTER = 6.8
STYLE = '''
    text { font: 13px system-ui, sans-serif; fill: #24292f } .group { font-weight: 600 }
    .least { fill: #2f6f4f } .most { fill: #2f6f4f; opacity: .35 } .slower { fill: #a1542b }
    .one { stroke: #24292f; stroke-dasharray: 4 3 }
    @media (prefers-color-scheme: dark) {
        text { fill: #e6edf3 } .one { stroke: #e6edf3 }
        .least { fill: #5fb58a } .most { fill: #5fb58a } .slower { fill: #d98a5f }
    }
'''


def ratios(result):
    """The ratios of a result in words: one, or the least and the greatest."""
    least, most = f'{result["least"]:.2f}', f'{result["most"]:.2f}'
    return least if least == most else f'{least} to {most}'


def table(results):
    def row(result, before):
        memory = ', '.join(map(str, result.get('megabytes', ())))
        call = '' if before and before['call'] == result['call'] else f'`{result["call"]}`'
        cells = (f' {cell} ' if cell else ' ' for cell in (memory, call))
        return f'| {result["what"]} | {ratios(result)} |{"|".join(cells)}|\n'

    return TABLE_HEAD + ''.join(map(row, results, [None, *results]))


def shown(count):
    """A number of instructions."""
    return f'{count / MILLION:.1f} million' if count >= MILLION else f'{count:,}'


def counts_table(results):
    """The table of instructions: of each work the counts of each language."""
    works = {}
    for result in results:
        language, _, work = result['what'].removeprefix('from ').partition(', ')
        works.setdefault(work, {})[language] = result['instructions']

    def row(work, counts):
        ours, theirs = [*counts.get('Rust', ()), None, None][:2]
        ratio = f'{theirs / ours:.2f}' if theirs else ''
        alone = [counts.get(language, [None])[0] for language in ('C', 'Python')]
        cells = [*(count and shown(count) for count in (ours, theirs)), ratio, *(count and shown(count) for count in alone)]
        return f'| {work} |{"|".join(f" {cell} " if cell else " " for cell in cells)}|\n'

    return COUNTS_HEAD + ''.join(row(work, counts) for work, counts in works.items())


def in_unit(least, most):
    """A time, in nanoseconds or microseconds, or the two between which it lies."""
    factor, unit, digits = (1000, 'ns', 0) if most < 0.3 else (1, 'µs', 2)
    one, other = f'{least * factor:.{digits}f}', f'{most * factor:.{digits}f}'
    return f'{one} {unit}' if one == other else f'{one} to {other} {unit}'


def times(result):
    """The time of a result and that of the other crate, if it has one. Of ranges, the other's is that of their middles."""
    if 'time' not in result:
        return ''
    given = result['time']
    least, most = given if isinstance(given, list) else (given, given)
    theirs = (least + most) / 2 * (result['least'] + result['most']) / 2
    some = '' if least == most and result['least'] == result['most'] else 'some '
    other = GROUPS[result['group']][1].split()[-1]
    return f' ({in_unit(least, most)}, and {other} {some}{in_unit(theirs, theirs)})'


def heading(group, number):
    """The row above the results of a part, as an element of SVG."""
    title, other, version = GROUPS[group]
    return (f'  <text class="group" x="{NAMES - 10}" y="{HEAD + number * ROW + BAR - 3}" text-anchor="end">{title}</text>\n'
            f'  <text x="{NAMES + UNIT + 8}" y="{HEAD + number * ROW + BAR - 3}">next to {other} {version}</text>\n')


def rows(shown):
    """The rows of the chart: that of each part, and those of its results."""
    for group in GROUPS:
        yield group, None
        yield from ((group, result) for result in shown if result['group'] == group)


def bar(result, number):
    """The row of one result, as elements of SVG."""
    top = HEAD + number * ROW
    middle = top + BAR - 3
    kind = 'least' if result['most'] >= 1 else 'slower'
    end = NAMES + max(result['most'], 1) * UNIT
    return (f'  <text x="{NAMES - 10}" y="{middle}" text-anchor="end">{escape(result["bar"])}</text>\n'
            f'  <rect class="{kind}" x="{NAMES}" y="{top}" width="{result["least"] * UNIT:.0f}" height="{BAR}"/>\n'
            f'  <rect class="most" x="{NAMES + result["least"] * UNIT:.0f}" y="{top}" '
            f'width="{(result["most"] - result["least"]) * UNIT:.0f}" height="{BAR}"/>\n'
            f'  <text x="{end + 8:.0f}" y="{middle}">{ratios(result)}{times(result)}</text>\n')


def chart(results):
    shown = [result for result in results if 'bar' in result]
    width = max(NAMES + max(result['most'], 1) * UNIT + 20 + LETTER * len(ratios(result) + times(result)) for result in shown)
    drawn = [*rows(shown)]
    height = HEAD + len(drawn) * ROW + 10
    one = NAMES + UNIT
    return (f'<svg xmlns="http://www.w3.org/2000/svg" viewBox="0 0 {width:.0f} {height}" role="img">\n'
            f'  <title>How many times as fast as the Rust crates: {escape(told(shown))}</title>\n'
            f'  <style>{STYLE}  </style>\n'
            f'{"".join(bar(result, number) if result else heading(group, number) for number, (group, result) in enumerate(drawn))}'
            f'  <line class="one" x1="{one}" y1="{HEAD - 12}" x2="{one}" y2="{height - 10}"/>\n'
            f'  <text x="{one}" y="{HEAD - 18}" text-anchor="middle">as fast as Rust</text>\n'
            f'</svg>\n')


def told(shown):
    """The chart in words, for those who don't see it."""
    def part(group):
        title, other, version = GROUPS[group]
        results = (f'{result["bar"]} {ratios(result)}{times(result)}' for result in shown if result['group'] == group)
        return f'{title}, next to {other} {version}: {"; ".join(results)}'

    return '. '.join(map(part, GROUPS))


def with_table(page, head, table):
    """A page with another table in the place of the one that begins so."""
    start = page.index(head)
    return page[:start] + table + page[page.index('\n\n', start) + 1:]


def made(results):
    """What each file is to hold."""
    timed = [result for result in results if 'least' in result]
    counted = [result for result in results if 'instructions' in result]
    page = with_table(PAGE.read_text(), TABLE_HEAD, table(timed))
    return {CHART: chart(timed), PAGE: with_table(page, COUNTS_HEAD, counts_table(counted))}


def rounded(ratio, said):
    """A ratio with as many decimals as a page says."""
    return f'{ratio:.{len(said.partition(".")[2])}f}'


def wrong_range(page, kind, results):
    """What a page says wrong of a kind, or nothing."""
    text = ' '.join((ROOT / page).read_text().split())
    said = re.search(SAID[kind], text)
    if not said:
        return f'{page} says no range of {kind}'
    ends = [result[end] for result in results if result.get('kind') == kind for end in ('least', 'most')]
    right = [rounded(end, word) for end, word in zip((min(ends), max(ends)), said.groups())]
    return '' if [*said.groups()] == right else f'{page} says {" to ".join(said.groups())} of {kind}: {" to ".join(right)}'


def wrong_files(files):
    """The files that aren't what the results make them."""
    for file, text in files.items():
        if not file.exists() or file.read_text() != text:
            yield f'{file.relative_to(ROOT)} is not that of the results: run bench/plot.py'


def check(results):
    """Ends with 1 if a file or a range isn't that of the results."""
    files = made(results)
    wrong = [*wrong_files(files)]
    told_ranges = [wrong_range(page, kind, results) for page, kinds in SAYING.items() for kind in kinds]
    wrong += filter(None, told_ranges)
    print(*wrong, sep='\n', end='\n' if wrong else '')
    print(f'{len(files) + len(told_ranges) - len(wrong)} passed, {len(wrong)} failed')
    sys.exit(bool(wrong))


def main():
    results = json.loads(RESULTS.read_text())
    if sys.argv[1:] == ['--check']:
        check(results)
    files = made(results)
    for file, text in files.items():
        file.parent.mkdir(exist_ok=True)
        file.write_text(text)


main()
