"""The sessions of a page: calls after `$ `, each before what it prints."""
import re
import subprocess


def calls_of(block):
    """The calls of a block's lines, as (call, what it prints)."""
    calls = []
    for line in block:
        if line.startswith('$ '):
            calls.append((line[2:], []))
        elif calls:
            calls[-1][1].append(line)
    return [(call, '\n'.join(lines).rstrip('\n')) for call, lines in calls]


def printed_by(call, status, folder):
    """What a call prints after one that ended with this status, and the status that it ends with itself."""
    ended = subprocess.run(['bash', '-c', f'(exit {status}); {call}'], cwd=folder, stdin=subprocess.DEVNULL,
                           stdout=subprocess.PIPE, stderr=subprocess.STDOUT)
    return ended.stdout.decode(errors='replace').rstrip('\n'), ended.returncode


def wrong_calls(blocks, folder):
    """Makes the calls of blocks in this folder. Yields the number of a block, a call of it, and what that prints, if it isn't
    what the block shows. `cat FILE` of a file that isn't there makes it."""
    status = 0
    for number, block in blocks:
        for call, shown in calls_of(block):
            made = re.fullmatch(r'cat (\S+)', call)
            if made and not (folder / made.group(1)).exists():
                (folder / made.group(1)).write_text(shown + '\n')
                continue
            printed, status = printed_by(call, status, folder)
            if printed != shown:
                yield number, call, printed
