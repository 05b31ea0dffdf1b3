#!/usr/bin/env python3
"""Asks the program `ftl` for texts, one after the other. Run it at the top of the repository."""
import subprocess

ftl = subprocess.Popen(['./ftl', 'run', '--no-isolating', 'examples/hello.ftl'],
                       stdin=subprocess.PIPE, stdout=subprocess.PIPE)


def ask(request):
    """The text that answers a request line, and its errors; `None` if there is no text."""
    ftl.stdin.write(request.encode() + b'\n')
    ftl.stdin.flush()
    head = ftl.stdout.readline().split()
    if head[0] != b'ok':
        return None, []
    text = ftl.stdout.read(int(head[1]) + 1)[:-1].decode()
    return text, [ftl.stdout.readline().decode().rstrip('\n') for _ in range(int(head[2]))]


print(ask('welcome\tname=Jane'))
print(ask('welcome'))
print(ask('farewell'))
