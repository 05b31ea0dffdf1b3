#!/usr/bin/env python3
"""Makes the man page of `ftl` and its completions for bash, zsh and fish from what `ftl --help` prints.

    help.py PROGRAM SHARE

So the program's own table of commands is the only one. Prints nothing, and ends with 1 if the help can't be read.
"""
import re
import subprocess
import sys
from pathlib import Path
from typing import NamedTuple

# The values that are files, by their names in the help.
FILES = {'FILE', 'PATH'}
# A choice, which may have a remark, and the choices of an option, which end its help with the usual one.
CHOICE = r'[a-z]+(?: \([^)]*\))?'
CHOICES = re.compile(rf'((?:{CHOICE}, )*{CHOICE} or {CHOICE}) \[default: ([a-z]+)\]$')


class Option(NamedTuple):
    short: str
    long: str
    value: str
    about: str
    choices: tuple[str, ...]


class Command(NamedTuple):
    name: str
    about: str
    usage: str
    arguments: list[tuple[str, str]]
    options: list[Option]
    after: str


def section(text: str, title: str) -> list[str]:
    found = re.search(rf'^{title}:\n((?:  .*\n?)*)', text, re.M)
    return found[1].splitlines() if found else []


def codes(text: str) -> tuple[str, ...]:
    return tuple(code.strip(' ,') for line in section(text, 'Codes') for code in line.split())


def choices(about: str) -> tuple[str, ...]:
    """The choices of an option by its help, such as `Write it as text or json [default: text]`."""
    listed = CHOICES.search(about)
    if not listed:
        if '[default: ' in about:
            raise SystemExit(f'help.py: no choices before the usual one: {about!r}')
        return ()
    found = tuple(re.split(r', | or ', re.sub(r' \([^)]*\)', '', listed[1])))
    if listed[2] not in found:
        raise SystemExit(f'help.py: the usual choice isn\'t one: {about!r}')
    return found


def option(line: str, text: str) -> Option:
    found = re.fullmatch(r' +(?:-(\w), |  +)?--([\w-]+)(?: <(\w+(?:=\w+)?)>)?(?: {2,}(.*))?', line)
    if not found:
        raise SystemExit(f'help.py: no option: {line!r}')
    value, about = found[3] or '', found[4] or ''
    return Option(found[1] or '', found[2], value, about, codes(text) if value == 'CODE' else choices(about))


def pair(line: str) -> tuple[str, str]:
    name, _, about = line.strip().partition('  ')
    return name, about.strip()


def command(name: str, text: str) -> Command:
    about, _, rest = text.partition('\n')
    usage = re.search(r'^Usage: (.*)$', rest, re.M)
    after = re.search(r'^(Example: .*)$', rest, re.M)
    if not usage:
        raise SystemExit(f'help.py: the help of {name or "ftl"} has no usage')
    return Command(
        name, about, usage[1],
        [pair(line) for line in section(rest, 'Arguments')],
        [option(line, rest) for line in section(rest, 'Options')],
        after[1] if after else '',
    )


def commands(program: str) -> list[Command]:
    def help_of(*words: str) -> str:
        return subprocess.run([program, *words, '--help'], capture_output=True, text=True, check=True).stdout

    whole = help_of()
    names = [pair(line)[0] for line in section(whole, 'Commands')]
    return [command('', whole), *(command(name, help_of(name)) for name in names if name != 'help')]


def dashed(text: str) -> str:
    return text.replace('\\', '\\e').replace('-', '\\-').replace("'", '\\(aq')


def man_option(option: Option) -> str:
    short = f'\\-{option.short}, ' if option.short else ''
    value = f' \\fI{dashed(option.value)}\\fR' if option.value else ''
    # Those that aren't named in the words of the help.
    choices = ', '.join(option.choices) if any(choice not in option.about for choice in option.choices) else ''
    about = f'{option.about}: {choices}' if choices else option.about
    return f'.TP\n\\fB{short}\\-\\-{dashed(option.long)}\\fR{value}\n{dashed(about)}\n'


def man_command(command: Command) -> str:
    text = f'.SS {dashed(command.usage)}\n{dashed(command.about)}.\n'
    text += ''.join(f'.TP\n\\fI{dashed(name)}\\fR\n{dashed(about)}\n' for name, about in command.arguments)
    text += ''.join(man_option(option) for option in command.options)
    return text + (f'.PP\n{dashed(command.after)}\n' if command.after else '')


def man_page(version: str, whole: Command, rest: list[Command]) -> str:
    return (
        f'.TH FTL 1 "" "ftl {version}"\n'
        f'.SH NAME\nftl \\- {dashed(whole.about[0].lower() + whole.about[1:])}\n'
        f'.SH SYNOPSIS\n\\fBftl\\fR \\fICOMMAND\\fR [\\fIOPTIONS\\fR] \\fIFILE\\fR...\n'
        '.SH COMMANDS\n' + ''.join(map(man_command, rest)) +
        '.SH OPTIONS\n' + ''.join(map(man_option, whole.options)) +
        '.SH EXIT STATUS\n'
        '0 if all went well; 1 if \\fBcheck\\fR, \\fBlint\\fR or \\fBformat\\fR reported something, or a source can\\(aqt '
        'be tidied; 2 for a bad command line; 3 if a file or a stream can\\(aqt be read or written; 4 if memory ran out.\n'
    )


def words(command: Command) -> str:
    return ' '.join(f'--{option.long}' for option in command.options)


def bash_word(value: str) -> str:
    """What compgen completes of such a value: codes may have commas between them."""
    return '-P "${word%"${word##*,}"}" -- "${word##*,}"' if value == 'CODE' else '-- "$word"'


def bash(whole: Command, rest: list[Command]) -> str:
    cases = ''.join(f'        {it.name}) options="{words(it)}" ;;\n' for it in rest)
    values = ''.join(
        f'        --{name}) COMPREPLY=($(compgen -W "{" ".join(choices)}" {bash_word(value)})); return ;;\n'
        for name, value, choices in sorted({(o.long, o.value, o.choices) for it in rest for o in it.options if o.choices})
    )
    return (
        '# Completion of ftl for bash.\n'
        '_ftl() {\n'
        '    local word=${COMP_WORDS[COMP_CWORD]} before=${COMP_WORDS[COMP_CWORD - 1]} options=\n'
        '    COMPREPLY=()\n'
        '    if ((COMP_CWORD == 1)); then\n'
        f'        COMPREPLY=($(compgen -W "{" ".join(it.name for it in rest)} help {words(whole)}" -- "$word"))\n'
        '        return\n'
        '    fi\n'
        f'    case $before in\n{values}    esac\n'
        f'    case ${{COMP_WORDS[1]}} in\n{cases}    esac\n'
        '    if [[ $word == -* ]]; then\n'
        '        COMPREPLY=($(compgen -W "$options" -- "$word"))\n'
        '    else\n'
        '        COMPREPLY=($(compgen -f -- "$word"))\n'
        '    fi\n'
        '}\n'
        'complete -o filenames -F _ftl ftl\n'
    )


def quoted(text: str) -> str:
    return text.replace("'", "'\\''").replace('[', '\\[').replace(']', '\\]').replace(':', '\\:')


def zsh_option(option: Option) -> str:
    action = f':{option.value}:({" ".join(option.choices)})' if option.choices else \
        f':{option.value}:_files' if option.value in FILES else f':{option.value.replace("=", " ")}:' if option.value else ''
    return f"'*--{option.long}[{quoted(option.about)}]{action}'"


def zsh(whole: Command, rest: list[Command]) -> str:
    described = ''.join(f"        '{it.name}:{quoted(it.about)}'\n" for it in rest)
    cases = ''.join(
        f'        {it.name}) _arguments -s {" ".join(map(zsh_option, it.options))} \'*:file:_files\' ;;\n' for it in rest
    )
    return (
        '#compdef ftl\n'
        '# Completion of ftl for zsh.\n'
        '_ftl() {\n'
        f'    local -a commands=(\n{described}    )\n'
        '    if ((CURRENT == 2)); then\n'
        "        _describe command commands\n"
        '        return\n'
        '    fi\n'
        '    local chosen=$words[2]\n'
        '    shift words\n'
        '    ((CURRENT -= 1))\n'
        f'    case $chosen in\n{cases}    esac\n'
        '}\n'
        '_ftl "$@"\n'
    )


def fish(whole: Command, rest: list[Command]) -> str:
    def told(text: str) -> str:
        return "'" + text.replace('\\', '\\\\').replace("'", "\\'") + "'"

    def line(command: Command, option: Option) -> str:
        value = f' -x -a {told(" ".join(option.choices))}' if option.choices else ' -r' if option.value else ''
        return f"complete -c ftl -n '__fish_seen_subcommand_from {command.name}' -l {option.long}{value} -d {told(option.about)}\n"

    return (
        '# Completion of ftl for fish.\n' +
        ''.join(f"complete -c ftl -n __fish_use_subcommand -f -a {it.name} -d {told(it.about)}\n" for it in rest) +
        ''.join(line(it, option) for it in rest for option in it.options)
    )


def write(path: Path, text: str) -> None:
    path.parent.mkdir(parents=True, exist_ok=True)
    path.write_text(text)


def main() -> None:
    program, share = sys.argv[1], Path(sys.argv[2])
    version = subprocess.run([program, '--version'], capture_output=True, text=True, check=True).stdout.split()[1]
    whole, *rest = commands(program)
    write(share / 'man/man1/ftl.1', man_page(version, whole, rest))
    write(share / 'bash-completion/completions/ftl', bash(whole, rest))
    write(share / 'zsh/site-functions/_ftl', zsh(whole, rest))
    write(share / 'fish/vendor_completions.d/ftl.fish', fish(whole, rest))


if __name__ == '__main__':
    main()
