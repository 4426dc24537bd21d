#!/usr/bin/env python3
"""Holds the manual pages and completions of the tools to their options; with --write it writes them.

Both are made from the descriptions that argparse has of each tool of tools/: docs/man/mcsim-TOOL.1, and for all tools together
launcher/completions/tools.bash, _mcsim-tools (zsh) and tools.fish. A file that is not what is made now is a failure. mandoc, if it is installed,
looks at each manual page."""
from __future__ import annotations

import argparse
import contextlib
import importlib
import pathlib
import re
import shutil
import sys
from collections.abc import Iterator, Sequence
from typing import NoReturn
from unittest import mock

sys.dont_write_bytecode = True
sys.path[0] = str(pathlib.Path(__file__).resolve().parents[2])
from checks import common
from checks.common import TOP, Count

sys.path.insert(1, str(TOP / 'tools'))
from mcsim_tools import options

MANUAL, COMPLETIONS = TOP / 'docs' / 'man', TOP / 'launcher' / 'completions'
# options whose default is a path of this machine, and what a page says instead
PLACES = {'program': 'mcsim', 'checker': 'mcscheck'}


class Asked(Exception):
    """A tool has its options, and asks for words."""


def tools() -> list[str]:
    """The names of the tools."""
    return sorted(path.name for path in (TOP / 'tools').iterdir() if path.is_file() and common.is_program(path))


def parser_of(tool: str) -> options.Options:
    """The options of a tool, as it makes them before it reads any word."""
    found: list[options.Options] = []

    def asked(self: options.Options) -> NoReturn:
        found.append(self)
        raise Asked

    with mock.patch.object(sys, 'argv', [f'mcsim-{tool}']), mock.patch.object(options.Options, 'asked', asked), contextlib.suppress(Asked):
        importlib.import_module(f'mcsim_tools.{tool}').main()
    return found[0]


def actions_of(parser: argparse.ArgumentParser) -> list[argparse.Action]:
    """The options of a parser, without those that are hidden."""
    return [action for action in parser._actions if action.help is not argparse.SUPPRESS]


def help_of(action: argparse.Action) -> str:
    """The help of an option with its default, on one line."""
    facts = {name: value for name, value in vars(action).items() if value is not argparse.SUPPRESS} | {'prog': 'mcsim'}
    if action.dest in PLACES:
        facts['default'] = PLACES[action.dest]
    return ' '.join(((action.help or '') % facts).split())


def value_of(action: argparse.Action) -> str:
    """What stands for the value of an option, if it has one."""
    if action.nargs == 0:
        return ''
    if action.choices is not None:
        return '|'.join(map(str, action.choices))
    metavar = action.metavar if isinstance(action.metavar, str) else action.dest.upper()
    return f'{metavar} ..' if action.nargs in ('+', '*') else metavar


def is_path(action: argparse.Action) -> bool:
    return action.type is pathlib.Path


# The manual pages

def roff(text: str) -> str:
    """A line of text as roff has it."""
    escaped = text.replace('\\', '\\e').replace('-', '\\-')
    return f'\\&{escaped}' if escaped[:1] in ('.', "'") else escaped


def paragraphs(doc: str) -> Iterator[str]:
    """The paragraphs of a tool's description in roff; those that are indented or list calls keep their lines."""
    for number, text in enumerate(doc.strip().split('\n\n')[1:]):
        lines = text.splitlines()
        keeps = all(line.startswith('    ') for line in lines)
        yield '\n'.join([*['.PP'] * (number > 0), *['.nf'] * keeps, *map(roff, lines), *['.fi'] * keeps])


def calls(doc: str) -> list[str]:
    """The calls with which a description begins."""
    return doc.strip().split('\n\n')[0].splitlines()


def first_sentence(doc: str) -> str:
    found = re.match(r'(.*?)[.:](\s|$)', ' '.join(doc.strip().split('\n\n')[1].split()))
    text = found[1] if found else ''
    return text[:1].lower() + text[1:]


def item(action: argparse.Action) -> str:
    """An option or an argument in roff."""
    value = value_of(action)
    names = ', '.join(f'\\fB{roff(name)}\\fR' for name in action.option_strings)
    head = ' '.join(filter(None, [names, value and f'\\fI{roff(value)}\\fR']))
    return f'.TP\n{head}\n{roff(help_of(action))}'


def date() -> str:
    """The date of the manual pages: that of mcsim.1."""
    found = re.search(r'^\.Dd (.*)$', (TOP / 'docs' / 'mcsim.1').read_text(), re.M)
    return found[1] if found else ''


def manual(tool: str, parser: argparse.ArgumentParser) -> str:
    """The manual page of a tool."""
    doc = parser.description or ''
    name = f'mcsim-{tool}'
    lines = [
        f'.\\" Made by checks/pages/tool_pages.py of tools/mcsim_tools/{tool}.py.',
        f'.TH {name.upper().replace("-", chr(92) + "-")} 1 "{date()}" mcsim',
        '.SH NAME', f'{roff(name)} \\- {roff(first_sentence(doc))}',
        '.SH SYNOPSIS', '.nf', *(roff(f'mcsim-{call}') for call in calls(doc)), '.fi',
        '.SH DESCRIPTION', *paragraphs(doc),
        '.SH OPTIONS', *map(item, actions_of(parser)),
        '.SH SEE ALSO', '.BR mcsim (1),', '.BR mcscheck (1)',
    ]
    return '\n'.join(lines) + '\n'


# The completions

def long_names(parser: argparse.ArgumentParser) -> list[str]:
    return [name for action in actions_of(parser) for name in action.option_strings if name.startswith('--')]


def bash(parsers: dict[str, options.Options]) -> str:
    """Completions of all tools for bash."""
    words, choices = [], []
    for tool, parser in parsers.items():
        words.append(f"        mcsim-{tool}) words='{' '.join(long_names(parser))}' ;;")
        for action in actions_of(parser):
            if action.choices is not None:
                names = '|'.join(f'mcsim-{tool}:{name}' for name in action.option_strings)
                choices.append(f"        {names}) values='{' '.join(map(str, action.choices))}' ;;")
    return '\n'.join([
        '# Completions of the tools of mcsim for bash; checks/pages/tool_pages.py makes them.', '_mcsim_tools() {',
        '    local word=${COMP_WORDS[COMP_CWORD]} before=${COMP_WORDS[COMP_CWORD - 1]} tool=${COMP_WORDS[0]##*/} words= values=',
        '    case $tool in', *words, '    esac', '    case $tool:$before in', *choices, '    esac',
        '    if [[ -n $values ]]; then', "        mapfile -t COMPREPLY < <(compgen -W \"$values\" -- \"$word\")",
        '    elif [[ $word == -* ]]; then', "        mapfile -t COMPREPLY < <(compgen -W \"$words\" -- \"$word\")",
        '    else', '        compopt -o filenames', "        mapfile -t COMPREPLY < <(compgen -f -- \"$word\")", '    fi', '}',
        f'complete -F _mcsim_tools {" ".join(f"mcsim-{tool}" for tool in parsers)}', '',
    ])


def zsh_option(action: argparse.Action) -> Iterator[str]:
    """An option of a tool as _arguments takes it."""
    said = re.sub(r"[\[\]:']", '', help_of(action))
    value = value_of(action)
    kind = f'({" ".join(map(str, action.choices))})' if action.choices is not None else '_files' if is_path(action) else ''
    for name in action.option_strings:
        yield f"        '{name}[{said}]{f':{action.dest}:{kind}' if value else ''}'"


def zsh(parsers: dict[str, options.Options]) -> str:
    """Completions of all tools for zsh."""
    lines = [f'#compdef {" ".join(f"mcsim-{tool}" for tool in parsers)}', '# Completions of the tools of mcsim for zsh; checks/pages/tool_pages.py makes them.', 'case $service in']
    for tool, parser in parsers.items():
        every = [line for action in actions_of(parser) for line in zsh_option(action)]
        lines += [f'    mcsim-{tool})', '        _arguments \\', *(f'    {line} \\' for line in every), "            '*:file:_files'", '        ;;']
    return '\n'.join([*lines, 'esac', ''])


def fish_option(tool: str, action: argparse.Action) -> str:
    """An option of a tool as fish's complete takes it."""
    parts = [f'complete -c mcsim-{tool}']
    parts += [f'-l {name[2:]}' if name.startswith('--') else f'-s {name[1:]}' for name in action.option_strings]
    if action.choices is not None:
        parts.append(f"-x -a '{' '.join(map(str, action.choices))}'")
    elif value_of(action):
        parts.append('-r' if is_path(action) else '-x')
    said = help_of(action).replace('\\', '\\\\').replace("'", "\\'")
    return ' '.join([*parts, f"-d '{said}'"])


def fish(parsers: dict[str, options.Options]) -> str:
    """Completions of all tools for fish."""
    lines = [fish_option(tool, action) for tool, parser in parsers.items() for action in actions_of(parser) if action.option_strings]
    return '\n'.join(['# Completions of the tools of mcsim for fish; checks/pages/tool_pages.py makes them.', *lines, ''])


def made() -> dict[pathlib.Path, str]:
    """What each file is to hold."""
    parsers = {tool: parser_of(tool) for tool in tools()}
    found = {MANUAL / f'mcsim-{tool}.1': manual(tool, parser) for tool, parser in parsers.items()}
    shells = {'tools.bash': bash, '_mcsim-tools': zsh, 'tools.fish': fish}
    return found | {COMPLETIONS / name: of(parsers) for name, of in shells.items()}


def look_at(page: pathlib.Path, count: Count) -> None:
    """What mandoc finds in a manual page."""
    ran = common.run(['mandoc', '-T', 'lint', '-W', 'warning', page])
    count.expect(f'{page.relative_to(TOP)}: {ran.stdout.decode().strip()}', not ran.stdout.strip())


def main(words: Sequence[str]) -> None:
    parser = common.asking(__doc__)
    parser.add_argument('--write', action='store_true', help='write the files')
    asked = parser.parse_args(words)
    count, files = Count(), made()
    for path, text in files.items():
        if asked.write:
            path.parent.mkdir(exist_ok=True)
            path.write_text(text)
        count.expect(f'{path.relative_to(TOP)} is not what checks/pages/tool_pages.py --write makes', path.is_file() and path.read_text() == text)
    if shutil.which('mandoc'):
        for path in files:
            if path.suffix == '.1' and path.is_file():
                look_at(path, count)
    else:
        count.skip('mandoc, which looks at the manual pages')
    count.end()


if __name__ == '__main__':
    main(sys.argv[1:])
