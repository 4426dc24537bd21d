#!/usr/bin/env python3
"""Checks the manual pages and the completions against the programs: options, ranges, defaults, exit codes, keys, examples.

Each option, with its value, default and range, each status and each word of `--show` stands both in the page and in the program's `--help`; the
keys of mcsim.1 are those of docs/mcsim.schema.json; the programs give what the pages' examples say; the completions of each shell have the page's
options, the launcher's and the words of `--show`; and mandoc, where it is installed, has nothing to say of a page."""
from __future__ import annotations

import json
import pathlib
import re
import shutil
import sys
import tempfile
from collections.abc import Sequence
from typing import Any, NamedTuple, Optional

sys.dont_write_bytecode = True
sys.path[0] = str(pathlib.Path(__file__).resolve().parents[2])
from checks import common
from checks.common import TOP, Count

COMPLETIONS = TOP / 'launcher' / 'completions'
# the words of the launcher, which the programs do not know; those that stand alone are on no list of options
LAUNCHER = {'version', 'install', 'uninstall', 'prove'}
TYPED = {'mcsim': {'tick-us'}, 'mcscheck': {'tick-us', 'color', 'rows'}}
RANGE = r'\b(\d+ to [\d^]+)'
# what mandoc says of a page that another one names, where that is not installed
NOT_INSTALLED = ' referenced manual not found: '

# the names of an option's values, their default and their range, each None where there is none
Option = tuple[Optional[str], Optional[str], Optional[str]]


def option(values: str, default: re.Match[str] | None, text: str) -> Option:
    bounds = re.search(RANGE, text)
    return values or None, default[1] if default else None, bounds[1] if bounds else None


class Page:
    """The manual page of a program."""

    def __init__(self, name: str) -> None:
        self.name, self.source = name, TOP / 'docs' / f'{name}.1'
        self.text = self.source.read_text()

    def section(self, name: str) -> str:
        """The lines of one section."""
        return self.text.split(f'.Sh {name}\n', 1)[1].split('\n.Sh ', 1)[0]

    def options(self) -> dict[str, Option]:
        pattern = r'^\.It (?:Fl \w(?: Ar \w+)? , )?Fl -([\w-]+)(?: Ar ([\w ]+))?\n(.*?)(?=^\.It |^\.El)'
        found = {}
        for name, values, text in re.findall(pattern, self.section('DESCRIPTION'), re.M | re.S):
            default = re.search(r'The default is (\w+)', text) or re.search(r'^\.Cm (\w+)\n\(the default\)', text, re.M)
            found[name] = option(values, default, text)
        return found

    def choices(self) -> list[str]:
        """The words of --show, where it has them."""
        item = re.search(r'^\.It Fl s , Fl -show.*?(?=^\.It )', self.text, re.M | re.S)
        return sorted(re.findall(r'^\.Cm (\w+)', item[0], re.M)) if item else []

    def statuses(self) -> list[str]:
        return re.findall(r'^\.It (\d)$', self.section('EXIT STATUS'), re.M)

    def keys(self) -> dict[str, list[str]]:
        """For each table of the file the keys that the page lists."""
        found = {}
        for title, text in re.findall(r'^\.Ss ([^\n]*)\n(.*?)(?=^\.Ss |\Z)', self.section('THE FILE'), re.M | re.S):
            table = re.search(r'\[\[(\w+)\]\]', title)
            names = re.findall(r'^\.It Li ([a-z_ ,]+)$', text, re.M)
            found[table[1] if table else ''] = sorted(name for line in names for name in line.split(' , '))
        return found

    def examples(self) -> tuple[str, list[str], str]:
        """A file, commands with what they write, and a line that runs several files."""
        system, *commands = re.findall(r'^\.Bd -literal -offset indent\n(.*?)^\.Ed', self.section('EXAMPLES'), re.M | re.S)
        return system, commands, re.findall(r'^\.Dl (.*)$', self.section('EXAMPLES'), re.M)[0]


class Pages(NamedTuple):
    """A page, and what its examples come to: the status of each command, what its last line writes for a system, and the words of that run."""

    page: Page
    statuses: Sequence[int]
    beside: str
    words: Sequence[str]
    named: bytes


def options_of_help(text: str) -> dict[str, Option]:
    part = text.partition('Options:\n')[2].partition('\n\n')[0]
    items = re.findall(r'--([\w-]+)((?: <\w+>)*)\s+(.*(?:\n {20,}\S.*)*)', part)
    return {name: option(re.sub('[ <>]+', ' ', values).strip(), re.search(r'\[default: (\w+)\]', rest), rest) for name, values, rest in items}


def choices_of_help(text: str) -> list[str]:
    found = re.search(r'\[possible values: (.*?)\]', text)
    return sorted(found[1].split(', ')) if found else []


def keys_of_schema() -> dict[str, list[str]]:
    schema = json.loads((TOP / 'docs' / 'mcsim.schema.json').read_text())
    found = {'': sorted(schema['properties'])}
    for name in ('context', 'note', 'server', 'thread', 'source', 'order', 'link', 'chain'):
        found[name] = sorted(schema['definitions'][name]['properties'])
    return found


def completed(file: pathlib.Path) -> tuple[set[str], list[str]]:
    """The options that the completions of a shell have, and the words of --show."""
    text = file.read_text()
    options = re.findall(r'-l ([\w-]+)' if file.suffix == '.fish' else r'--([a-z-]+)', text)
    choices = re.search(r'(?:-W \'|what:\(|show -x -a \')([a-z ]+)[)\']', text)
    return set(options), sorted(choices[1].split()) if choices else []


def written_in(block: str) -> tuple[str, str]:
    """A command, and what it writes; a line may be shown as two."""
    command, written = block.removeprefix('$ ').split('\n', 1)
    return command, re.sub(r'\n  (.*?) +\(one line\)', r' \1', written)


class Trial:
    """Pages beside the programs."""

    def __init__(self, programs: dict[str, pathlib.Path]) -> None:
        self.programs = programs
        self.count = Count()

    def same(self, what: str, page: object, program: object) -> None:
        self.count.expect(f'{what}: the page has {page!r}, the program {program!r}', page == program)

    def lists(self, page: Page) -> None:
        """What the page and the help list."""
        text, name = common.run([self.programs[page.name], '--help']).stdout.decode(), page.name
        options, typed = page.options(), TYPED[name]
        self.same(f'options of {name}', {option: how for option, how in options.items() if option not in typed}, options_of_help(text))
        self.count.expect(f'{name}.1 does not have all options of the launcher', typed <= options.keys())
        self.same(f'words of --show of {name}', page.choices(), choices_of_help(text))
        self.same(f'statuses of {name}', page.statuses(), re.findall(r'^  (\d)  ', text, re.M))
        for file in (COMPLETIONS / form.format(name) for form in ('_{}', '{}.bash', '{}.fish')):
            wanted = ({*options_of_help(text), *LAUNCHER, *typed}, choices_of_help(text))
            self.count.expect(f'{file.name} has {completed(file)}, and not {wanted}', completed(file) == wanted)

    def examples(self, pages: Pages, folder: pathlib.Path) -> None:
        """The page's examples, in a folder with its system and the programs."""
        text, commands, many = pages.page.examples()
        (folder / 'system.toml').write_text(text)
        for name, program in self.programs.items():
            (folder / name).symlink_to(program)
        how: dict[str, Any] = {'cwd': folder, 'env': {'PATH': f'{folder}:/usr/bin:/bin'}}
        name = pages.page.name
        found = []
        for command, written in map(written_in, commands):
            ran = common.run(['sh', '-c', command], **how)
            self.same(f'{name}: {command}', written, (ran.stdout + ran.stderr).decode())
            found.append(ran.status)
        self.same(f'statuses of the examples of {name}', list(pages.statuses), found)
        ran = common.run(['sh', '-c', many], **how)
        beside = folder / f'system.toml.{pages.beside}'
        wanted = common.run([self.programs[name], folder / 'system.toml', *pages.words]).stdout
        told = (beside.read_bytes() if beside.exists() else None, ran.stdout, ran.stderr)
        self.same(f'{name}: {many}', (wanted, pages.named, b''), told)

    def lint(self, page: Page) -> None:
        if shutil.which('mandoc'):
            said = common.run(['mandoc', '-Tlint', page.source]).stdout.decode().splitlines(keepends=True)
            self.same(f'mandoc -Tlint {page.name}.1', '', ''.join(line for line in said if NOT_INSTALLED not in line))
        else:
            self.count.skip(f'the look of mandoc at {page.name}.1, since it is not installed')


def main() -> None:
    simulator = common.built_program(common.asking_program(__doc__).parse_args().program)
    trial = Trial({name: simulator if name == 'mcsim' else common.beside(simulator, name) for name in common.PROGRAMS})
    every = (
        Pages(Page('mcsim'), (0, 1), 'rows', (), b''),
        # the second and the fourth command end with tail, and the third with grep
        Pages(Page('mcscheck'), (5, 0, 0, 0, 2), 'found', (), b'system.toml\n'),
    )
    for pages in every:
        trial.lists(pages.page)
        with tempfile.TemporaryDirectory() as folder:
            trial.examples(pages, pathlib.Path(folder))
        trial.lint(pages.page)
    trial.same('keys', every[0].page.keys(), keys_of_schema())
    trial.count.end()


if __name__ == '__main__':
    main()
