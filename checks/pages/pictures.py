#!/usr/bin/env python3
"""Checks that the pictures of pages are those that tools/view draws today; with --write, draws them.

A page names the command of each of its pictures, `tools/view SYSTEM .. -o FILE.svg`. Each command is run at the top of the repository, but writes
elsewhere, and what it draws has to be the file, byte for byte. With --write the pictures are drawn anew. The commands in blocks of docs/VIEWER.md are
run too, beside the repository: each ends with status 0 and says nothing. Those that open a window or a page are left out."""
from __future__ import annotations

import pathlib
import re
import shlex
import sys
import tempfile
import xml.etree.ElementTree as ElementTree

sys.dont_write_bytecode = True
sys.path[0] = str(pathlib.Path(__file__).resolve().parents[2])
from checks import common, tool
from checks.common import TOP, Count

DOCS = TOP / 'docs'
VIEWER = DOCS / 'VIEWER.md'
PAGES = [TOP / 'README.md', VIEWER, DOCS / 'MODELLING.md', DOCS / 'WORST.md', *sorted((TOP / 'examples').glob('*.md'))]
BLOCK = re.compile(r'^```sh\n(.*?)^```', re.M | re.S)
NOT_RUN = ('gtkwave ', 'tools/live ')
COMMAND = re.compile(r'`(tools/view [^`\n]* -o (examples/pictures/[^`\s]+\.svg))`')
IMAGE = re.compile(r'!\[[^\]]+\]\(([^)\s]+\.svg)\)')


def commands_of(page: pathlib.Path) -> dict[pathlib.Path, str]:
    """The pictures whose commands a page names."""
    return {TOP / target: command for command, target in COMMAND.findall(page.read_text())}


def images_of(page: pathlib.Path) -> set[pathlib.Path]:
    """The pictures that a page shows."""
    return {(page.parent / name).resolve() for name in IMAGE.findall(page.read_text())}


def environment(program: pathlib.Path) -> dict[str, str]:
    return {**tool.environment(), 'MCSIM': str(program)}


def try_commands(page: pathlib.Path, program: pathlib.Path, count: Count) -> None:
    """Runs the commands in blocks of a page, in a folder from which the repository's are seen."""
    commands = [line for block in BLOCK.findall(page.read_text()) for line in block.splitlines() if not line.startswith(NOT_RUN)]
    with tempfile.TemporaryDirectory() as folder:
        for name, target in (('tools', TOP / 'tools'), ('crates', TOP / 'crates'), ('mcsim', program)):
            pathlib.Path(folder, name).symlink_to(target)
        for command in commands:
            ran = common.run(['sh', '-c', command], cwd=folder, env=environment(program))
            count.expect(f'{page.name}: {command}: {ran}', ran == (0, b'', b''))


def drawn(program: pathlib.Path, command: str) -> common.Ran | bytes:
    """What a command draws, or how it ended where it drew nothing."""
    name, *words = shlex.split(command)
    with tempfile.TemporaryDirectory() as folder:
        target = pathlib.Path(folder, 'picture.svg')
        words[words.index('-o') + 1] = str(target)
        ran = tool.run(pathlib.Path(name).name, *words, cwd=TOP, env=environment(program))
        return target.read_bytes() if ran == (0, b'', b'') and target.exists() else ran


def try_picture(target: pathlib.Path, command: str, program: pathlib.Path, writes: bool, count: Count) -> None:
    found = drawn(program, command)
    if not isinstance(found, bytes):
        count.expect(f'{command}: {found}', False)
        return
    if writes:
        target.parent.mkdir(exist_ok=True)
        target.write_bytes(found)
    is_fresh = target.exists() and target.read_bytes() == found
    count.expect(f'{target.relative_to(TOP)} is not what is drawn today: {pathlib.Path(__file__).name} --write', is_fresh)
    count.expect(f'{target.relative_to(TOP)} is no SVG', ElementTree.fromstring(found).tag.endswith('svg'))


def main() -> None:
    parser = common.asking_program(__doc__)
    parser.add_argument('--write', action='store_true', help='draws the pictures anew')
    words = parser.parse_args()
    program, count = common.built_program(words.program), Count()
    commands: dict[pathlib.Path, str] = {}
    for page in PAGES:
        own = commands_of(page)
        count.expect(f'{page.name}: pictures that it shows and those whose commands it names differ', images_of(page) == set(own))
        count.expect(f'{page.name} has no picture', bool(own) or page.parent != TOP / 'examples' and page.name != 'README.md')
        for target, command in own.items():
            count.expect(f'{page.name}: another command draws {target.name}', commands.setdefault(target, command) == command)
    for target, command in commands.items():
        try_picture(target, command, program, words.write, count)
    try_commands(VIEWER, program, count)
    kept = set((TOP / 'examples' / 'pictures').glob('*.svg'))
    count.expect('pictures that no page has', kept <= set(commands))
    count.end()


if __name__ == '__main__':
    main()
