#!/usr/bin/env python3
"""Holds docs/FAULTS.md to the program: it names each fault of a file or a run and has a diff for it, whose wrong file gives the fault, and the mended file none.

A diff goes from wrong to right, with the line that the wrong one gives after '#'. It is of docs/every_table.toml, or a whole file if it begins with the
version, or of commands. The mended file or command runs to the end without a word. tools/explain tells the fault of each wrong file with a line of it
and something to say of it. The texts of the faults are read from the sources, so that none is forgotten."""
from __future__ import annotations

import os
import pathlib
import re
import sys
import tempfile
from collections.abc import Iterator, Sequence
from typing import NamedTuple

sys.dont_write_bytecode = True
sys.path[0] = str(pathlib.Path(__file__).resolve().parents[2])
from checks import common, tool
from checks.common import TOP, Count, Ran
from checks.pages import pages

PAGE = TOP / 'docs' / 'FAULTS.md'
# the file of which a diff is, unless it has a whole one
BASE = TOP / 'docs' / 'every_table.toml'
CRATES = TOP / 'crates'
FILES = CRATES / 'mcs_load' / 'src' / 'fault.rt'
RUNS = CRATES / 'mcs_cli' / 'src' / 'fault.rt'
# faults with a text before that of another one, and where that stands
WITHIN = {'bad item': CRATES / 'mcs_script' / 'src' / 'fault.rt', 'control': CRATES / 'mcs_control' / 'src' / 'config.rt'}
# a fault that no file has: there is room enough, or there is not
WITHOUT_FILE = 'no memory'
# faults of the options, which the sources of files and runs do not have, with how their lines begin
OF_OPTIONS = {
    'Options that are not understood': 'error: ',
    'A notification that is not there': 'mcscheck: --allow-lost: no notification is called "',
    'An unknown thread, chain, job or answer': 'mcscheck: --why: ',
}
COMMANDS = ('./mcsim', './mcscheck')


class Part(NamedTuple):
    """A diff of the page: a wrong file or command, the line that it gives, and the mended one."""

    wrong: str
    line: str
    mended: str
    is_file: bool

    @property
    def asks_checker(self) -> bool:
        return not self.is_file and pages.CHECKER in self.wrong


def texts_of(source: pathlib.Path) -> list[str]:
    """The texts that the faults of a file of the sources write."""
    return re.findall(r'f\.write_str\("(?:mcsim: )?([^"]+)"\)', source.read_text())


def faults() -> dict[str, str]:
    """How the line of each fault begins, by the fault's text without its place."""
    inner = (f'{before}: {text}' for before, source in WITHIN.items() for text in texts_of(source))
    return {**{text: f'mcsim: {text}' for text in (*texts_of(FILES), *texts_of(RUNS), *inner)}, **OF_OPTIONS}


def hunks_of(block: str) -> Iterator[list[str]]:
    """The hunks of a block: one for each wrong line, or a single one if it has lines around them."""
    lines = block.splitlines()
    starts = [0] if any(line.startswith('  ') for line in lines) else [k for k, line in enumerate(lines) if line.startswith('-')]
    for start, end in zip(starts, [*starts[1:], len(lines)]):
        yield lines[start:end]


def side(hunk: Sequence[str], sign: str) -> str:
    """What a hunk has on one side, without the fault."""
    return '\n'.join(re.sub(r'\s+# [^#]*$', '', line[1:])[1:] for line in hunk if line[0] in (sign, ' '))


def part_of(hunk: Sequence[str], base: str) -> Part:
    wrong, mended = side(hunk, '-'), side(hunk, '+')
    line = next(line for line in hunk if line.startswith('-')).rpartition(' # ')[2]
    if any(command in mended for command in COMMANDS):
        return Part(wrong, line, mended, False)
    if mended.startswith('version = ') and '\n' in mended:
        return Part(wrong, f'mcsim: {line}', mended, True)
    if base.count(mended) != 1:
        common.stop(f'{PAGE.name}: {mended!r} stands {base.count(mended)} times in {BASE.name}')
    return Part(base.replace(mended, wrong), f'mcsim: {line}', base, True)


def parts_of(text: str, base: str) -> list[Part]:
    """The diffs of the page."""
    return [part_of(hunk, base) for kind, block in pages.blocks_in(text) if kind == 'diff' for hunk in hunks_of(block)]


def fault_of(line: str) -> str | None:
    """The fault that a line tells: the longest text with which it begins."""
    told = [text for text, begins in faults().items() if line.startswith(begins)]
    return max(told, key=len) if told else None


def ran(program: pathlib.Path, text: str, is_file: bool) -> Ran:
    """What a file that is read comes to, or a command."""
    return common.run([program], text.encode()) if is_file else pages.ran(program, text)


def explained(program: pathlib.Path, folder: pathlib.Path, text: str) -> Ran:
    """What tools/explain says of a file."""
    file = folder / 'system.toml'
    file.write_text(text)
    return tool.run('explain', file.name, cwd=folder, env={**os.environ, 'MCSIM': str(program)})


def lines_of(written: bytes) -> list[str]:
    return written.decode(errors='replace').splitlines()


def explains(told: Ran, line: str) -> bool:
    """Whether a fault was told with a line of the file, and something beside it."""
    lines = lines_of(told.stdout)
    fault = line.partition('mcsim: ')[2]
    return told.status == 1 and bool(lines) and bool(re.fullmatch(rf'system\.toml:\d+:\d+: {re.escape(fault)}', lines[0])) and lines[-1].startswith('  ')


def try_part(program: pathlib.Path, folder: pathlib.Path, part: Part, count: Count) -> None:
    count.expect(f'{part.line}: no fault of the sources', fault_of(part.line) is not None)
    wrong, mended = ran(program, part.wrong, part.is_file), ran(program, part.mended, part.is_file)
    first = (lines_of(wrong.stderr) or [''])[0]
    count.expect(f'{part.line}: the wrong one gives {first!r}, status {wrong.status}', wrong.status > 0 and first == part.line)
    count.expect(f'{part.line}: the mended one gives {mended.stderr.decode()!r}, status {mended.status}', mended.status == 0 and not mended.stderr)
    if part.is_file:
        told = explained(program, folder, part.wrong)
        count.expect(f'{part.line}: tools/explain says {told.stdout.decode()!r}', explains(told, part.line))


def try_first_lines(program: pathlib.Path, text: str, count: Count) -> None:
    """The command at the head of the page, and what it prints."""
    command, written = (block for _, block in pages.blocks_in(text.partition('\n## ')[0]))
    told = pages.ran(program, command)
    count.expect(f'the head of the page: {told.stdout.decode()!r}', told == Ran(1, written.encode(), b''))


def try_faults(text: str, parts: Sequence[Part], count: Count) -> None:
    """Each fault is named on the page, with a cause, and has a diff."""
    shown = {fault_of(part.line) for part in parts}
    for fault in sorted(faults()):
        name = re.escape(fault.rpartition(': ')[2])
        count.expect(f'{fault}: no cause on the page', re.search(rf'^(- |\*\*)`?{name}`?(\*\*)?: [\w`]', text, re.M) is not None)
        count.expect(f'{fault}: no diff on the page', fault in shown or fault == WITHOUT_FILE)


def main() -> None:
    program = common.built_program(common.asking_program(__doc__).parse_args().program)
    count, text = Count(), PAGE.read_text()
    try_first_lines(program, text, count)
    parts = parts_of(text, BASE.read_text())
    try_faults(text, parts, count)
    has_checker = common.checker_of(program) is not None
    with tempfile.TemporaryDirectory() as folder:
        for part in parts:
            if part.asks_checker and not has_checker:
                count.skip(f'{part.line}: mcscheck is not there')
            else:
                try_part(program, pathlib.Path(folder), part, count)
    count.end()


if __name__ == '__main__':
    main()
