#!/usr/bin/env python3
"""Checks that the waves of tools/waves say what the rows of each worked schedule say.

A dump is read back, and for each core the thread that runs, for each thread whether it runs, the date of its budget and its rounds, for each
notification its word and its arrivals are compared, moment by moment, with what the rows say. The view that is saved beside it names each wave once.
Where vcd2fst (of GTKWave) is installed it reads each dump without a word."""
from __future__ import annotations

import pathlib
import shutil
import sys
import tempfile
from collections.abc import Sequence
from typing import NamedTuple

sys.dont_write_bytecode = True
sys.path[0] = str(pathlib.Path(__file__).resolve().parents[2])
from checks import common, tool
from checks.common import DATA, TOP, Count

# the changes of a wave: pairs of the moment (-1 before the first) and the value
Changes = list[tuple[int, str]]
EVENT = 'event'


class Row(NamedTuple):
    moment: int
    core: int
    words: list[str]


def rows_of(text: str) -> list[Row]:
    """The rows of a schedule; lines of reports are passed over."""
    split = (line.split() for line in text.splitlines())
    return [Row(int(words[0]), int(words[1]), words[2:]) for words in split if words[0].isdigit()]


def waves_of(dump: str) -> dict[str, Changes]:
    """For each wave of a dump its changes."""
    scope: list[str] = []
    names: dict[str, str] = {}
    found: dict[str, Changes] = {}
    moment = -1
    for line in dump.splitlines():
        words = line.split()
        if words[0] == '$scope':
            scope.append(words[2])
        elif words[0] == '$upscope':
            scope.pop()
        elif words[0] == '$var':
            names[words[3]] = '.'.join([*scope, words[4]])
            found[names[words[3]]] = []
        elif words[0].startswith('#'):
            moment = int(words[0][1:])
        elif words[0][0] in 'sb':
            found[names[words[1]]].append((moment, words[0][1:]))
        elif words[0][0] == '1':
            found[names[words[0][1:]]].append((moment, EVENT))
    return found


class Told:
    """What the rows say of each wave at each moment at which they say something, the last word of a moment; of events, their moments."""

    def __init__(self, rows: Sequence[Row]) -> None:
        self.values: dict[str, dict[int, str | bool]] = {}
        self.events: dict[str, set[int]] = {}
        for row in rows:
            self.hear_thread(row)
            self.hear_note(row)

    def tell(self, wave: str, moment: int, value: str | bool) -> None:
        self.values.setdefault(wave, {})[moment] = value

    def hear_thread(self, row: Row) -> None:
        here, word = f'core{row.core}', row.words[0]
        if word in ('run', 'stop'):
            self.tell(f'{here}.runs', row.moment, row.words[1] if word == 'run' else '-')
        if word in ('run', 'stop', 'release'):
            date = f'{int(row.words[-1]):b}' if 'until' in row.words else 'z'
            self.tell(f'{here}.until.{row.words[1]}', row.moment, date)
            self.tell(f'{here}.threads.{row.words[1]}', row.moment, word == 'run')
        if word == 'round':
            self.events.setdefault(f'{here}.rounds.{row.words[1]}', set()).add(row.moment)
        if word == 'wake':
            # what follows the wake says whether it is ready
            for part in ('until', 'threads'):
                self.values.get(f'{here}.{part}.{row.words[1]}', {}).pop(row.moment, None)

    def hear_note(self, row: Row) -> None:
        here, word = f'core{row.core}', row.words[0]
        if word == 'hold':
            self.tell(f'{here}.words.{row.words[1]}', row.moment, f'{int(row.words[2]):b}')
        if word == 'got':
            self.tell(f'{here}.words.{row.words[2]}', row.moment, '0')
        if word in ('arrive', 'interrupt'):
            self.events.setdefault(f'{here}.arrivals.{row.words[1 if word == "arrive" else 2]}', set()).add(row.moment)


def value_at(changes: Changes, moment: int) -> str:
    return [value for at, value in changes if at <= moment][-1]


def shown(wave: str, changes: Changes, moment: int) -> str | bool:
    """What a wave shows at a moment; of a thread's state, whether it runs."""
    value = value_at(changes, moment)
    return value == 'running' if '.threads.' in wave else value


def compare(file: pathlib.Path, rows: Sequence[Row], waves: dict[str, Changes], count: Count) -> None:
    told = Told(rows)
    for wave, values in told.values.items():
        read = {moment: shown(wave, waves[wave], moment) for moment in values}
        count.expect(f'{file}: {wave} has {list(read.items())[:3]}', read == values)
    for wave, moments in told.events.items():
        count.expect(f'{file}: {wave}', waves[wave] == [(moment, EVENT) for moment in sorted(moments)])


def made(system: pathlib.Path, rows: str) -> tuple[bytes, str]:
    """The dump of rows, and the view that is saved beside it."""
    with tempfile.TemporaryDirectory() as folder:
        view = pathlib.Path(folder, 'view.gtkw')
        dump = tool.run('waves', system, '--rows', '-', '--save', view, stdin=rows.encode()).stdout
        return dump, view.read_text() if view.exists() else ''


def names_of(view: str) -> list[str]:
    """The waves that a view of GTKWave names."""
    lines = (line for line in view.splitlines() if line.startswith('+'))
    return [line.rpartition(' ')[2].partition('[')[0] for line in lines]


def pack(file: pathlib.Path, dump: bytes, count: Count) -> None:
    """Whether vcd2fst reads a dump without a word."""
    with tempfile.TemporaryDirectory() as folder:
        written = pathlib.Path(folder, 'dump.vcd')
        written.write_bytes(dump)
        packed = common.run(['vcd2fst', written, pathlib.Path(folder, 'dump.fst')])
    count.expect(f'{file}: vcd2fst: {(packed.stdout + packed.stderr).decode()}', packed == (0, b'', b''))


def main() -> None:
    common.asking(__doc__).parse_args()
    count = Count()
    packs = shutil.which('vcd2fst') is not None
    for file in sorted(DATA.glob('*/*/*.stdout')):
        text = file.read_text()
        if text[:1].isdigit():
            dump, saved = made(file.parent.with_suffix('.toml'), text)
            if not dump:
                count.expect(f'{file.relative_to(TOP)}: tools/waves gave nothing', False)
                continue
            compare(file.relative_to(TOP), rows_of(text), waves_of(dump.decode()), count)
            count.expect(f'{file.relative_to(TOP)}: the view and the dump have other waves', sorted(names_of(saved)) == sorted(waves_of(dump.decode())))
            if packs:
                pack(file.relative_to(TOP), dump, count)
    if not packs:
        count.skip('the reading by vcd2fst, which is not installed')
    count.end()


if __name__ == '__main__':
    main()
