#!/usr/bin/env python3
"""Measures what four workers gain, beside another program that writes the same bytes.

The system is that of 64 cores in cases.py, the horizon ten times as far as there, so that the file counts for less. Of each program and show three runs
are measured by turns: to moment 0, which is the load alone, to the horizon with one worker, and with four. Of each the least time that passes counts.
A file is read by one thread, so what the runs gain without that is told as well. Nothing else should run meanwhile. With --write the table is put into
docs/PERFORMANCE.md. The count of the last line is of shows for which all runs of both programs wrote the same bytes."""
from __future__ import annotations

import datetime
import hashlib
import pathlib
import subprocess
import sys
import tempfile
from collections.abc import Sequence
from typing import NamedTuple

sys.dont_write_bytecode = True
sys.path[0] = str(pathlib.Path(__file__).resolve().parents[2])
from checks import common
from checks.common import Count
from checks.measure.cases import many_cores
from checks.measure.measured import put_between, run_measured
from checks.measure.performance import headed, processor

BEGIN, END = '<!-- table of checks/measure/gains.py -->', '<!-- end of the table of gains -->'
HORIZON = 3 * 10**5
WORKERS = 4
SHOWS = ('schedule', 'reports')
TRIES = 7


class Gain(NamedTuple):
    """Seconds of a run to moment 0, of one worker, and of several."""

    load: float
    one: float
    several: float

    @property
    def cells(self) -> list[str]:
        whole, without = self.one / self.several, (self.one - self.load) / (self.several - self.load)
        return [*(f'{seconds * 1000:.0f}' for seconds in self), f'{whole:.2f}', f'{without:.2f}']


def command(program: pathlib.Path, file: pathlib.Path, show: str, horizon: int, workers: int) -> list[str]:
    return [str(program), str(file), '--horizon', str(horizon), '--workers', str(workers), '--show', show]


def digest(words: Sequence[str]) -> str:
    """That of what a run writes."""
    ran = subprocess.run(words, stdout=subprocess.PIPE, check=False)
    if ran.returncode:
        common.stop(f'{" ".join(words)} ended with status {ran.returncode}')
    return hashlib.sha256(ran.stdout).hexdigest()


def gains(programs: Sequence[pathlib.Path], file: pathlib.Path, show: str, tries: int) -> list[Gain]:
    """What each program gains, whose runs are measured by turns."""
    asked = ((0, 1), (HORIZON, 1), (HORIZON, WORKERS))
    least = [[float('inf')] * len(asked) for _ in programs]
    for _ in range(tries):
        for number, program in enumerate(programs):
            for place, (horizon, workers) in enumerate(asked):
                seconds = run_measured(command(program, file, show, horizon, workers)).seconds
                least[number][place] = min(least[number][place], seconds)
    return [Gain(*seconds) for seconds in least]


def main() -> None:
    asking = common.asking_program(__doc__)
    asking.add_argument('other', type=pathlib.Path, help='the program beside which it is measured')
    asking.add_argument('--tries', type=int, default=TRIES, help=f'how often each run is measured (default: {TRIES})')
    asking.add_argument('--write', action='store_true', help='put the table into docs/PERFORMANCE.md')
    words = asking.parse_args()
    programs = {'the other': words.other.resolve(), 'mcsim': common.built_program(words.program).resolve()}
    count = Count()
    rows = []
    with tempfile.TemporaryDirectory() as folder:
        file = pathlib.Path(folder, 'system.toml')
        file.write_text(many_cores())
        for show in SHOWS:
            found = {digest(command(program, file, show, HORIZON, workers)) for program in programs.values() for workers in (1, WORKERS)}
            count.expect(f'{show}: the bytes differ', len(found) == 1)
            for name, gain in zip(programs, gains(list(programs.values()), file, show, words.tries)):
                rows.append(f'| {show} | {name} | ' + ' | '.join(gain.cells) + ' |')
    lines = headed(['Show', 'Program', 'Load, ms', '1 worker, ms', f'{WORKERS} workers, ms', 'Gain', 'Gain without the load'], rows)
    print('\n'.join(lines))
    if words.write:
        put_between(BEGIN, END, '\n'.join([f'Measured on {datetime.date.today()} ({processor()}).', '', *lines]))
    count.end()


if __name__ == '__main__':
    main()
