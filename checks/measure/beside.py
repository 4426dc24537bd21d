#!/usr/bin/env python3
"""Measures runs beside those of another program that takes the same options and writes the same bytes: instructions and seconds.

The other program is named after the script, as one that was written for speed alone. On eleven systems (cases.py), with the schedule and with the reports,
one worker each, it first compares the bytes of both, then counts instructions by valgrind, less those of a run with horizon 0, and then takes the
time that passes, the least of seven runs by turns, and so of ten times the horizon, where the file counts for less. Nothing else should run while
time is taken; instructions are the same whatever else runs. With --write the table is put into docs/PERFORMANCE.md, with --no-time it has no
seconds. The count of the last line is of runs whose bytes were the same."""
from __future__ import annotations

import concurrent.futures
import datetime
import hashlib
import os
import pathlib
import re
import subprocess
import sys
import tempfile
from collections.abc import Iterator, Sequence
from typing import NamedTuple

sys.dont_write_bytecode = True
sys.path[0] = str(pathlib.Path(__file__).resolve().parents[2])
from checks import common
from checks.common import Count
from checks.measure.cases import CASES, Case
from checks.measure.measured import put_between, run_measured
from checks.measure.performance import headed, processor

BEGIN, END = '<!-- table of checks/measure/beside.py -->', '<!-- end of the table beside -->'
SHOWS = ('schedule', 'reports')
COUNTING = ('valgrind', '--tool=callgrind', '--callgrind-out-file=/dev/null')
# of so many runs the quickest is told
TRIES = 7
# so many times the horizon have the long runs, and none has more moments
LONG, LATEST = 10, 2**40


class Run(NamedTuple):
    """A system in a file, how it is run, and what it is called."""

    case: Case
    file: pathlib.Path
    show: str

    def command(self, program: pathlib.Path, horizon: int) -> list[str]:
        return [str(program), str(self.file), '--horizon', str(horizon), '--workers', '1', '--show', self.show]

    def bytes_of(self, program: pathlib.Path) -> tuple[int, str]:
        """The status of the run, and the digest of what it writes."""
        ran = subprocess.run(self.command(program, self.case.horizon), stdout=subprocess.PIPE, check=False)
        return ran.returncode, hashlib.sha256(ran.stdout).hexdigest()

    def instructions(self, program: pathlib.Path) -> int:
        """Those of the run less those of one that ends at once."""
        whole, opening = (self.counted(program, horizon) for horizon in (self.case.horizon, 0))
        return whole - opening

    def counted(self, program: pathlib.Path, horizon: int) -> int:
        ran = subprocess.run([*COUNTING, *self.command(program, horizon)], stdout=subprocess.DEVNULL, stderr=subprocess.PIPE, text=True, check=False)
        found = re.search(r'Collected : (\d+)', ran.stderr)
        if ran.returncode or not found:
            common.stop(f'valgrind counted nothing of {self.case.name}')
        return int(found[1])

    def seconds(self, programs: Sequence[pathlib.Path], horizon: int) -> list[float]:
        """The least time that passes of each program, run by turns."""
        least = [float('inf')] * len(programs)
        for _ in range(TRIES):
            for number, program in enumerate(programs):
                cost = run_measured(self.command(program, horizon))
                if cost.status:
                    common.stop(f'a run of {self.case.name} ended with status {cost.status}')
                least[number] = min(least[number], cost.seconds)
        return least

    def times(self, programs: Sequence[pathlib.Path]) -> list[list[float]]:
        """Those of the run, and of a long one."""
        horizons = (self.case.horizon, min(LONG * self.case.horizon, LATEST))
        return [self.seconds(programs, horizon) for horizon in horizons]


def runs(folder: pathlib.Path) -> Iterator[Run]:
    for number, case in enumerate(CASES):
        file = folder / f'{number}.toml'
        file.write_text(case.text())
        for show in SHOWS:
            yield Run(case, file, show)


def told(counts: Sequence[int], times: Sequence[Sequence[float]]) -> list[str]:
    """The cells of one show: millions of instructions and how many times the other's, and so of the seconds of each horizon."""
    other, own = counts
    cells = [f'{other / 1e6:.1f}', f'{own / 1e6:.1f}', f'{own / other:.2f}']
    return cells + [f'{ours / others:.2f}' for others, ours in times]


def table(all_runs: Sequence[Run], programs: Sequence[pathlib.Path], with_time: bool) -> list[str]:
    with concurrent.futures.ThreadPoolExecutor(os.cpu_count()) as pool:
        counts = list(pool.map(lambda run: [run.instructions(program) for program in programs], all_runs))
    rows = []
    for run, counted in zip(all_runs, counts):
        cells = told(counted, run.times(programs) if with_time else [])
        rows.append(f'| {run.case.name} | {run.show} | ' + ' | '.join(cells) + ' |')
    head = ['System', 'Show', 'Other: million instructions', 'mcsim: million instructions', 'Times the other']
    return headed(head + ['In time', 'Ten times the horizon'] if with_time else head, rows)


def main() -> None:
    asking = common.asking_program(__doc__)
    asking.add_argument('other', type=pathlib.Path, help='the program beside which it is measured')
    asking.add_argument('--no-time', action='store_true', help='count instructions alone')
    asking.add_argument('--write', action='store_true', help='put the table into docs/PERFORMANCE.md')
    words = asking.parse_args()
    # valgrind wants a whole path
    programs = [words.other.resolve(), common.built_program(words.program).resolve()]
    count = Count()
    with tempfile.TemporaryDirectory() as folder:
        all_runs = list(runs(pathlib.Path(folder)))
        for run in all_runs:
            other, own = (run.bytes_of(program) for program in programs)
            count.expect(f'{run.case.name}, {run.show}: the bytes or the statuses differ', other == own)
        lines = table(all_runs, programs, not words.no_time)
    print('\n'.join(lines))
    if words.write:
        put_between(BEGIN, END, '\n'.join([f'Measured on {datetime.date.today()} ({processor()}).', '', *lines]))
    count.end()


if __name__ == '__main__':
    main()
