#!/usr/bin/env python3
"""Measures mcscheck --show findings beside mcsim: CPU seconds and maximum memory.

It is to take at most 1.3 times what `mcsim --show reports` takes with as many workers. Of each run the least of several tries counts, the programs
by turns; some systems have deadlines that each round meets, or misses. Nothing else should run meanwhile. With --instructions millions of them are
counted by valgrind in place of seconds, between two horizons of a fiftieth and a hundredth, whatever else runs; with --write as well, how many
times the others' they are is put into docs/PERFORMANCE.md. The count of the last line is of systems: one passes that is within its aim."""
from __future__ import annotations

import datetime
import pathlib
import re
import sys
import tempfile
from collections.abc import Callable, Sequence
from typing import NamedTuple

sys.dont_write_bytecode = True
sys.path[0] = str(pathlib.Path(__file__).resolve().parents[2])
from checks import common
from checks.common import Count, Word
from checks.measure import costs, performance
from checks.measure.measured import Cost, put_between, run_measured
from checks.measure.performance import cells, crowd, headed

COUNTING = ('valgrind', '--tool=callgrind', '--callgrind-out-file=/dev/null')
# the parts of a horizon between which instructions are counted
PARTS = (50, 100)
# at most so many times reports
AIM = 1.3
BEGIN, END = '<!-- table of checks/measure/checker_costs.py -->', '<!-- end of the table of verdicts -->'
HEAD = ['System', 'Horizon', 'Workers', 'Check: %s', 'MB', 'Reports: %s', 'MB', 'Both: %s', 'MB', 'To reports', 'To both', f'Aim {AIM}']
# what is not measured counts as so many seconds
LEAST = 0.005
# a run may find something, or judge nothing
FOUND = (0, 5, 6)


class Case(NamedTuple):
    """A system, whose text is made when it is wanted since the memory of this script is the floor of the measurement, and how it is run."""

    name: str
    text: Callable[[], str]
    horizon: int
    workers: int = 1


def with_deadline(text: str, deadline: int) -> str:
    return text.replace('script = ', f'deadline = {deadline}\nscript = ')


def many(delay: int = 1000) -> str:
    """64 cores that signal each other."""
    return crowd(64, 8, delay, signals=True)


CASES = (
    Case('8 threads', lambda: crowd(1, 8), 10_000_000),
    Case('8 threads, each round in time', lambda: with_deadline(crowd(1, 8), 2**30), 10_000_000),
    Case('8 threads, each round late', lambda: with_deadline(crowd(1, 8), 1), 10_000_000),
    Case('256 threads', lambda: crowd(1, 256), 5_000_000),
    Case('4,096 threads', lambda: crowd(1, 4096), 1_000_000),
    Case('one thread that computes', costs.long_compute, 50_000_000),
    Case('4 cores of 8 threads', lambda: crowd(4, 8, signals=True), 500_000),
    Case('64 cores of 8 threads', many, 100_000),
    Case('64 cores of 8 threads, each round late', lambda: with_deadline(many(), 1), 100_000),
    Case('64 cores of 8 threads', many, 100_000, workers=4),
    Case('64 cores of 8 threads, delay 1', lambda: many(1), 50_000),
    Case('64 cores, idle', performance.idle, 2**40),
    Case('64 cores of 64 threads', costs.full, 20_000),
    # it is last, since Python keeps its room
    Case('a file of 55 MB', costs.large_file, 0),
)


def least(costs_found: list[Cost]) -> Cost:
    """The try that took the least CPU time."""
    return min(costs_found, key=lambda cost: cost.of_processor)


def instructions(command: Sequence[Word], case: Case, scale: int) -> int:
    """How many a run takes, to a part of its horizon."""
    words = [*COUNTING, *command, '--horizon', str(case.horizon // scale)]
    ran = common.run(words, seconds=10 * common.SECONDS)
    found = re.search(rb'Collected : (\d+)', ran.stderr)
    if ran.status not in FOUND or found is None:
        common.stop(f'{case.name}: valgrind ended with status {ran.status}: {ran.stderr.decode(errors="replace")[-200:]}')
    return int(found[1])


def counted(command: Sequence[Word], case: Case) -> Cost:
    """The millions of instructions between two parts of the horizon, or of the whole run where that is 0; no memory is told."""
    many = [instructions(command, case, scale) for scale in PARTS[:1 + (case.horizon > 0)]]
    return Cost(0, (many[0] - sum(many[1:])) / 1e6, 0, 0)


class Verdict(NamedTuple):
    """What the check took, then the reports and then both."""

    case: Case
    horizon: int
    costs: list[Cost]

    def times(self, other: int) -> float:
        """How many times what another took the check took."""
        check, others = (max(cost.of_processor, LEAST) for cost in (self.costs[0], self.costs[other]))
        return check / others

    @property
    def is_met(self) -> bool:
        return self.times(1) <= AIM

    @property
    def last_cells(self) -> list[str]:
        return [f'{self.times(1):.2f}', f'{self.times(2):.2f}', 'met' if self.is_met else 'missed']

    def line(self) -> str:
        shown = [part for cost in self.costs for part in (f'{cost.of_processor:.2f}', f'{cost.megabytes:.0f}')]
        return cells([self.case.name, f'{self.horizon:,}', self.case.workers, *shown, *self.last_cells])

    def short_line(self) -> str:
        return cells([self.case.name, self.case.workers, *self.last_cells])


def put_into_page(verdicts: Sequence[Verdict]) -> None:
    head = ['System', 'Workers', 'Times `--show reports`', 'Times `--show both`', HEAD[-1]]
    table = headed(head, (verdict.short_line() for verdict in verdicts))
    put_between(BEGIN, END, '\n'.join([f'Counted on {datetime.date.today()}.', '', *table]))


class Measuring:
    """The programs, and how they are tried."""

    def __init__(self, simulator: pathlib.Path, tries: int, scale: int, counts: bool) -> None:
        checker = common.beside(simulator, 'mcscheck')
        self.commands: list[list[Word]] = [[checker, '--show', 'findings'], [simulator, '--show', 'reports'], [simulator, '--show', 'both']]
        self.tries, self.scale, self.counts = tries, scale, counts

    def costs(self, case: Case, file: pathlib.Path) -> list[Cost]:
        if self.counts:
            return [counted([*command, file, '--workers', str(case.workers)], case) for command in self.commands]
        words: list[Word] = [file, '--horizon', str(case.horizon // self.scale), '--workers', str(case.workers)]
        turns = [[run_measured([*command, *words]) for command in self.commands] for _ in range(self.tries)]
        for cost in (cost for turn in turns for cost in turn):
            if cost.status not in FOUND:
                common.stop(f'{case.name}: a run ended with status {cost.status}')
        return [least(list(found)) for found in zip(*turns)]

    def verdict(self, case: Case, file: pathlib.Path) -> Verdict:
        file.write_text(case.text())
        return Verdict(case, case.horizon // self.scale, self.costs(case, file))


def main() -> None:
    parser = common.asking_program(__doc__)
    parser.add_argument('--tries', type=int, default=5, help='how often each is run (default 5)')
    parser.add_argument('--quick', action='store_true', help='a tenth of each horizon')
    parser.add_argument('--instructions', action='store_true', help='counts instructions by valgrind')
    parser.add_argument('--case', action='append', metavar='WORD', help='only the systems whose name begins with this; may be given several times')
    parser.add_argument('--write', action='store_true', help='puts how many times the others\' they are into docs/PERFORMANCE.md')
    words = parser.parse_args()
    if words.write and not words.instructions:
        parser.error('--write wants --instructions')
    measuring = Measuring(common.built_program(words.program), words.tries, 10 if words.quick else 1, words.instructions)
    count, unit = Count(), '10^6' if words.instructions else 's'
    verdicts: list[Verdict] = []
    print('\n'.join(headed([name.replace('%s', unit) for name in HEAD], ())), flush=True)
    with tempfile.TemporaryDirectory() as folder:
        for case in CASES:
            if not words.case or case.name.startswith(tuple(words.case)):
                verdicts.append(measuring.verdict(case, pathlib.Path(folder, 'system.toml')))
                print(verdicts[-1].line(), flush=True)
                count.add(passed=int(verdicts[-1].is_met), failed=int(not verdicts[-1].is_met))
    if words.write:
        put_into_page(verdicts)
    count.end()


if __name__ == '__main__':
    main()
