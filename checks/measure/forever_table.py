#!/usr/bin/env python3
"""Measures how often mcscheck --forever finds a repetition, how late, and at which cost.

The systems are random ones as of verdicts.py, those with chains apart, a third as many random sets of periodic tasks with a clock each, as many of workers that share a
notification or a lock, and the files of this repository. A set is looked at up to a horizon. Where no repetition is found, though the rows of the set
came ten times at its end, that is counted: there one may have been missed, and --missed names each. A row of the schedule counts as an event.

What it takes is held against a run of mcsim --show reports to the end of the latest first period, or to the horizon where a set or a chain does not repeat, both on
one worker: of systems for which that run takes some hundredths of a second, CPU seconds, of each the least of three tries; nothing else
should run meanwhile. With --instructions valgrind counts them instead, without those of a run to horizon 0, whatever else runs: on all processors, since
nothing is timed. With --write both tables, or the first one with --found, are written to docs/FOREVER.md, between the lines that mark their place. The count of the last line is of runs of which two agree on the status."""
from __future__ import annotations

import argparse
import concurrent.futures
import os
import pathlib
import random
import re
import statistics
import sys
import tempfile
from collections.abc import Iterator, Sequence
from typing import NamedTuple, Optional

sys.dont_write_bytecode = True
sys.path[0] = str(pathlib.Path(__file__).resolve().parents[2])
from checks import common
from checks.common import DATA, TOP, Count
from checks.measure import forever_rows
from checks.measure.measured import run_measured
from checks.program import analyses, forever_reading as forever, verdicts
from checks.random_pools import pool_of
from checks.random_systems import text_of

sys.path.insert(0, str(TOP / 'tools'))
from mcsim_tools import writing

PAGE = TOP / 'docs' / 'FOREVER.md'
FOUND_HEAD = ['Systems', 'Sets', 'Repeat', 'Within', 'End of the first period', 'Rows up to then', 'Nothing ever found', 'Perhaps missed']
COST_HEAD = ['Systems', 'Runs', 'Reports: {}', 'Forever: {}', 'Together', 'Median', '9 of 10', 'Greatest']
WITHIN = (100, 1000, 10_000)
CHAIN = re.compile(r'^chain \S+: (?:repeats from (\d+) with period (\d+)|no repetition found)', re.M)
STATUSES = (0, 5, 6)
# a run that takes less is not measured, in seconds and in instructions
LEAST = {False: 0.02, True: 2e6}
TRIES = 3
COUNTING = ('valgrind', '--tool=callgrind', '--callgrind-out-file=/dev/null')


def texts(many: int, seed: int) -> Iterator[tuple[str, str, str]]:
    """The kind, the name and the text of each system."""
    for number in range(many):
        tables = verdicts.tables_of(random.Random(f'{seed} {number}'))
        yield 'random, with chains' if tables.get('chain') else 'random', f'random {number}', text_of(tables)
    for number in range(many // 3):
        form = analyses.form_of(random.Random(f'{seed} {number}'), True)
        yield 'periodic tasks', f'tasks {number}', writing.system_text(form.tables())
    for number in range(many // 3):
        yield 'shared waits', f'pool {number}', text_of(pool_of(random.Random(f'{seed} {number}')))
    for file in sorted([*DATA.glob('*/*.toml'), *(TOP / 'examples' / 'systems').glob('*.toml')]):
        yield 'files', str(file.relative_to(TOP)), file.read_text(errors='replace')


class Set(NamedTuple):
    """A set of a system, where its first period ends if it repeats, its rows up to then, whether nothing is ever found, and whether a repetition may have been missed."""

    end: Optional[int]
    rows: int
    is_clean: bool
    may_be_missed: bool


class Cost(NamedTuple):
    reports: float
    forever: float


class Look(NamedTuple):
    """A system that was looked at: its kind and name, the status and standard error of the check, its sets, the lines of what may be missed, and its cost if that is measured."""

    kind: str
    name: str
    status: int
    error: str
    sets: Sequence[Set]
    missed: Sequence[str]
    cost: Optional[Cost]


def chain_ends(text: str, horizon: int) -> list[int]:
    """Where the first period of each chain ends, or the horizon if it was not found to repeat."""
    return [int(first) + int(period) if period else horizon for first, period in CHAIN.findall(text)]


def quartiles(numbers: Sequence[float]) -> str:
    """The quartiles of numbers, and the greatest."""
    if not numbers:
        return '-'
    parts = statistics.quantiles(numbers, n=4, method='inclusive') if len(numbers) > 1 else [numbers[0]] * 3
    return ' / '.join(f'{round(part):,}' for part in (*parts, max(numbers)))


def share(many: int, of: int) -> str:
    return f'{100 * many / of:.0f} %' if of else '-'


class Table:
    """The two programs, and what was found of each kind of system."""

    def __init__(self, words: argparse.Namespace, simulator: pathlib.Path) -> None:
        self.words, self.simulator, self.checker = words, simulator, common.beside(simulator, 'mcscheck')
        self.sets: dict[str, list[Set]] = {}
        self.costs: dict[str, list[Cost]] = {}
        self.count = Count()

    def look(self, kind: str, name: str, text: str) -> Optional[Look]:
        """Looks at a system; none if it is refused."""
        with tempfile.TemporaryDirectory() as folder:
            file = pathlib.Path(folder, 'system.toml')
            file.write_text(text)
            return self.look_at(kind, name, file)

    def look_at(self, kind: str, name: str, file: pathlib.Path) -> Optional[Look]:
        ran = common.run([self.checker, file, '--forever', f'--horizon={self.words.horizon}'], seconds=600)
        if ran.status == 1:
            return None
        claims = forever.claims_of(ran.stdout.decode())
        ends = [self.words.horizon if claim.end is None else claim.end for claim in claims]
        far = max(ends + chain_ends(ran.stdout.decode(), self.words.horizon), default=0)
        lines = common.run([self.simulator, file, f'--horizon={far}'], seconds=600).stdout.decode().splitlines()
        sets = [self.set_of(claim, lines) for claim in claims]
        missed = [f'{name}: cores {claim.cores}: rows come again from {forever_rows.period_of(self.own(claim, lines), self.words.horizon)}' for claim, found in zip(claims, sets) if found.may_be_missed]
        cost = None if self.words.found else self.cost(file, far, ran.status)
        return Look(kind, name, ran.status, ran.stderr.decode(errors='replace'), sets, missed, cost)

    def add(self, look: Look) -> None:
        self.count.expect(f'{look.name}: status {look.status}: {look.error}', look.status in STATUSES)
        self.sets.setdefault(look.kind, []).extend(look.sets)
        if self.words.missed:
            for line in look.missed:
                print(line)
        if look.cost is not None:
            self.costs.setdefault(look.kind, []).append(look.cost)

    def own(self, claim: forever.Claim, lines: Sequence[str]) -> list[str]:
        cores = {int(core) for core in claim.cores.split()}
        return [line for line in lines if forever.core_of(line) in cores]

    def set_of(self, claim: forever.Claim, lines: Sequence[str]) -> Set:
        own = self.own(claim, lines)
        if claim.end is None:
            return Set(None, len(own), False, forever_rows.period_of(own, self.words.horizon) is not None)
        return Set(claim.end, sum(forever.moment_of(line) <= claim.end for line in own), claim.is_clean, False)

    # ---- what it takes

    def cost(self, file: pathlib.Path, far: int, status: int) -> Optional[Cost]:
        """What the two runs of a system take; none if the first takes too little to be measured."""
        reports: tuple[common.Word, ...] = (self.simulator, file, '--show=reports', f'--horizon={far}')
        check: tuple[common.Word, ...] = (self.checker, file, '--forever', f'--horizon={self.words.horizon}')
        if self.words.instructions:
            least = self.instructions_of_run(reports)
            return Cost(least, self.instructions_of_run(check)) if least >= LEAST[True] else None
        runs = [[run_measured(command) for command in (reports, check)] for _ in range(TRIES)]
        self.count.expect(f'{file.name}: another status than {status}', all(checked.status == status for _, checked in runs))
        cost = Cost(*(max(min(run[place].of_processor for run in runs), 1e-3) for place in (0, 1)))
        return cost if cost.reports >= LEAST[False] else None

    def instructions_of_run(self, command: Sequence[common.Word]) -> int:
        """The instructions of a run without those up to horizon 0; its last word is the horizon."""
        return max(self.instructions(command) - self.instructions([*command[:-1], '--horizon=0']), 1)

    def instructions(self, command: Sequence[common.Word]) -> int:
        found = re.search(rb'Collected : (\d+)', common.run([*COUNTING, *command], seconds=3600).stderr)
        return int(found[1]) if found else 0

    # ---- what is told

    def found_rows(self) -> Iterator[list[str]]:
        for kind, sets in self.sets.items():
            repeating = [each for each in sets if each.end is not None]
            ends = [each.end for each in repeating if each.end is not None]
            within = ' / '.join(share(sum(end <= most for end in ends), len(sets)) for most in WITHIN)
            numbers = quartiles(ends), quartiles([each.rows for each in repeating])
            clean, missed = (sum(flags) for flags in zip(*((each.is_clean, each.may_be_missed) for each in sets)))
            yield [kind, f'{len(sets):,}', share(len(repeating), len(sets)), within, *numbers, share(clean, len(sets)), f'{missed:,}']

    def cost_rows(self) -> Iterator[list[str]]:
        unit = 1e6 if self.words.instructions else 1
        for kind, costs in self.costs.items():
            ratios = sorted(cost.forever / cost.reports for cost in costs)
            reports, check = sum(cost.reports for cost in costs), sum(cost.forever for cost in costs)
            parts = statistics.median(ratios), ratios[(len(ratios) * 9 + 9) // 10 - 1], ratios[-1]
            yield [kind, f'{len(costs):,}', f'{reports / unit:,.2f}', f'{check / unit:,.2f}', f'{check / reports:.2f}', *(f'{part:.2f}' for part in parts)]

    def tables(self) -> list[str]:
        unit = '10^6' if self.words.instructions else 's'
        found = [table(FOUND_HEAD, self.found_rows())]
        return found if self.words.found else [*found, table([name.format(unit) for name in COST_HEAD], self.cost_rows())]


def table(head: Sequence[str], rows: Iterator[list[str]]) -> str:
    lines = [head, ['---'] * len(head), *rows]
    return ''.join(f'| {" | ".join(line)} |\n' for line in lines).replace('| --- ', '|---').replace('|--- |', '|---|').replace('--- |', '---|')


def written(page: str, tables: Sequence[str]) -> str:
    """The page with these tables in their places."""
    for number, text in enumerate(tables, 1):
        page = re.sub(rf'(<!-- table {number} -->\n).*?(<!-- end of table {number} -->)', lambda found: found[1] + text + found[2], page, flags=re.S)
    return page


def asked() -> argparse.Namespace:
    parser = common.asking_random(__doc__, 300)
    parser.add_argument('--horizon', type=int, default=100_000, help='up to which a repetition is looked for (default 100000)')
    parser.add_argument('--missed', action='store_true', help='names the sets of which a repetition may have been missed')
    parser.add_argument('--instructions', action='store_true', help='counts instructions by valgrind')
    parser.add_argument('--found', action='store_true', help='counts only what is found: the second table is not made')
    parser.add_argument('--write', action='store_true', help='writes the tables to docs/FOREVER.md')
    return parser.parse_args()


def main() -> None:
    words = asked()
    found = Table(words, common.built_program(words.program))
    with concurrent.futures.ThreadPoolExecutor(len(os.sched_getaffinity(0)) if words.instructions or words.found else 1) as pool:
        for look in pool.map(found.look, *zip(*texts(words.systems, words.seed))):
            if look is not None:
                found.add(look)
    print('\n'.join(found.tables()))
    if words.write:
        PAGE.write_text(written(PAGE.read_text(), found.tables()))
    found.count.end()


if __name__ == '__main__':
    main()
