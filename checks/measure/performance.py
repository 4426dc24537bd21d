#!/usr/bin/env python3
"""Measures how time and memory grow with events, threads, cores, workers and delay.

It makes systems, runs the program on each, and prints tables in Markdown: rows of the schedule, seconds that pass, CPU seconds and the
greatest memory, where the schedule is written (to /dev/null) and where only the reports are, each the quickest of three runs. With --write the
tables are put into docs/PERFORMANCE.md in place of those that stand there. Nothing else should run meanwhile. The count of the last line is of
tables."""
from __future__ import annotations

import argparse
import datetime
import functools
import os
import pathlib
import platform
import subprocess
import sys
import tempfile
import time
from collections.abc import Callable, Iterable, Iterator, Sequence

sys.dont_write_bytecode = True
sys.path[0] = str(pathlib.Path(__file__).resolve().parents[2])
from checks import common
from checks.common import Count, Word
from checks.measure.measured import Cost, put_between, run_measured, system_text

BEGIN, END = '<!-- tables of checks/measure/performance.py -->', '<!-- end of tables -->'
MANY = 100
# of so many runs the quickest is told: another user of the machine only slows one down
TRIES = 3
HEAD = ['Horizon', 'Rows', 'Schedule: s', 'CPU s', 'MB', 'Reports: s', 'CPU s', 'MB']


def crowd(cores: int, each: int, delay: int = 1000, signals: bool = False) -> str:
    """So many cores with so many threads each. The threads of a core use a tick of each 4 together, one after another, a tick each; with signals
    the first thread of each core signals one of the next core each 8th time it runs."""
    places = [(core, number, f't{core}_{number}') for core in range(cores) for number in range(each)]

    def script(core: int, number: int) -> list[str]:
        return ['compute 7', f'signal n{(core + 1) % cores} 1'] if signals and number == 0 else ['compute 8']

    contexts = [(name, core, 1, 4 * each) for core, _, name in places]
    threads = [(name, name, number % 255 + 1, script(core, number)) for core, number, name in places]
    return system_text(cores, delay, contexts, threads, [(f'n{core}', core) for core in range(cores)] if signals else ())


def idle() -> str:
    """One thread on each of 64 cores that runs once in 2^30 ticks."""
    contexts = [(f'c{core}', core, 1, 2**30) for core in range(64)]
    return system_text(64, 1, contexts, [(f't{core}', f'c{core}', 5, ['compute 1']) for core in range(64)])


def cells(values: Iterable[object]) -> str:
    return '| ' + ' | '.join(map(str, values)) + ' |'


def headed(head: Sequence[str], rows: Iterable[str]) -> list[str]:
    return [cells(head), '|' + '---|' * len(head), *rows]


def shown(cost: Cost) -> list[str]:
    return [f'{cost.seconds:.2f}', f'{cost.of_processor:.2f}', f'{cost.megabytes:.0f}']


class Measuring:
    """The program, and how much of each horizon is taken."""

    def __init__(self, program: pathlib.Path, scale: int) -> None:
        self.program, self.scale = program, scale

    def cost(self, file: str, horizon: int, workers: int, show: str) -> Cost:
        command: list[Word] = [self.program, file, '--horizon', str(horizon), '--workers', str(workers), '--show', show]
        costs = [run_measured(command) for _ in range(TRIES)]
        if failed := next((cost for cost in costs if cost.status), None):
            common.stop(f'a run ended with status {failed.status}')
        return min(costs, key=lambda cost: cost.seconds)

    def rows(self, file: str, horizon: int) -> int:
        with subprocess.Popen([self.program, file, '--horizon', str(horizon)], stdout=subprocess.PIPE) as running:
            assert running.stdout
            return sum(part.count(b'\n') for part in iter(functools.partial(running.stdout.read, 1 << 20), b''))

    def line(self, what: object, text: str, horizon: int, workers: int = 1) -> str:
        """A line of a table: the same run with its schedule and with its reports alone."""
        horizon = max(horizon // self.scale, 1)
        with tempfile.NamedTemporaryFile('w', suffix='.toml') as file:
            file.write(text)
            file.flush()
            rows = self.rows(file.name, horizon)
            whole, short = (self.cost(file.name, horizon, workers, show) for show in ('schedule', 'reports'))
        return cells([what, f'{horizon:,}', f'{rows:,}', *shown(whole), *shown(short)])

    def teams(self, delay: int, text: str, horizon: int, numbers: Sequence[int]) -> str:
        """A line of a table: seconds that pass by so many workers each, where the schedule is written and where the reports alone are."""
        horizon = max(horizon // self.scale, 1)
        with tempfile.NamedTemporaryFile('w', suffix='.toml') as file:
            file.write(text)
            file.flush()
            costs = [[self.cost(file.name, horizon, workers, show) for show in ('schedule', 'reports')] for workers in numbers]
        return cells([f'{delay:,}', *(' / '.join(f'{cost.seconds:.2f}' for cost in both) for both in costs)])

    def many(self, at_once: int) -> str:
        """A hundred systems by xargs, so many at a time: seconds that pass."""
        with tempfile.TemporaryDirectory() as folder:
            for number in range(MANY):
                pathlib.Path(folder, f's{number}.toml').write_text(crowd(4, 8))
            each = f'"$0" "$1" --horizon {100_000 // self.scale} --show reports >"$1.reports"'
            command = f"ls *.toml | xargs -P {at_once} -I{{}} sh -c '{each}' \"$0\" {{}}"
            began = time.monotonic()
            subprocess.run(['sh', '-c', command, self.program], cwd=folder, check=True)
            return cells([at_once, f'{time.monotonic() - began:.2f}'])

    def tables(self) -> Iterator[tuple[str, Callable[[], list[str]]]]:
        """Titles with their tables, each made when it is asked for."""

        def grown(first: str, lines: Callable[[], Iterable[str]]) -> Callable[[], list[str]]:
            return lambda: headed([first, *HEAD], lines())

        delays = (1, 10, 100, 1000, 100_000)
        yield 'Events: one core, 8 threads', grown('Ticks', lambda: (self.line(f'10^{k}', crowd(1, 8), 10**k) for k in (4, 5, 6, 7)))
        yield 'Idle time: 64 cores, a thread each that runs once in 2^30 ticks', grown(
            'Ticks', lambda: (self.line(f'2^{k}', idle(), 2**k) for k in (30, 35, 40)))
        yield 'Threads: one core, a tick of work in 4', grown(
            'Threads', lambda: (self.line(f'{k:,}', crowd(1, k), 1_000_000) for k in (1, 16, 256, 4096)))
        yield 'Cores: 8 threads on each, delay 1000, one worker', grown(
            'Cores', lambda: (self.line(k, crowd(k, 8, signals=True), 100_000) for k in (2, 4, 16, 64)))
        yield 'Workers: 64 cores of 8 threads, delay 1000', grown(
            'Workers', lambda: (self.line(k, crowd(64, 8, signals=True), 100_000, k) for k in (1, 2, 4, 8)))
        yield 'Delay: 64 cores of 8 threads, one worker', grown(
            'Delay', lambda: (self.line(f'{k:,}', crowd(64, 8, k, True), 100_000) for k in delays))
        yield 'Delay: the same, four workers', grown(
            'Delay', lambda: (self.line(f'{k:,}', crowd(64, 8, k, True), 100_000, 4) for k in delays))
        numbers = (1, 2, 4, 8)
        yield 'Workers and delays: 64 cores of 32 threads, seconds for the schedule / for reports', lambda: headed(
            ['Delay', *(f'{number} worker{"s" * (number > 1)}' for number in numbers)],
            (self.teams(k, crowd(64, 32, k, True), 100_000, numbers) for k in (1, 10, 30, 100, 300, 1000, 100_000)))
        yield 'Many systems: a hundred of 4 cores of 8 threads, by xargs', lambda: headed(['At once', 's'], map(self.many, (1, 2, 4, 8)))


def processor() -> str:
    """The name of the processor, where it can be had."""
    try:
        lines = pathlib.Path('/proc/cpuinfo').read_text().splitlines()
    except OSError:
        lines = []
    names = [line.split(': ', 1)[1].strip() for line in lines if line.startswith('model name')]
    return names[0] if names else platform.machine()


def asked() -> argparse.Namespace:
    parser = common.asking_program(__doc__)
    parser.add_argument('--quick', action='store_true', help='a tenth of each horizon')
    parser.add_argument('--write', action='store_true', help='puts the tables into docs/PERFORMANCE.md')
    parser.add_argument('--case', action='append', metavar='WORD', help='only the tables whose title begins with this; may be given several times')
    return parser.parse_args()


def main() -> None:
    words = asked()
    measuring = Measuring(common.built_program(words.program), 10 if words.quick else 1)
    count = Count()
    parts = [f'Measured on {datetime.date.today()} on {os.cpu_count()} processors ({processor()}).\n']
    print(parts[0], flush=True)
    for title, table in measuring.tables():
        if not words.case or title.startswith(tuple(words.case)):
            parts.append('\n'.join([f'### {title}', '', *table(), '']))
            print(parts[-1], flush=True)
            count.add(passed=1)
    if words.write:
        put_between(BEGIN, END, '\n'.join(parts).rstrip())
    count.end()


if __name__ == '__main__':
    main()
