#!/usr/bin/env python3
"""Measures runs at the limits of the program: CPU seconds and maximum memory; and how their cost grows, in instructions.

Each line is a system that is made here. First those at the limits: many threads on one core, many ticks in which nothing happens, as many cores and
threads as the limits allow, and a file as large as the limits on scripts allow. A run passes if it ends with the status that is wanted.

Then systems in two sizes: with ever more cores, waiters, dates, signals under way, interrupts without an answer, or a longer horizon. valgrind counts
the instructions between two horizons, so that the load and other work on the machine do not count. A system passes if the larger size takes at most so
many times the smaller one's as is allowed."""
from __future__ import annotations

import pathlib
import re
import sys
import tempfile
from collections.abc import Callable, Sequence
from typing import NamedTuple

sys.dont_write_bytecode = True
sys.path[0] = str(pathlib.Path(__file__).resolve().parents[2])
from checks import common
from checks.common import Count, Word
from checks.measure import cases, performance
from checks.measure.measured import run_measured, system_text

MOST_CORES = 64
MOST_THREADS = 4096
MOST_ITEMS = 1024
# how a run ends in which nothing is wrong, with a finding, or with nothing judged
RAN = (0, 5, 6)
COUNTING = ('valgrind', '--tool=callgrind', '--callgrind-out-file=/dev/null')


def names(many: int) -> list[str]:
    return [f't{number}' for number in range(many)]


def crowd() -> str:
    """200 threads on one core that each use 4 of 1000 ticks"""
    threads = names(200)
    contexts = [(name, 0, 4, 1000) for name in threads]
    return system_text(1, 1, contexts, [(name, name, place % 250 + 1, ['compute 4']) for place, name in enumerate(threads)])


def long_compute() -> str:
    """one thread that computes, with its budget as its period"""
    return system_text(1, 1, [('t', 0, 1000, 1000)], [('t', 't', 5, ['compute 1000000'])])


def full() -> str:
    """4,096 threads on 64 cores that each use 4 of 1000 ticks"""
    threads = names(MOST_THREADS)
    contexts = [(name, place % MOST_CORES, 4, 1000) for place, name in enumerate(threads)]
    return system_text(MOST_CORES, 100, contexts, [(name, name, place // MOST_CORES + 1, ['compute 4']) for place, name in enumerate(threads)])


def large_file() -> str:
    """4,096 threads with scripts of 1,024 items"""
    threads = names(MOST_THREADS)
    return system_text(1, 1, [(name, 0, 4, 1000) for name in threads], [(name, name, 5, ['compute 1'] * MOST_ITEMS) for name in threads])


def under_way(delay: int) -> str:
    """a signal in each tick, that is under way for `delay` ticks and mostly lost then"""
    contexts = [('r', 0, 5, 5), ('s', 1, 5, 5)]
    threads = [('R', 'r', 2, ['wait n', 'compute 1']), ('S', 's', 2, ['signal n 1'])]
    return system_text(2, delay, contexts, threads, notes=[('n', 0)])


def cores_apart(cores: int) -> str:
    """so many cores of 8 threads, which signal each other with a delay of 1,000 ticks"""
    return performance.crowd(cores, 8, 1000, signals=True)


def cores_close(cores: int) -> str:
    """the same with a delay of a tick"""
    return performance.crowd(cores, 8, 1, signals=True)


def cores_to(_size: int) -> str:
    """8 cores of 8 threads, to ever later horizons"""
    return performance.crowd(8, 8, 1000, signals=True)


def interrupts(dates: int) -> str:
    """sources with so many dates on one core, and an interrupt in each 100 ticks"""
    sources = [f'{{ name = "s{number}", note = "n", badge = 1, period = {100 * dates}, start = {100 * number} }}' for number in range(dates)]
    return system_text(1, 1, [('t', 0, 50, 50)], [('T', 't', 5, ['wait n', 'compute 5'])], notes=[('n', 0)]).replace(
        'version = 1', 'version = 3\nsource = [' + ', '.join(sources) + ']')


def unanswered(_size: int) -> str:
    """interrupts that a chain's thread takes in one long round, so that none is answered"""
    waits = ', '.join(['"wait n"'] * 1023)
    return '\n'.join([
        'version = 3', 'cores = 1', 'delay = 1', 'source = [{ name = "s", note = "n", badge = 1, period = 100 }]',
        'chain = [{ name = "c", source = "s", thread = "T", deadline = 1000 }]', 'context = [{ name = "t", core = 0, budget = 50, period = 50 }]',
        'note = [{ name = "n", core = 0 }]', f'thread = [{{ name = "T", context = "t", priority = 5, script = [{waits}, "compute 1"] }}]', '',
    ])


class Growth(NamedTuple):
    """A system in two sizes, the horizons between which instructions are counted, the command, and how many times as much the larger size may take."""

    system: Callable[[int], str]
    sizes: tuple[int, int]
    horizons: Callable[[int], tuple[int, int]]
    command: tuple[str, ...]
    most: float


REPORTS = ('mcsim', '--show', 'reports')
# a tenth more than the size grows, or as the pages say
GROWTHS = (
    Growth(cores_apart, (4, 64), lambda _: (10_000, 20_000), REPORTS, 16 * 1.3),
    Growth(cores_close, (4, 64), lambda _: (2_000, 4_000), REPORTS, 16 * 1.3),
    Growth(cores_to, (4, 16), lambda size: (0, 10_000 * size), REPORTS, 4 * 1.1),
    Growth(cases.line, (64, 1024), lambda _: (10_000, 20_000), REPORTS, 16 * 1.1),
    Growth(interrupts, (64, 4096), lambda _: (500_000, 1_000_000), REPORTS, 1.1),
    Growth(under_way, (2**14, 2**16), lambda size: (0, 5 * size), ('mcscheck', '--forever'), 4 * 1.1),
    Growth(unanswered, (1, 4), lambda size: (0, 25_000 * size), ('mcscheck', '--show', 'findings'), 4 * 1.1),
)
# systems, each with the horizons that it is run to
RUNS = ((crowd, 100_000), (long_compute, 100_000), (crowd, 1_000_000), (long_compute, 1_000_000), (full, 0), (full, 10_000), (large_file, 0))


def measure(count: Count, name: str, words: Sequence[Word]) -> None:
    """Shows what a run takes, which is to end well."""
    cost = run_measured(words)
    print(f'{name}: {cost.of_processor:.2f} s, {cost.megabytes:.0f} MB', flush=True)
    count.expect(f'{name}: status {cost.status}', cost.status == 0)


def instructions(command: Sequence[Word]) -> int:
    """How many a run takes."""
    ran = common.run([*COUNTING, *command], seconds=10 * common.SECONDS)
    found = re.search(rb'Collected : (\d+)', ran.stderr)
    if ran.status not in RAN or found is None:
        common.stop(f'{command[0]}: valgrind ended with status {ran.status}: {ran.stderr.decode(errors="replace")[-200:]}')
    return int(found[1])


def taken(growth: Growth, size: int, program: pathlib.Path, file: pathlib.Path) -> int:
    """How many instructions the run of a size takes between its two horizons."""
    file.write_text(growth.system(size))
    name, *words = growth.command
    first, last = (instructions([common.beside(program, name), file, *words, '--horizon', str(horizon)]) for horizon in growth.horizons(size))
    return last - first


def compare(count: Count, growth: Growth, program: pathlib.Path, file: pathlib.Path) -> None:
    """Shows how many times as much the larger size takes, and counts whether it is allowed."""
    small, large = (taken(growth, size, program, file) for size in growth.sizes)
    first, last = growth.sizes
    name = (growth.system.__doc__ or '').rstrip('.')
    said = f'{name}, from {first:,} to {last:,}: {large / small:.2f} times {small / 1e6:.1f} million instructions, at most {growth.most:.1f}'
    print(said, flush=True)
    count.expect(said, large <= growth.most * small)


def main() -> None:
    program = common.built_program(common.asking_program(__doc__).parse_args().program)
    count = Count()
    with tempfile.TemporaryDirectory() as folder:
        file = pathlib.Path(folder, 'system.toml')
        for system, horizon in RUNS:
            text = system()
            file.write_text(text)
            measure(count, f'{system.__doc__} ({len(text) / 1e6:.1f} MB, horizon {horizon:,})', [program, file, '--horizon', str(horizon)])
        for growth in GROWTHS:
            compare(count, growth, program, file)
    count.end()


if __name__ == '__main__':
    main()
