#!/usr/bin/env python3
"""Compares two builds of the programs byte for byte: output, standard error and exit code, in some 37,000 runs.

BEFORE and AFTER are each a folder with mcsim and mcscheck, such as bin/, a checkout in which both were built, or one of the two programs; what both
have is compared. Each random system is run with every --show and --format, once with one worker and once with four; and with mcscheck also for all
time, for the reason of a round, and with the words that change what counts as found. Half the systems have deadlines and orders, and one in ten is
spoiled in one character, which most often makes it a file that is refused.

The last line counts the runs that are the same and those that differ. Before it stands, for the first difference, the file, which is kept, the command,
and the first line that differs. The exit code is 0 if all runs are the same, 1 if one differs, and 2 if there is nothing to compare."""
from __future__ import annotations

import argparse
import concurrent.futures
import itertools
import os
import pathlib
import random
import re
import shlex
import sys
import tempfile
from collections.abc import Iterator, Sequence
from typing import NamedTuple

sys.dont_write_bytecode = True
sys.path[0] = str(pathlib.Path(__file__).resolve().parents[2])
from checks import common
from checks.common import NO_ANSWER, PROGRAMS, Ran, Tally
from checks.program.verdicts import tables_of
from checks.random_systems import random_text, text_of

WORKERS = ('1', '4')
SIMULATED = ('schedule', 'reports', 'both')
CHECKED = ('findings', 'jobs', 'table', 'both')
FORMATS = ('text', 'csv', 'json')
HORIZONS = (0, 1, 10, 60, 60, 200, 200, 1000)
# of so many systems one is spoiled
SPOILED = 10
# up to which a repetition is looked for
FAR = '2000'
Programs = dict[str, pathlib.Path]


class System(NamedTuple):
    """A random system by its seed: its text, the horizon to which it is run, and the names of a thread and of a notification of it."""

    seed: int
    text: str
    horizon: int
    thread: str
    note: str

    @property
    def file(self) -> str:
        return f'seed_{self.seed}.toml'


def system_of_seed(seed: int) -> System:
    rng = random.Random(f'same {seed}')
    text = text_of(tables_of(rng)) if seed % 2 else random_text(rng)
    threads = re.findall(r'\[\[thread\]\]\nname = "(.*?)"', text)
    notes = re.findall(r'\[\[note\]\]\nname = "(.*?)"', text)
    if seed % SPOILED == 0:
        place = rng.randrange(len(text))
        text = text[:place] + rng.choice('\n"[]=#-09az ') + text[place + 1:]
    return System(seed, text, rng.choice(HORIZONS), rng.choice(threads or ['none']), rng.choice(notes or ['none']))


def commands_of(system: System) -> Iterator[list[str]]:
    """All commands for a system, each with the program's name first."""
    horizon = ['--horizon', str(system.horizon)]
    for show, workers in itertools.product(SIMULATED, WORKERS):
        yield ['mcsim', system.file, *horizon, '--show', show, '--workers', workers]
    for show, form, workers in itertools.product(CHECKED, FORMATS, WORKERS):
        yield ['mcscheck', system.file, *horizon, '--show', show, '--format', form, '--workers', workers]
    for form in ('text', 'json'):
        yield ['mcscheck', system.file, '--horizon', FAR, '--forever', '--format', form]
        yield from (['mcscheck', system.file, *horizon, '--why', system.thread, number, '--format', form] for number in ('1', '2'))
    yield ['mcscheck', system.file, *horizon, '--strict', f'--allow-lost={system.note}']


class Difference(NamedTuple):
    """A command that the two programs answered in two ways."""

    system: System
    command: Sequence[str]
    before: Ran
    after: Ran

    def told(self, kept: pathlib.Path) -> str:
        """What differs first: the exit code, or a line."""
        lines = [f'the system: {kept}', f'the command: {shlex.join([self.command[0], str(kept), *self.command[2:]])}']
        if NO_ANSWER in (self.before, self.after):
            return '\n'.join([*lines, *(f'{name}: {"no answer in time" if ran == NO_ANSWER else "an answer"}' for name, ran in self.both())])
        for what, before, after in (('standard output', self.before.stdout, self.after.stdout), ('standard error', self.before.stderr, self.after.stderr)):
            if before != after:
                lines += first_line(what, before, after)
                break
        if self.before.status != self.after.status:
            lines += [f'exit code: {self.before.status} before, {self.after.status} after']
        return '\n'.join(lines)

    def both(self) -> tuple[tuple[str, Ran], tuple[str, Ran]]:
        return ('before', self.before), ('after', self.after)


def first_line(what: str, before: bytes, after: bytes) -> list[str]:
    """The first line that differs, with the bytes that are no text as Python writes them; one of them may have ended."""
    pairs = itertools.zip_longest(before.splitlines(keepends=True), after.splitlines(keepends=True))
    number, (one, two) = next((number, pair) for number, pair in enumerate(pairs, 1) if pair[0] != pair[1])
    return [f'{what}, line {number}:', *(f'  {name}: {"(it has ended)" if line is None else repr(line)[1:]}' for name, line in (('before', one), ('after', two)))]


def programs_in(place: pathlib.Path) -> Programs:
    """The programs of a folder, of a checkout in which they were built, or the one that was given."""
    if place.is_file():
        found = {name: place for name in PROGRAMS if re.fullmatch(rf'{name}\b.*', place.name)}
    elif (place / 'crates').is_dir():
        found = {name: place / 'crates' / name / 'out' / name for name in PROGRAMS}
    else:
        found = {name: place / name for name in PROGRAMS}
    return {name: path.resolve() for name, path in found.items() if common.is_program(path)}


class Comparison:
    """Two builds that run systems in a folder."""

    def __init__(self, before: Programs, after: Programs, folder: pathlib.Path) -> None:
        self.before, self.after, self.folder = before, after, folder
        self.names = [name for name in before if name in after]

    def ran(self, programs: Programs, command: Sequence[str]) -> Ran:
        # the program is told its plain name, so that two places make no difference
        return common.run(command, executable=programs[command[0]], cwd=self.folder)

    def look(self, seed: int) -> tuple[int, list[Difference]]:
        """How many runs of a system were compared, and those that differ."""
        system = system_of_seed(seed)
        file = self.folder / system.file
        file.write_text(system.text)
        commands = [command for command in commands_of(system) if command[0] in self.names]
        runs = ((command, self.ran(self.before, command), self.ran(self.after, command)) for command in commands)
        found = [Difference(system, *run) for run in runs if run[1] != run[2] or NO_ANSWER in run[1:]]
        file.unlink()
        return len(commands), found


def compared(work: Comparison, seeds: range, jobs: int) -> tuple[Tally, Difference | None]:
    """What came of all systems, and the first difference by seed; a terminal is shown how far this is."""
    total = Tally()
    first: Difference | None = None
    with concurrent.futures.ThreadPoolExecutor(jobs) as pool:
        for number, (many, found) in enumerate(pool.map(work.look, seeds), 1):
            total = total.plus(Tally(many - len(found), len(found)))
            first = first or (found[0] if found else None)
            if sys.stderr.isatty():
                end = '\n' if number == len(seeds) else ''
                print(f'\rsame: {number} of {len(seeds)} systems, {total.failed} runs differ\x1b[K', end=end, file=sys.stderr, flush=True)
    return total, first


def seeds_of(text: str) -> range:
    """`N` is 1 to N, and `A:B` is A to B."""
    found = re.fullmatch(r'(?:(\d+):)?(\d+)', text)
    seeds = range(int(found[1] or 1), int(found[2]) + 1) if found else range(0)
    if not seeds:
        raise argparse.ArgumentTypeError(f'{text} names no seeds: N is 1 to N, and A:B is A to B')
    return seeds


def jobs_of(text: str) -> int:
    if not text.isdecimal() or not 1 <= int(text) <= 1000:
        raise argparse.ArgumentTypeError(f'{text} is no number from 1 to 1000')
    return int(text)


def asked() -> tuple[Programs, Programs, range, int]:
    parser = common.asking(__doc__)
    parser.add_argument('before', type=pathlib.Path, metavar='BEFORE', help='a folder with mcsim and mcscheck, a checkout, or a program')
    parser.add_argument('after', type=pathlib.Path, metavar='AFTER', help='the same, of the other build')
    parser.add_argument('--seeds', type=seeds_of, default='1000', metavar='N', help='the random systems, 1 to N, or A:B (default: 1000)')
    parser.add_argument('--jobs', type=jobs_of, default=len(os.sched_getaffinity(0)), metavar='N', help='systems that are run side by side (default: one for each processor)')
    words = parser.parse_args()
    before, after = programs_in(words.before), programs_in(words.after)
    for place, found in ((words.before, before), (words.after, after)):
        if not found:
            parser.error(f'{place} is neither mcsim nor mcscheck, and has none of them')
    if not before.keys() & after.keys():
        parser.error(f'{words.before} has {" and ".join(before)}, and {words.after} has {" and ".join(after)}: there is nothing to compare')
    return before, after, words.seeds, words.jobs


def main() -> None:
    before, after, seeds, jobs = asked()
    with tempfile.TemporaryDirectory() as folder:
        work = Comparison(before, after, pathlib.Path(folder))
        total, first = compared(work, seeds, jobs)
    print(f'{total.passed + total.failed} runs of {" and ".join(work.names)} were compared, of {len(seeds)} systems')
    if first:
        kept = pathlib.Path(tempfile.mkdtemp(prefix='same-'), first.system.file)
        kept.write_text(first.system.text)
        print(f'the first that differs:\n{first.told(kept)}')
    print(total)
    sys.exit(total.status)


if __name__ == '__main__':
    main()
