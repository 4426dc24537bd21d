#!/usr/bin/env python3
"""Checks that the programs report out of memory wherever an allocation fails: each allocation of some runs, in turn and from there on.

Worked systems run with 1 and 2 workers, one of them for all time, and there are a malformed file and the help, and for mcscheck a name that no notification has. Each run gives
the bytes and the status that it must give, or `mcsim: no memory` with status 4 and a first part of those bytes; where growths were refused only while
the C library started a thread, it gives the bytes. Each kind of run has a line. It needs a C compiler, cc; without one all of it is skipped."""
from __future__ import annotations

import pathlib
import sys
import tempfile
from collections.abc import Callable, Iterator
from typing import NamedTuple

sys.dont_write_bytecode = True
sys.path[0] = str(pathlib.Path(__file__).resolve().parents[2])
from checks import common
from checks.common import DATA, Count
from checks.program import checker, refusing
from checks.program.refusing import Answer

SYSTEMS = (
    ('examples/depletes_and_refills', 'short', 10),
    ('worked/delivery_in_order_of_making', 'schedule', 7),
    ('worked/ring_of_three_cores', 'schedule', 7),
    ('events/handlers_of_a_server', 'schedule', 50),
    ('events/callers_by_priority', 'schedule', 34),
)
FOR_EVER = 2**63
# for the number of the first growth that is refused, that of the last
WAYS: dict[str, Callable[[int], int]] = {'once': lambda first: first, 'from then on': lambda first: FOR_EVER}


class Kind(NamedTuple):
    """A kind of run: its program, its name, its words and its input, and what it gives where nothing is refused."""

    program: str
    name: str
    words: list[str]
    stdin: bytes
    status: int
    stdout: bytes
    stderr: bytes

    def is_whole(self, got: Answer) -> bool:
        return got[:3] == (self.status, self.stdout, self.stderr)

    def is_cut_well(self, got: Answer) -> bool:
        """Whether a run ended for want of memory, as it may where something else than a thread's start was refused."""
        no_memory = (4, f'{self.program}: no memory\n'.encode())
        return refusing.ELSE in got.refused and (got.status, got.stderr) == no_memory and self.stdout.startswith(got.stdout)


def kinds_of_both(name: str, program: pathlib.Path) -> Iterator[Kind]:
    """A malformed file, and the help."""
    yield Kind(name, 'a malformed file', [], b'version = \n', 1, b'', f'{name}: not TOML at file\n'.encode())
    helped = common.run([program, '--help'])
    if f'Usage: {name} [OPTIONS] [FILE]'.encode() not in helped.stdout:
        common.stop(f'the program {name} gives no help')
    yield Kind(name, 'help', ['--help'], b'', *helped)


def kinds_of_simulator() -> Iterator[Kind]:
    for name, run, horizon in SYSTEMS:
        file = (DATA / f'{name}.toml').read_bytes()
        schedule = (DATA / name / f'{run}.stdout').read_bytes()
        for workers in ('1', '2'):
            yield Kind('mcsim', f'{name}, {workers} workers', ['--horizon', str(horizon), '--workers', workers], file, 0, schedule, b'')


def kinds_of_events(program: pathlib.Path) -> Iterator[Kind]:
    """Handlers and interrupts, for all time."""
    file, asked = (DATA / 'events' / 'handlers.toml').read_bytes(), ['--forever', '--horizon', '300']
    yield Kind('mcscheck', 'handlers for all time', asked, file, *common.run([program, *asked], file))


def kinds_of_checker() -> Iterator[Kind]:
    system, runs, answered = checker.example()
    for words, written in runs:
        for workers in ('1', '2'):
            asked = [*words, '--workers', workers, '--allow-lost', 'fire']
            yield Kind('mcscheck', f'the example of CHECK with {" ".join(words)}, {workers} workers', asked, system, 5, written, b'')
    asked, written = answered
    for workers in ('1', '2'):
        yield Kind('mcscheck', f'a round of that example, {workers} workers', [*asked, '--workers', workers], system, 0, written, b'')
    near = checker.unknown('tik', 'the nearest is tick')
    yield Kind('mcscheck', 'an unknown name', ['--allow-lost', 'fire', '--allow-lost', 'tik'], system, 2, b'', near)


class Found:
    """What the runs of a kind came to: how many there were, how many were refused only at a thread's start, how many ended without memory, and the
    numbers of the wrong ones."""

    def __init__(self) -> None:
        self.runs = self.starts = self.without = 0
        self.wrong: list[int] = []

    def take(self, kind: Kind, got: Answer) -> None:
        self.runs += 1
        self.starts += set(got.refused) == {refusing.AT_START}
        if not kind.is_whole(got):
            self.without += 1
            if not kind.is_cut_well(got):
                self.wrong.append(self.runs)

    def __str__(self) -> str:
        wrong = f', wrong at {self.wrong}' if self.wrong else ''
        return f"{self.runs} runs, {self.starts} refused at a thread's start alone, {self.without} without memory{wrong}"


def tried(command: list[common.Word], library: pathlib.Path, kind: Kind, last: Callable[[int], int]) -> Found:
    """Runs a kind until nothing is refused, or a run gives no answer, which is wrong."""
    found = Found()
    while True:
        first = found.runs + 1
        got = refusing.answer(command, library, first, last(first), kind.stdin)
        if got is None:
            found.runs = first
            found.wrong.append(first)
            return found
        found.take(kind, got)
        if not got.refused:
            return found


def main() -> None:
    words = common.asking_program(__doc__).parse_args()
    count = Count()
    if not refusing.is_there():
        count.skip('the refused growths, since there is no C compiler, cc')
        count.end()
    simulator = common.built_program(words.program)
    programs = {name: simulator if name == 'mcsim' else common.beside(simulator, name) for name in common.PROGRAMS}
    of_both = [kind for name, program in programs.items() for kind in kinds_of_both(name, program)]
    with tempfile.TemporaryDirectory() as folder:
        library = refusing.compiled(folder)
        for kind in (*kinds_of_simulator(), *kinds_of_checker(), *kinds_of_events(programs['mcscheck']), *of_both):
            for way, last in WAYS.items():
                found = tried([programs[kind.program], *kind.words], library, kind, last)
                count.add(passed=found.runs - len(found.wrong), failed=len(found.wrong))
                print(f'{kind.program}: {kind.name}, {way}: {found}', flush=True)
    count.end()


if __name__ == '__main__':
    main()
