#!/usr/bin/env python3
"""Checks that runs with several workers end, with the bytes and exit code of one worker, on 2,000 small random systems.

Each system has 1 to 8 cores, some with delays of their own for pairs of cores, and is run up to a random horizon with 2 to 8 workers, as it is, on
one processor, with more workers than processors (64), and with no thread to be had (an address space too small for a thread's stack, and no further
process allowed): status and bytes are those of one worker. Some are run on to a far horizon, and their reader leaves after the first line: then the
program ends too, with that line as one worker has it, and says that it could not write. A run that gives no answer within the time limit is a
failure. The text of a system that failed is kept, and its file named. One processor needs `taskset`, and little space `prlimit`."""
from __future__ import annotations

import os
import pathlib
import random
import resource
import shutil
import subprocess
import sys
import tempfile
from collections.abc import Iterator
from typing import Any, NamedTuple

sys.dont_write_bytecode = True
sys.path[0] = str(pathlib.Path(__file__).resolve().parents[2])
from checks import common
from checks.common import Count, Ran, Word
from checks.random_systems import random_text

# a user of no other process: the limit doesn't hold for the superuser, and it counts all that the user runs
STRANGER = 60001
# an address space too small for a second stack
SPACE = 3 * 2**20 + 64 * 2**20
# so many moments make more rows than a pipe holds, where a system goes on at all
FAR = 1_000_000
# the part of the systems that is run so
LEAVING = 0.25
CANNOT_WRITE = (3, b'mcsim: write failed\n')
WHOLE = (0, b'')
# ways, each with the command that it needs
NEEDED = {'one processor': 'taskset', 'little space': 'prlimit'}
NO_THREAD = 'no thread'


def no_threads() -> None:
    """In the process that becomes the program: it may start no other."""
    if os.geteuid() == 0:
        os.setgroups([])
        os.setgid(STRANGER)
        os.setuid(STRANGER)
    resource.setrlimit(resource.RLIMIT_NPROC, (1, 1))


class Way(NamedTuple):
    """A way of running a system with several workers: words before the program, the number of workers or None for the system's, and how else."""

    name: str
    before: tuple[str, ...] = ()
    workers: str | None = None
    how: dict[str, Any] = {}


WAYS = (
    Way('several workers'),
    Way('one processor', before=('taskset', '-c', str(min(os.sched_getaffinity(0))))),
    Way('64 workers', workers='64'),
    Way(NO_THREAD, how={'preexec_fn': no_threads}),
    Way('little space', before=('prlimit', f'--as={SPACE}')),
)


def can_limit_threads() -> bool:
    """Whether this user may run a command that can start no thread: the superuser of some containers may not become another user."""
    try:
        return common.run(['true'], preexec_fn=no_threads).status == 0
    except (OSError, subprocess.SubprocessError):
        return False


def ways_here(count: Count) -> list[Way]:
    """The ways for which there is what they need."""
    lacking = {way: f'there is no {tool}' for way, tool in NEEDED.items() if not shutil.which(tool)}
    if not can_limit_threads():
        lacking[NO_THREAD] = 'this user may not run as another one'
    for way, why in lacking.items():
        count.skip(f'runs with {way}, since {why}')
    return [way for way in WAYS if way.name not in lacking]


class Left(NamedTuple):
    """A run whose reader left after the first line."""

    line: bytes
    status: int
    stderr: bytes

    def is_like(self, alone: Left | None) -> bool:
        """Whether it ended so, or well, since the pipe held all; a system that is refused is refused alike."""
        return alone is not None and self.line == alone.line and (self[1:] == alone[1:] or self[1:] in (CANNOT_WRITE, WHOLE))


def left(command: list[Word], seconds: float) -> Left | None:
    """Runs a command and leaves after its first line; None where it does not end."""
    pipes: dict[str, Any] = {'stdout': subprocess.PIPE, 'stderr': subprocess.PIPE, 'stdin': subprocess.DEVNULL}
    with subprocess.Popen(command, **pipes) as running:
        assert running.stdout
        line = running.stdout.readline()
        running.stdout.close()
        try:
            _, said = running.communicate(timeout=seconds)
        except subprocess.TimeoutExpired:
            running.kill()
            return None
    return Left(line, running.returncode, said)


class Trial:
    """One random system."""

    def __init__(self, program: pathlib.Path, rng: random.Random, file: pathlib.Path, seconds: float) -> None:
        self.program, self.file, self.seconds = program, file, seconds
        self.text = random_text(rng)
        self.horizon = rng.choice([0, 10, 60, 200, 200, 3000])
        self.workers = str(rng.randint(2, 8))
        self.leaves = rng.random() < LEAVING
        file.write_text(self.text)
        file.chmod(0o644)

    def command(self, horizon: int, workers: str) -> list[Word]:
        return [self.program, '--horizon', str(horizon), '--show', 'both', '--workers', workers, self.file]

    @property
    def shown(self) -> str:
        """The words of its run, for whoever tries it again."""
        return f'--horizon {self.horizon} --show both --workers {self.workers}'

    def ran(self, way: Way, workers: str) -> Ran:
        return common.run([*way.before, *self.command(self.horizon, workers)], seconds=self.seconds, **way.how)

    def is_left_alike(self) -> bool:
        """Whether a reader that leaves ends the run with several workers as it does the run with one."""
        got = left(self.command(FAR, self.workers), self.seconds)
        return got is not None and got.is_like(left(self.command(FAR, '1'), self.seconds))

    def differing(self, ways: list[Way], alone: Ran) -> Iterator[tuple[str, bool]]:
        """Each way's name, and whether it came to something else than one worker."""
        if self.leaves:
            yield 'the reader left', not self.is_left_alike()
        for way in ways:
            yield way.name, self.ran(way, way.workers or self.workers) != alone


def kept(text: str, seed: int, number: int) -> pathlib.Path:
    """The file in which the text of a system is kept."""
    file = pathlib.Path(tempfile.gettempdir(), f'stress-{seed}-{number}.toml')
    file.write_text(text)
    return file


def main() -> None:
    parser = common.asking_random(__doc__, 2000)
    parser.add_argument('--limit', type=float, default=common.SECONDS, metavar='SECONDS', help=f'after so long a run has no answer (default {common.SECONDS})')
    words = parser.parse_args()
    program = common.built_program(words.program)
    count, accepted = Count(), 0
    ways = ways_here(count)
    with tempfile.TemporaryDirectory() as folder:
        # the stranger runs the program there, and reads the file
        pathlib.Path(folder).chmod(0o755)
        program = pathlib.Path(shutil.copy(program, folder))
        for number in range(words.systems):
            trial = Trial(program, random.Random(f'{words.seed} {number}'), pathlib.Path(folder, 'system.toml'), words.limit)
            alone = trial.ran(WAYS[0], '1')
            accepted += alone.status == 0
            wrong = [way for way, differs in trial.differing(ways, alone) if differs]
            count.add(passed=len(ways) + trial.leaves - len(wrong))
            for way in wrong:
                count.expect(f'{way}: differs from one worker: {trial.shown} {kept(trial.text, words.seed, number)}', False)
    print(f'{accepted} systems were accepted')
    count.end()


if __name__ == '__main__':
    main()
