#!/usr/bin/env python3
"""Checks that mcsim shows its progress on a terminal alone, and wipes it.

A run of more than a second whose standard error is a terminal shows a line of how far it is, and wipes it before reports are written, and before it
ends, well or not: with one worker and with several, with the schedule and with the reports. Where the schedule itself goes to a terminal there is no such
line, and a pipe sees nothing of it. What is written to standard output is the same as without a terminal."""
from __future__ import annotations

import contextlib
import os
import pathlib
import pty
import re
import subprocess
import sys
import tempfile
import threading
from collections.abc import Iterator, Sequence
from typing import BinaryIO, NamedTuple

sys.dont_write_bytecode = True
sys.path[0] = str(pathlib.Path(__file__).resolve().parents[2])
from checks import common
from checks.common import Count, Ran
from checks.measure import performance

WIPED = '\r\x1b[K'
# horizons of runs that show how far they are lie between these on any machine
SHORT, FAR = 2**21, 2**31
# seconds for such a run, which takes a few where the machine does nothing else
PATIENCE = 600


@contextlib.contextmanager
def terminal() -> Iterator[tuple[int, bytearray]]:
    """A terminal: the end that a program writes to, and what has been written once that is closed."""
    ours, theirs = pty.openpty()
    seen = bytearray()

    def read() -> None:
        # it has no end of file: reading fails once nobody has the other end
        with contextlib.suppress(OSError):
            while part := os.read(ours, 1 << 16):
                seen.extend(part)

    reader = threading.Thread(target=read)
    reader.start()
    try:
        yield theirs, seen
    finally:
        os.close(theirs)
        reader.join()
        os.close(ours)


def is_progress(name: str, horizon: int, text: str, after: str = '') -> bool:
    """Whether a text is lines of how far a run of this program is, each over the one before and further, wiped at the end, with this behind it."""
    line = rf'\r{name}: (\d+) of {horizon}\x1b\[K'
    moments = [int(moment) for moment in re.findall(line, text)]
    whole = re.fullmatch(rf'(?:{line})+{re.escape(WIPED + after)}', text)
    return bool(whole) and moments == sorted(set(moments)) and moments[-1] <= horizon


class Long(NamedTuple):
    """A run that shows how far it is, or the last one that was tried where none does."""

    horizon: int
    status: int
    shown: str


class Command(NamedTuple):
    """A program with a file and further words, of which only the horizon changes."""

    program: pathlib.Path
    file: pathlib.Path
    words: tuple[str, ...] = ()

    def line(self, horizon: int) -> Sequence[common.Word]:
        return [self.program, self.file, '--horizon', str(horizon), *self.words]

    def on_terminal(self, horizon: int, target: BinaryIO | int) -> tuple[int, str]:
        """The status of a run, and what a terminal shows of its standard error."""
        with terminal() as (theirs, seen):
            status = subprocess.run(self.line(horizon), stdin=subprocess.DEVNULL, stdout=target, stderr=theirs).returncode
        return status, seen.decode()

    def long_run(self, target: pathlib.Path, before: Long | None = None) -> Long:
        """A run to a horizon so far that it shows how far it is, with this target for what it writes. It begins near the horizon of the one before."""
        horizon = max(SHORT, before.horizon // 2) if before else SHORT
        while True:
            with open(target, 'wb') as device:
                status, shown = self.on_terminal(horizon, device)
            if WIPED in shown or horizon >= FAR:
                return Long(horizon, status, shown)
            horizon *= 2

    def is_progress(self, long: Long, after: str = '') -> bool:
        return is_progress(self.program.name, long.horizon, long.shown, after)


def try_run(command: Command, target: pathlib.Path, count: Count, before: Long | None) -> Long:
    """A short run shows nothing, and a long one how far it is."""
    name = ' '.join(command.words)
    with open(target, 'wb') as device:
        count.expect(f'{name}: a short run shows something', command.on_terminal(1000, device) == (0, ''))
    long = command.long_run(target, before)
    good = long.status == 0 and command.is_progress(long)
    count.expect(f'{name}: progress up to {long.horizon}: {long.shown[:60]!r}..{long.shown[-60:]!r}', good)
    return long


def try_reports(command: Command, target: pathlib.Path, count: Count, before: Long | None) -> Long:
    """The reports are the same, whether it is shown how far the run is or not."""
    long = try_run(command, target, count, before)
    ran = common.run(command.line(long.horizon), seconds=PATIENCE)
    count.expect(f'{" ".join(command.words)}: what is written up to {long.horizon}', ran == Ran(0, target.read_bytes(), b''))
    return long


def try_full_device(command: Command, count: Count, before: Long | None) -> None:
    """A run that cannot write ends with its one line, behind what was wiped."""
    long = command.long_run(pathlib.Path('/dev/full'), before)
    good = long.status == 3 and command.is_progress(long, f'{command.program.name}: write failed\r\n')
    count.expect(f'progress up to {long.horizon} of a run that cannot write: {long.shown[-80:]!r}', good)


def try_schedule_on_terminal(command: Command, horizon: int, count: Count) -> None:
    """Where the schedule goes to a terminal nothing else does."""
    with terminal() as (theirs, seen):
        status = subprocess.run(command.line(horizon), stdin=subprocess.DEVNULL, stdout=theirs, stderr=theirs).returncode
    count.expect('the schedule on a terminal', status == 0 and b'\x1b' not in seen and seen.count(b'\n') > 1000)


def main() -> None:
    program, count = common.built_program(common.asking_program(__doc__).parse_args().program), Count()
    with tempfile.TemporaryDirectory() as name:
        one, four, out = (pathlib.Path(name) / file for file in ('one.toml', 'four.toml', 'out'))
        one.write_text(performance.crowd(1, 8))
        four.write_text(performance.crowd(4, 8))
        reports = Command(program, one, ('--show', 'reports'))
        long = try_reports(reports, out, count, None)
        try_reports(Command(program, four, ('--show', 'reports', '--workers', '4')), out, count, None)
        found = None
        for workers in ('1', '4'):
            found = try_run(Command(program, four, ('--show', 'schedule', '--workers', workers)), pathlib.Path(os.devnull), count, found)
        try_full_device(reports, count, long)
        try_schedule_on_terminal(Command(program, one), 2**20, count)
    count.end()


if __name__ == '__main__':
    main()
