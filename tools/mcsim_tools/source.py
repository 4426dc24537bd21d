"""Where the lines of a schedule come from: a run of the program, a file, or standard input."""
from __future__ import annotations

import argparse
import contextlib
import io
import itertools
import os
import pathlib
import shutil
import subprocess
import threading
from collections.abc import Iterator, Sequence
from dataclasses import dataclass
from typing import IO, Optional

from . import explaining, options, system
from .faults import Fault, first_line, why
from .options import Options
from .system import System

HORIZON = 1000
LONGEST_HORIZON = 2**40

moment = options.number('no moment of 0 to 2^40', 0, LONGEST_HORIZON)


def default_program() -> str:
    """The program: what MCSIM names, or the repository's, or that on the PATH."""
    beside = pathlib.Path(__file__).resolve().parents[2] / 'mcsim'
    return os.environ.get('MCSIM') or (str(beside) if beside.is_file() else shutil.which('mcsim') or 'mcsim')


class Words(Options):
    """The options of a tool that shows a schedule."""

    def __init__(self, doc: Optional[str]) -> None:
        super().__init__(doc)
        self.reads('system', metavar='SYSTEM', help='the file of the system')
        self.add_argument('-n', '--horizon', type=moment, metavar='N', help=f'the last moment of the run (default: {HORIZON}; of rows: that of the last one)')
        self.add_argument('--program', default=default_program(), metavar='PATH', help='the program to run (default: %(default)s)')

    def takes_rows(self) -> Words:
        self.reads('--rows', metavar='FILE', help='reads the schedule of SYSTEM from FILE, - for standard input, and runs nothing')
        return self


@dataclass(frozen=True)
class Told:
    """A system and the lines of a schedule of it, up to a horizon where one is given."""

    system: System
    lines: Iterator[str]
    horizon: Optional[int]


def pipe_of(pipe: Optional[IO[bytes]]) -> IO[bytes]:
    """A pipe that was asked for."""
    assert pipe is not None
    return pipe


def text_lines(file: IO[bytes]) -> Iterator[str]:
    """The lines of a file, of whatever bytes."""
    with io.TextIOWrapper(file, encoding='utf-8', errors='replace', newline='\n') as text:
        yield from text


class Run:
    """A run of the program over the bytes of a file, so that both read the same."""

    def __init__(self, program: str, path: pathlib.Path, text: bytes, words: Sequence[str]) -> None:
        self.path, self.text = path, text
        try:
            self.child = subprocess.Popen([program, *words], stdin=subprocess.PIPE, stdout=subprocess.PIPE, stderr=subprocess.PIPE)
        except OSError as error:
            raise why(program, error) from None
        self.input, self.output, self.errors = (pipe_of(pipe) for pipe in (self.child.stdin, self.child.stdout, self.child.stderr))
        self.feeder = threading.Thread(target=self.feed, daemon=True)
        self.feeder.start()

    def feed(self) -> None:
        with contextlib.suppress(OSError):
            self.input.write(self.text)
        with contextlib.suppress(OSError):
            self.input.close()

    def lines(self) -> Iterator[str]:
        yield from text_lines(self.output)
        said = first_line(self.errors.read().decode(errors='replace'))
        if status := self.child.wait():
            raise self.fault(said, status)

    def fault(self, said: str, status: int) -> Fault:
        """What the program says of the file, with the line where it can be told."""
        said = said.removeprefix('mcsim: ')
        if not said:
            return Fault(f'{self.path}: the program ended with status {status}')
        line = explaining.line_of(self.text, said)
        return Fault(f'{self.path}:{line}: {said}' if line else f'{self.path}: {said}')

    def end(self) -> None:
        if self.child.poll() is None:
            self.child.kill()
        self.child.wait()
        self.feeder.join()
        self.output.close()
        self.errors.close()


@contextlib.contextmanager
def run(program: str, path: pathlib.Path, text: bytes, horizon: int) -> Iterator[Told]:
    """A run to a horizon. The program tests the file's text before the tool reads it, since its fault has a place."""
    running = Run(program, path, text, ['--horizon', str(horizon)])
    try:
        lines = running.lines()
        first = list(itertools.islice(lines, 1))
        yield Told(system.parse(path, text), itertools.chain(first, lines), horizon)
    finally:
        running.end()


def check(program: str, path: pathlib.Path, text: bytes) -> None:
    """Raises the fault that the program finds in a file."""
    running = Run(program, path, text, ['--horizon', '0', '--show', 'reports'])
    try:
        for _ in running.lines():
            pass
    finally:
        running.end()


def lines_of(path: pathlib.Path, file: IO[bytes]) -> Iterator[str]:
    """The lines of a file of rows."""
    try:
        yield from text_lines(file)
    except OSError as error:
        raise why(path, error) from None


@contextlib.contextmanager
def rows_of_file(path: pathlib.Path, rows: pathlib.Path, horizon: Optional[int]) -> Iterator[Told]:
    known = system.parse(path, system.read_bytes(path))
    try:
        opened = system.opened(rows)
    except OSError as error:
        raise why(rows, error) from None
    with opened as file:
        yield Told(known, lines_of(rows, file), horizon)


def told(words: argparse.Namespace, horizon: Optional[int]) -> contextlib.AbstractContextManager[Told]:
    """What the words of a tool ask for: rows that are there, or a run."""
    if getattr(words, 'rows', None):
        return rows_of_file(words.system, words.rows, horizon)
    text = system.read_bytes(words.system)
    return run(words.program, words.system, text, HORIZON if horizon is None else horizon)
