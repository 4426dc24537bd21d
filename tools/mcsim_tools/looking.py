"""Looks at a system's file in a process of its own, which is given up when it takes too long.

A file may be a pipe that nobody writes, a run may take hours, a disk may not answer. The process says when it has read the file and when it has drawn
it; between these it may be ended, with the program that it runs, and another one takes its place."""
from __future__ import annotations

import argparse
import contextlib
import enum
import multiprocessing
import multiprocessing.connection
import pathlib
import threading
import time
from collections.abc import Sequence
from dataclasses import dataclass, field
from multiprocessing.connection import Connection
from typing import NamedTuple, Optional, Union

from . import explain, explaining, lanes, parts, source, system, view, workers
from .changes import Verdict
from .faults import Fault
from .printable import printable

# seconds within which a file is to be read
READ = 5
# seconds within which a process is to begin, on a machine that has much to do
BEGIN = 30
# seconds for which a part waits for a look that is under way, and that it may take more than it should
BUSY = 0.5
# how often the file is looked at, in seconds
LOOK = 0.2

# what tells one save of a file from the next
Mark = Union[tuple[int, ...], int, None]


def mark_of(path: pathlib.Path) -> Mark:
    """What is another one after each save; an editor may take the file away for a moment."""
    try:
        found = path.stat()
    except OSError as error:
        return error.errno
    return found.st_mtime_ns, found.st_size, found.st_ino, found.st_mode


@dataclass(frozen=True)
class Drawn:
    """What came of a look: the text of a page with its verdict, or the fault of the file, with what there is to say of it."""

    page: bytes = b''
    fault: Optional[str] = None
    explained: Sequence[str] = ()
    verdict: Verdict = field(default_factory=dict)
    # whether the file was not read, and so is to be looked at again
    is_unread: bool = False


class Step(enum.Enum):
    """What a process says on its way: it waits for work; it has read the file."""

    BEGAN = 'began'
    READ = 'read'


class Part(NamedTuple):
    """What is asked of a picture beyond the detail of its page."""

    number: int
    begin: int
    end: int


class Drawer:
    """Draws the file for each number that comes, and parts of the last picture."""

    def __init__(self, connection: Connection, words: argparse.Namespace, window: view.Window) -> None:
        self.connection, self.words, self.window = connection, words, window
        self.kept: Optional[parts.Kept] = None

    def serve(self) -> None:
        with contextlib.suppress(EOFError, OSError):
            while True:
                asked: Union[int, Part] = self.connection.recv()
                self.connection.send(self.part(asked) if isinstance(asked, Part) else self.draw(asked))

    def part(self, asked: Part) -> Optional[bytes]:
        if self.kept is None or self.kept.number != asked.number:
            return None
        return self.kept.part(asked.begin, asked.end)

    def draw(self, number: int) -> Drawn:
        words, text = self.words, b''
        try:
            text = system.read_bytes(words.system)
            self.connection.send(Step.READ)
            return self.drawn(number, text)
        except Fault as fault:
            # nothing is run for a file that was not read
            return Drawn(fault=printable(fault), explained=explained(words, text) if text else ())
        except Exception as error:
            return Drawn(fault=printable(f'{words.system}: it cannot be drawn: {type(error).__name__}: {error}'))

    def drawn(self, number: int, text: bytes) -> Drawn:
        words, marks = self.words, parts.Marks()
        horizon = source.HORIZON if self.window.horizon is None else self.window.horizon
        with source.run(words.program, words.system, text, horizon) as told:
            page = view.draw_page(told, words, self.window, number, marks.of)
        budgets = lanes.budgets_asked(told.system, words.budgets)
        self.kept = parts.Kept(number, words.program, words.system, text, told.system, horizon, budgets, marks.list)
        return Drawn(page.text.encode(), verdict=page.verdict)


def serve(connection: Connection, words: argparse.Namespace, window: view.Window) -> None:
    workers.begin()
    connection.send(Step.BEGAN)
    Drawer(connection, words, window).serve()


def explained(words: argparse.Namespace, text: bytes) -> list[str]:
    """What tools/explain says of a file behind its first line; nothing if the program has no fault to explain."""
    try:
        _, said = explain.answer_of(words.program, text)
        fault = explaining.fault_of(said)
        return [printable(line, explain.LONGEST_LINE) for line in explain.explanation(words.system, fault, text)[1:]] if fault else []
    except Fault:
        return []


class Looker:
    """Looks at a file through a process that can be given up."""

    def __init__(self, words: argparse.Namespace, window: view.Window, limit: int) -> None:
        self.words, self.window, self.limit = words, window, limit
        self.connection: Optional[Connection] = None
        self.process: Optional[multiprocessing.process.BaseProcess] = None
        # a look or a part is under way
        self.is_busy = threading.Lock()

    def begin(self) -> Connection:
        """Starts a process, if there is none."""
        if self.connection is None:
            context = multiprocessing.get_context('spawn')
            own, other = context.Pipe()
            self.connection, self.process = own, context.Process(target=serve, args=(other, self.words, self.window), daemon=True)
            self.process.start()
            other.close()
            if not own.poll(BEGIN):
                raise EOFError
            own.recv()
        return self.connection

    def look(self, number: int) -> Optional[Drawn]:
        """Draws the file as the picture of a number. None if it was saved again meanwhile: then this look is given up."""
        with self.is_busy:
            return self.looked(number)

    def part(self, asked: Part) -> Optional[bytes]:
        """A part of the last picture. None if there is none, or if it takes too long, a look that is under way included."""
        if not self.is_busy.acquire(timeout=BUSY):
            return None
        try:
            if self.connection is None:
                return None
            self.connection.send(asked)
            if not self.connection.poll(parts.SECONDS + BUSY):
                raise EOFError
            part: Optional[bytes] = self.connection.recv()
            return part
        except (EOFError, OSError):
            self.give_up()
            return None
        finally:
            self.is_busy.release()

    def looked(self, number: int) -> Optional[Drawn]:
        mark = mark_of(self.words.system)
        try:
            connection = self.begin()
            connection.send(number)
            if not self.says(connection, READ, mark):
                return self.given_up(mark, f'it was not read within {READ} s, so this look was given up', is_unread=True)
            said = connection.recv()
            if isinstance(said, Drawn):
                return said
            if not self.says(connection, self.limit, mark):
                return self.given_up(mark, f'its run and picture were not ready within {self.limit} s, so this look was given up (--limit N gives more)')
            drawn: Drawn = connection.recv()
            return drawn
        except (EOFError, OSError):
            return self.given_up(mark, 'what draws it has ended')

    def says(self, connection: Connection, seconds: float, mark: Mark) -> bool:
        """Whether the process says something in time, and before the file is another one."""
        until = time.monotonic() + seconds
        while not connection.poll(LOOK):
            if time.monotonic() >= until or mark_of(self.words.system) != mark:
                return False
        return True

    def given_up(self, mark: Mark, why: str, is_unread: bool = False) -> Optional[Drawn]:
        """Gives the look up, and says why, unless the file is another one by now."""
        self.give_up()
        if mark_of(self.words.system) != mark:
            return None
        return Drawn(fault=printable(f'{self.words.system}: {why}'), is_unread=is_unread)

    def give_up(self) -> None:
        """Ends the process, and the program that it runs."""
        if self.connection:
            self.connection.close()
        if self.process:
            workers.kill(self.process)
        self.connection = self.process = None
