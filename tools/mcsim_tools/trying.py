"""Runs of a search, on several processors: the maximum response of a thread in each, by mcscheck."""
from __future__ import annotations

import abc
import contextlib
import json
import subprocess
from collections.abc import Callable, Iterator, Sequence
from dataclasses import dataclass, replace
from typing import Any, NamedTuple, Optional

from . import identity, verdict, writing
from .climbing import Point, Value
from .faults import Fault, first_line, why
from .journal import Journal
from .printable import printable
from .searching import Progress
from .settings import Tables
from .verdict import ANSWERS, NOTHING, REFUSED, Result
from .workers import Queue, Worker

OPEN = 'open'
# from when to when something was
Span = tuple[int, int]


@dataclass(frozen=True)
class Seen:
    """What a run came to: the maximum response, if a job was activated; whether that job had not
    ended, so its response is this or more; or the fault of a system that is refused."""

    value: Value = None
    is_open: bool = False
    fault: str = ''

    def result(self, thread: str) -> Result:
        """The form in which a journal keeps it."""
        greatest = {} if self.value is None else {thread: self.value}
        return Result(REFUSED if self.fault else NOTHING, self.fault, {OPEN: int(self.is_open)}, greatest)

    @classmethod
    def of(cls, result: Result, thread: str) -> Seen:
        return cls(result.greatest.get(thread), bool(result.counts.get(OPEN)), result.fault)


def program_of(checker: str) -> str:
    """The program that a launcher runs, so that the launcher's own tests are made once and not in
    each run. It is the file whose digest the launcher's is; another program is itself."""
    path = identity.found(checker)
    top, digest = path.resolve().parent, identity.digest(checker)
    places = [top / 'crates' / path.name / 'out' / path.name, top / 'bin' / path.name]
    return next((str(place) for place in places if place.is_file() and identity.of_file(place) == digest), checker)


class Case(NamedTuple):
    """What has the worst value, in words, from when to when it was if it ended, and the options with
    which mcscheck shows why, if it does."""

    said: str
    span: Optional[Span] = None
    asked: Optional[str] = ''


def longest(spans: Sequence[Span]) -> Optional[Span]:
    """The longest span, the earlier one of two alike; None if there is none."""
    return max(spans, key=lambda span: (span[1] - span[0], -span[0])) if spans else None


def lines_of(program: str, text: bytes, asked: Sequence[str]) -> tuple[int, list[str], str]:
    """The exit code of a program, if that is an answer, its lines and what it says of a refusal."""
    try:
        ended = subprocess.run([program, *asked], input=text, capture_output=True, check=False)
    except OSError as error:
        raise why(program, error) from None
    said = ended.stderr.decode(errors='replace')
    if ended.returncode not in ANSWERS:
        raise verdict.failure(program, ended.returncode, said)
    fault = printable(first_line(said).removeprefix('mcscheck: ').removeprefix('mcsim: '), verdict.LONGEST_FAULT)
    return ended.returncode, ended.stdout.decode(errors='replace').splitlines(), fault


class Question(abc.ABC):
    """What is to be the worst, up to a horizon."""

    # how the value is called
    what: str
    name: str
    horizon: int

    @property
    @abc.abstractmethod
    def key(self) -> str:
        """What a journal calls it."""

    @abc.abstractmethod
    def seen(self, tables: Tables) -> Seen:
        """Runs a system."""

    @abc.abstractmethod
    def case(self, tables: Tables, seen: Seen) -> Case:
        """What has the value that was seen."""

    @abc.abstractmethod
    def span(self, tables: Tables) -> Optional[Span]:
        """From when to when the worst value of a run was, or to the horizon; None without one."""

    @abc.abstractmethod
    def nothing(self) -> str:
        """What no run had if none has a value."""

    def notes(self) -> list[str]:
        """What a reader has to know of the value."""
        return []


@dataclass(frozen=True)
class Responses(Question):
    """The maximum response of a thread.

    The system is asked with one deadline, that of the thread, which is `least`: so mcscheck writes
    little, and a job that has not ended is told once it has this age."""

    what = 'response'
    checker: str
    name: str
    horizon: int
    least: int = 1

    @property
    def key(self) -> str:
        return self.name

    def nothing(self) -> str:
        return f'no job of it was activated in any run up to {self.horizon}'

    def text(self, tables: Tables) -> bytes:
        rows = [{key: value for key, value in row.items() if key != 'deadline'} for row in tables['thread']]
        rows = [{**row, 'deadline': max(1, self.least)} if row['name'] == self.name else row for row in rows]
        kept = {key: value for key, value in tables.items() if key != 'chain'}
        return writing.system_text({**kept, 'thread': rows}).encode()

    def run(self, text: bytes, asked: Sequence[str]) -> tuple[int, list[str], str]:
        return lines_of(self.checker, text, ['--horizon', str(self.horizon), *asked])

    def seen(self, tables: Tables) -> Seen:
        status, lines, fault = self.found(tables)
        if status == REFUSED:
            return Seen(fault=fault or 'it is refused')
        row = self.row_of(lines, 'thread')
        if row is None:
            raise Fault(f'{self.checker} has no line of {self.name}')
        ended: Value = row.get('greatest')
        age = max((end - begin for begin, end in self.open_spans(lines)), default=None)
        if age is not None and (ended is None or age > ended):
            return Seen(age, is_open=True)
        return Seen(ended)

    def open_spans(self, lines: Sequence[str]) -> Iterator[tuple[int, int]]:
        """From when to when a job that has not ended is open, or a word is pending that nobody else may take."""
        yield from ((int(row['activated']), int(row['moment'])) for row in self.rows_of(lines, 'overdue'))
        untaken = (json.loads(line) for line in lines if '"kind":"untaken"' in line)
        yield from ((int(row['set']), int(row['moment'])) for row in untaken if row['by'] == [self.name])

    def found(self, tables: Tables) -> tuple[int, list[str], str]:
        """What mcscheck finds, and its figures."""
        allowed = [f'--allow-lost={row["name"]}' for row in tables.get('note', [])]
        return self.run(self.text(tables), ['--show', 'both', '--format', 'json', *allowed])

    def rows_of(self, lines: Sequence[str], kind: str) -> Iterator[dict[str, Any]]:
        """The lines of a kind that are of the thread, the last first."""
        wanted = f'"kind":"{kind}","thread":"{self.name}"'
        return (json.loads(line) for line in reversed(lines) if wanted in line)

    def row_of(self, lines: Sequence[str], kind: str) -> Optional[dict[str, Any]]:
        """The line of a kind that is of the thread."""
        return next(self.rows_of(lines, kind), None)

    def span(self, tables: Tables) -> Optional[Span]:
        _, lines, _ = replace(self, least=1).found(tables)
        return longest([*((int(row['activated']), int(row['moment'])) for row in self.rows_of(lines, 'miss')), *self.open_spans(lines)])

    def case(self, tables: Tables, seen: Seen) -> Case:
        """The first job of the thread with this response, as mcscheck confirms it."""
        if seen.is_open:
            return Case('the job had not ended at the horizon')
        _, lines, _ = self.run(writing.system_text(tables).encode(), ['--show', 'jobs', '--format', 'csv'])
        for cells in (line.split(',') for line in lines[1:]):
            if cells[3] == self.name and cells[7] == str(seen.value):
                number, activated, end = cells[4], int(cells[5]), int(cells[0])
                said = f'job {number}, activated {activated}, ended {end}'
                return Case(said, (activated, end), f' --why {self.name} {number}')
        raise Fault(f'{self.checker} has no job of {self.name} with the response {seen.value}, which it told before')


class Seeking(Progress):
    """How far a search is, with the worst value so far."""

    def told(self, done: int, best: Value) -> None:
        if self.is_shown:
            worst = '' if best is None else f', worst {best}'
            self.write(f'\r{done} of {self.count}{worst} ')
            self.is_open = True


@contextlib.contextmanager
def team(work: Callable[[Point], Seen], jobs: int) -> Iterator[Callable[[Sequence[Point]], Iterator[Seen]]]:
    """Processes that stay from batch to batch; with one job there is none."""
    if jobs == 1:
        yield lambda points: map(work, points)
        return
    workers: list[Worker[Point, Seen]] = []
    try:
        for _ in range(jobs):
            workers.append(Worker(work))
        yield lambda points: Queue(workers, iter(points)).results()
    finally:
        for worker in workers:
            worker.end()


class Trials:
    """The runs of a search, in their order. Those that a journal has are not run again."""

    def __init__(self, thread: str, run: Callable[[Sequence[Point]], Iterator[Seen]], journal: Optional[Journal], progress: Seeking) -> None:
        self.thread, self.run, self.journal, self.progress = thread, run, journal, progress
        self.kept = [Seen.of(result, thread) for result in journal.results] if journal else []
        self.done = self.refused = 0
        self.best, self.point = Seen(), None  # type: Seen, Optional[Point]
        self.first_refused: Optional[tuple[Point, str]] = None

    def values(self, batch: list[Point]) -> list[Value]:
        """The value of each point of a batch."""
        kept = self.kept[self.done:self.done + len(batch)]
        found = []
        for place, point in enumerate(batch[:len(kept)]):
            found.append(self.take(point, kept[place]))
        for point, seen in zip(batch[len(kept):], self.run(batch[len(kept):])):
            if self.journal:
                self.journal.add(seen.result(self.thread))
            found.append(self.take(point, seen))
        return found

    def take(self, point: Point, seen: Seen) -> Value:
        self.done += 1
        if seen.fault:
            self.refused += 1
            self.first_refused = self.first_refused or (point, seen.fault)
        elif seen.value is not None and (self.best.value is None or seen.value > self.best.value):
            self.best, self.point = seen, point
        self.progress.told(self.done, self.best.value)
        return seen.value


