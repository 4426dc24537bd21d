"""A measured trace: a CSV whose rows say when which thread began to run on a core, or what else
happened. Columns and events are found by the names that the user gives."""
from __future__ import annotations

import csv
import decimal
import io
import pathlib
from collections.abc import Collection, Mapping, Sequence
from dataclasses import dataclass, field
from typing import NamedTuple, Optional

from . import named, system
from .faults import Fault
from .system import System

RUN, STOP, WAKE, INTERRUPT = 'run', 'stop', 'wake', 'interrupt'
KINDS = (RUN, STOP, WAKE, INTERRUPT)
# names by which traces call a core that runs nothing
IDLE = ('', 'idle', 'idle_thread', 'swapper')
# a time of a trace is below this in absolute value
FAR = decimal.Decimal(2**62)


class Row(NamedTuple):
    """A row of a trace: the time since its first row, what happened on which core, and to whom.
    The name is empty if the core is idle."""

    line: int
    time: float
    core: int
    kind: str
    name: str


class Columns(NamedTuple):
    """The names of the columns."""

    time: str = 'time'
    core: str = 'core'
    thread: str = 'thread'
    event: str = 'event'


@dataclass(frozen=True)
class Words:
    """How a trace calls events and threads."""

    columns: Columns = Columns()
    events: Mapping[str, str] = field(default_factory=lambda: {kind: kind for kind in KINDS})
    names: Mapping[str, str] = field(default_factory=dict)
    idle: Collection[str] = IDLE


@dataclass
class Trace:
    """The rows of a trace, with the time of the first one and what was passed over."""

    rows: list[Row]
    first: decimal.Decimal
    passed_over: dict[str, int]


def decimal_of(text: str) -> Optional[decimal.Decimal]:
    """The decimal number that a text is, if it is one that is not too great."""
    try:
        found = decimal.Decimal(text)
    except decimal.InvalidOperation:
        return None
    return found if found.is_finite() and abs(found) <= FAR else None


class Reader:
    """Reads a trace; faults name a line of it."""

    def __init__(self, path: pathlib.Path, known: System, words: Words) -> None:
        self.path, self.system, self.words = path, known, words
        try:
            text = system.read_bytes(path).decode('utf-8-sig')
        except UnicodeDecodeError:
            raise Fault(f'{path}: not UTF-8') from None
        self.cells = csv.reader(io.StringIO(text, newline=''), skipinitialspace=True)
        self.places: dict[str, int] = {}
        # by the core of the trace: that of the file
        self.cores: dict[str, int] = {}
        self.first: Optional[decimal.Decimal] = None
        self.latest = 0.0
        self.passed_over: dict[str, int] = {}

    def fault(self, text: str) -> Fault:
        return Fault(f'{self.path}:{max(1, self.cells.line_num)}: {text}')

    def read(self) -> Trace:
        rows = []
        try:
            self.take_columns(next(self.cells, []))
            for cells in self.cells:
                if any(cell.strip() for cell in cells):
                    row = self.row(cells)
                    rows += [row] if row else []
        except csv.Error as error:
            raise self.fault(f'not CSV: {error}') from None
        if self.first is None or not any(row.kind == RUN and row.name for row in rows):
            raise Fault(f'{self.path}: no thread of the system runs in it')
        return Trace(rows, self.first, self.passed_over)

    def take_columns(self, cells: Sequence[str]) -> None:
        names = [cell.strip() for cell in cells]
        self.places = {name: place for place, name in enumerate(names)}
        for wanted in (self.words.columns.time, self.words.columns.thread):
            if wanted not in self.places:
                raise self.fault(f'there is no column {wanted!r}: {named.known(wanted, names)}')

    def cell(self, cells: Sequence[str], column: str) -> str:
        """A cell, empty if there is no such column."""
        place = self.places.get(column)
        if place is None:
            return ''
        if place >= len(cells):
            raise self.fault(f'{len(cells)} cells for {len(self.places)} columns')
        return cells[place].strip()

    def row(self, cells: Sequence[str]) -> Optional[Row]:
        columns = self.words.columns
        time = self.time(self.cell(cells, columns.time))
        said = self.cell(cells, columns.event) if columns.event in self.places else RUN
        kind = self.words.events.get(said)
        if kind is None:
            self.pass_over(f'event {said}')
            return None
        name = self.cell(cells, columns.thread)
        name = self.words.names.get(name, name)
        if kind == INTERRUPT:
            if name in self.system.sources:
                return Row(self.cells.line_num, time, 0, kind, name)
            self.pass_over(f'source {name}')
            return None
        core = self.core(self.cell(cells, columns.core), self.system.threads[name].core if name in self.system.threads else None)
        if name in self.system.threads and core is not None:
            return Row(self.cells.line_num, time, core, kind, name)
        if name not in self.words.idle:
            self.pass_over(f'thread {name}')
        # whoever else runs, no thread of the system does
        return Row(self.cells.line_num, time, core, RUN, '') if core is not None and kind in (RUN, STOP) else None

    def pass_over(self, what: str) -> None:
        self.passed_over[what] = self.passed_over.get(what, 0) + 1

    def time(self, text: str) -> float:
        """The time since the first row; rows may not go back."""
        found = decimal_of(text)
        if found is None:
            raise self.fault(f'the time {text!r} is no number')
        if self.first is None:
            self.first = found
        since = float(found - self.first)
        if since < self.latest:
            raise self.fault(f'the time {text} is before that of the row above')
        self.latest = since
        return since

    def core(self, text: str, known: Optional[int]) -> Optional[int]:
        """The core of the file that a core of the trace is: that of the first thread that is seen
        there. Without a column each thread is on its own."""
        if not text:
            return 0 if known is None and self.system.cores == 1 else known
        if known is not None and self.cores.setdefault(text, known) != known:
            raise self.fault(f'core {text} is core {self.cores[text]} of the system by a row above, and core {known} by this one')
        return self.cores.get(text, int(text) if text.isdigit() and int(text) < self.system.cores else None)


def words_of(columns: Columns, events: Sequence[str], names: Sequence[str], idle: Sequence[str], known: System) -> Words:
    """How a trace calls things, by the options KIND=WORD and TRACE=THREAD."""
    words = {kind: kind for kind in KINDS}
    for text in events:
        kind, _, word = text.partition('=')
        if kind not in KINDS or not word:
            raise Fault(f'--events {text}: KIND=WORD is wanted, where KIND is one of {", ".join(KINDS)}')
        words[word] = kind
    found = {}
    for text in names:
        theirs, _, ours = text.rpartition('=')
        if not theirs or ours not in known.threads and ours not in known.sources:
            raise Fault(f'--name {text}: TRACE=THREAD is wanted: {named.known(ours, known.threads)}')
        found[theirs] = ours
    return Words(columns, words, found, (*IDLE, *idle))
