"""Why a job or an answer took so long. The names are those of the JSON of mcscheck --why (docs/CHECK.md); `begin` and `end` are its `from` and `to`."""
from __future__ import annotations

from collections.abc import Mapping, Sequence
from dataclasses import dataclass
from typing import Any, Optional

from . import rows
from .verdict import Answer, made, objects_of


@dataclass(frozen=True)
class Explanation:
    """A job, and what its core did in the span from `begin` to `end`. In the span the thread waited for its word for `waited` ticks.

    `activated`, `begun` and `ended` are times of the job; None stands where the horizon comes first. `rows` are those of the core in the span, `ran` has
    the ticks of each thread that ran, and `idle` those in which none did."""

    thread: str
    number: int
    begin: int
    end: int
    waited: int
    activated: Optional[int]
    begun: Optional[int]
    ended: Optional[int]
    rows: Sequence[rows.Row]
    ran: Mapping[str, int]
    idle: int


def explanation_of(lines: bytes) -> Explanation:
    """The explanation that these lines tell: the rows, the line of the job, a line for each thread that ran, and the line of the idle ticks."""
    found: list[rows.Row] = []
    ran: dict[str, int] = {}
    job: dict[str, Any] = {}
    for kind, values in objects_of(lines):
        if kind == 'why':
            job = values
        elif kind == 'ran':
            ran[values['thread']] = values['ticks']
        elif kind == 'idle':
            span = (job['from'], job['to'], job['waited'])
            times = (job.get('activated'), job.get('begun'), job.get('ended'))
            return Explanation(job['thread'], job['number'], *span, *times, tuple(found), ran, values['ticks'])
        else:
            found.append(rows.row_of(kind, values))
    raise EOFError('the explanation has no line of idle ticks')


@dataclass(frozen=True)
class Leg:
    """A piece of an interrupt's way to its answer, in the ticks from `begin` to `end`.

    `kind` is `held` at a notification, `ran` with a thread, and `delay` from `core` to the core `home`. Of a thread `ready`, `running`, `throttled` and
    `blocked` sum to the ticks."""

    kind: str
    begin: int
    end: int
    core: int
    note: Optional[str] = None
    thread: Optional[str] = None
    home: Optional[int] = None
    ready: int = 0
    running: int = 0
    throttled: int = 0
    blocked: int = 0

    @property
    def ticks(self) -> int:
        return self.end - self.begin


@dataclass(frozen=True)
class Way:
    """An answer, and the legs of the way from its interrupt to it: each begins where the one before ended.

    `sums` has the ticks by what they were spent on: `held`, `delay`, `ready`, `running`, `throttled` and `blocked`; they sum to the latency."""

    answer: Answer
    legs: Sequence[Leg]
    sums: Mapping[str, int]


def way_of(lines: bytes) -> Way:
    """The way that these lines tell: the line of the answer, a line for each leg, and the line of the sums."""
    legs: list[Leg] = []
    answer: Optional[Answer] = None
    for kind, values in objects_of(lines):
        if kind == 'answer':
            answer = made(Answer, values)
        elif kind == 'sum' and answer:
            return Way(answer, tuple(legs), {name: ticks for name, ticks in values.items() if name != 'ticks'})
        else:
            begin, end, _ = (values.pop(name) for name in ('moment', 'to', 'ticks'))
            legs.append(Leg(kind, begin, end, **values))
    raise EOFError('the way has no line of its sums')
