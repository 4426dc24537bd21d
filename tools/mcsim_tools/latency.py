"""Runs of a search: the maximum latency of a chain in each, read off the rows that mcsim writes."""
from __future__ import annotations

from dataclasses import dataclass
from typing import Optional

from . import system, trying, writing
from .chains import Answer
from .faults import Fault
from .reading import Listener, Reading, Round
from .settings import Tables
from .system import Chain
from .trying import Case, Question, Seen, Span
from .verdict import REFUSED


class Slowest(Listener):
    """The first answer with the maximum latency of a chain, and the number of its job."""

    hears_chains = True

    def __init__(self) -> None:
        self.answer: Optional[Answer] = None
        self.number = self.latest = 0

    def round_ended(self, ended: Round) -> None:
        # the answers of a job come right after its end
        self.latest = ended.number

    def answered(self, answer: Answer) -> None:
        if self.answer is None or answer.latency > self.answer.latency:
            self.answer, self.number = answer, self.latest


@dataclass(frozen=True)
class Read:
    """What the rows of a run say of a chain: its slowest answer, with the number of the job that
    gives it, and the earliest interrupt without an answer."""

    answer: Optional[Answer]
    number: int
    unanswered: Optional[int]


@dataclass(frozen=True)
class Latencies(Question):
    """The maximum latency of a chain: that of an answer, or the age of an interrupt that has none at
    the horizon, if that is more."""

    what = 'latency'
    program: str
    chain: Chain
    horizon: int

    @property
    def name(self) -> str:  # type: ignore[override]
        return self.chain.name

    @property
    def key(self) -> str:
        return f'chain.{self.name}'

    def nothing(self) -> str:
        return f'no interrupt of {self.chain.source} came before {self.horizon} in any run'

    def notes(self) -> list[str]:
        chain = self.chain
        answers = f'from an interrupt of {chain.source} to the end of the first job of {chain.thread} that answers it'
        return [f'latency: the greatest of an answer, {answers}; an interrupt without an answer at {self.horizon} counts with its age, if that is more']

    def read(self, tables: Tables) -> tuple[Optional[Read], str]:
        """Runs a system; None and the fault if it is refused."""
        text = writing.system_text({**tables, 'chain': self.rows_of(tables)}).encode()
        status, lines, fault = trying.lines_of(self.program, text, ['--horizon', str(self.horizon)])
        if status == REFUSED:
            return None, fault or 'it is refused'
        slowest = Slowest()
        reading = Reading(system.system_of({**tables, 'chain': self.rows_of(tables)}), slowest)
        reading.read(lines, self.horizon)
        assert reading.chains
        moments, first_open = reading.chains.sources.moments[self.chain.source], reading.chains.figures[self.name].first_open
        return Read(slowest.answer, slowest.number, moments[first_open] if first_open < len(moments) else None), ''

    def rows_of(self, tables: Tables) -> list[Tables]:
        """The row of the chain alone."""
        return [row for row in tables['chain'] if row['name'] == self.name]

    def seen(self, tables: Tables) -> Seen:
        found, fault = self.read(tables)
        if found is None:
            return Seen(fault=fault)
        latency = None if found.answer is None else found.answer.latency
        age = 0 if found.unanswered is None else self.horizon - found.unanswered
        return Seen(age, is_open=True) if age > (latency or 0) else Seen(latency)

    def span(self, tables: Tables) -> Optional[Span]:
        found, _ = self.read(tables)
        if found is None:
            return None
        spans = [] if found.answer is None else [(found.answer.origin, found.answer.moment)]
        if found.unanswered is not None:
            spans.append((found.unanswered, self.horizon))
        return trying.longest(spans)

    def case(self, tables: Tables, seen: Seen) -> Case:
        found, _ = self.read(tables)
        if found is None or seen != self.seen(tables):
            raise Fault(f'{self.program} does not show the latency {seen.value} of {self.name} again')
        source, thread = self.chain.source, self.chain.thread
        if seen.is_open:
            return Case(f'the interrupt of {source} at {found.unanswered} has no answer at {self.horizon}', asked=None)
        assert found.answer
        origin, moment = found.answer.origin, found.answer.moment
        return Case(f'the interrupt of {source} at {origin} is answered at {moment}, by job {found.number} of {thread}', (origin, moment), None)
