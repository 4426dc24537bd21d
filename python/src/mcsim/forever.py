"""What is found for all time. The names are those of the JSON of mcscheck --forever (docs/CHECK.md); `begin` is its `from`."""
from __future__ import annotations

from collections.abc import Iterator, Mapping, Sequence
from dataclasses import dataclass
from typing import Any, Optional, Union

from .verdict import made, objects_of


@dataclass(frozen=True)
class Misses:
    """How many jobs of the thread miss their deadline: in each period and before the first, or so far if no repetition was found."""

    thread: str
    each_period: Optional[int] = None
    before: Optional[int] = None
    so_far: Optional[int] = None


@dataclass(frozen=True)
class Losses:
    """How many signals and interrupts are lost at the notification, likewise."""

    note: str
    each_period: Optional[int] = None
    before: Optional[int] = None
    so_far: Optional[int] = None


@dataclass(frozen=True)
class EndsOverdue:
    """The job of this number, activated then, is overdue for ever: it never ends. With `moment`, a job of the thread is overdue at that horizon, and no
    repetition was found."""

    thread: str
    number: Optional[int] = None
    activated: Optional[int] = None
    moment: Optional[int] = None


@dataclass(frozen=True)
class EndsNever:
    """The thread has a deadline, and no job of it can ever begin; with `moment` none could up to that horizon."""

    thread: str
    moment: Optional[int] = None


@dataclass(frozen=True)
class EndsUntaken:
    """The notification holds this word since `set` for ever, and none of `by` ever takes it; with `moment` it is untaken at that horizon."""

    note: str
    by: Sequence[str] = ()
    word: Optional[int] = None
    set: Optional[int] = None
    moment: Optional[int] = None


@dataclass(frozen=True)
class SlowAnswers:
    """How many jobs answer the chain later than its deadline: in each period and before the first, or so far if no repetition was found."""

    chain: str
    each_period: Optional[int] = None
    before: Optional[int] = None
    so_far: Optional[int] = None


@dataclass(frozen=True)
class MissingAnswers:
    """How many interrupts of the chain more than answers there are, likewise, if at some horizon a deadline has passed without an answer."""

    chain: str
    each_period: Optional[int] = None
    before: Optional[int] = None
    so_far: Optional[int] = None


@dataclass(frozen=True)
class Response:
    """The greatest response of the jobs of a thread that ever end, None if none does; of those up to the horizon if `is_so_far`.

    `throttled` is 'never' if the thread never exhausts its budget. No job of it ends from the time `ends_no_round_from` on, if that is not None. With
    `computes_without_end` the thread spins, or may as well, and has no response."""

    thread: str
    greatest: Optional[int] = None
    throttled: Optional[str] = None
    ends_no_round_from: Optional[int] = None
    is_so_far: bool = False
    computes_without_end: bool = False


@dataclass(frozen=True)
class Latency:
    """The answers of a chain. From `begin` on they repeat each `period` ticks, for ever, with `answers` in each period; both are None if no repetition was
    found, and `answers` is then how many there are so far. `greatest` is the maximum latency, None without an answer; `deadline` is that of the chain, None
    if it has none."""

    chain: str
    begin: Optional[int]
    period: Optional[int]
    greatest: Optional[int]
    answers: int
    deadline: Optional[int]


RESPONSES = ('thread', 'computes', 'thread_so_far')
EverFinding = Union[Misses, Losses, EndsOverdue, EndsNever, EndsUntaken, SlowAnswers, MissingAnswers]
FINDINGS: Mapping[str, type[EverFinding]] = {
    'miss': Misses, 'lost': Losses, 'overdue': EndsOverdue, 'never': EndsNever, 'untaken': EndsUntaken, 'slow': SlowAnswers, 'unanswered': MissingAnswers,
}
CHAIN = 'chain'
OF_CHAINS = (CHAIN, 'slow', 'unanswered')


@dataclass(frozen=True)
class CoreSet:
    """A set of cores that no core outside signals. From `begin` on all that they do repeats each `period` ticks, for ever; both are None if no repetition was
    found. `unsettled` has the threads that never miss a deadline, but of which a job may be overdue at some time. `is_clean` is that nothing is ever found."""

    cores: Sequence[int]
    begin: Optional[int]
    period: Optional[int]
    findings: Sequence[EverFinding]
    responses: Sequence[Response]
    unsettled: Sequence[str]
    is_clean: bool


@dataclass(frozen=True)
class Sets:
    """How many sets of cores there are, how many repeat, and how many findings there are, those of chains included; then how many threads the file has, and
    how many deadlines of threads and chains."""

    sets: int
    repeating: int
    findings: int
    threads: int
    deadlines: int


@dataclass(frozen=True)
class Outlook:
    """The sets of cores with their findings, the latencies of the chains and what is found of them, and the counts."""

    sets: Sequence[CoreSet]
    counts: Sets
    latencies: Sequence[Latency] = ()
    of_chains: Sequence[EverFinding] = ()

    @property
    def findings(self) -> Sequence[EverFinding]:
        """The findings of all sets, and those of chains."""
        return (*(found for one in self.sets for found in one.findings), *self.of_chains)

    @property
    def is_clean(self) -> bool:
        """Whether nothing was found, which says nothing of all time unless `is_judged`."""
        return self.counts.findings == 0

    @property
    def is_judged(self) -> bool:
        """Whether each set and each chain with a deadline repeats, each thread is settled, and a thread or a chain has a deadline."""
        is_settled = not any(one.unsettled for one in self.sets)
        is_open = any(one.period is None and one.deadline is not None for one in self.latencies)
        return self.counts.repeating == self.counts.sets and is_settled and not is_open and self.counts.deadlines > 0

    def __iter__(self) -> Iterator[EverFinding]:
        return iter(self.findings)

    def __len__(self) -> int:
        return len(self.findings)


def response_of(kind: str, values: dict[str, Any]) -> Response:
    is_so_far, computes = kind == 'thread_so_far', kind == 'computes'
    return Response(values['thread'], values.get('greatest'), values.get('throttled'), values.get('ends_no_round_from'), is_so_far, computes)


def finding_of(kind: str, values: dict[str, Any]) -> EverFinding:
    if 'by' in values:
        values['by'] = tuple(values['by'])
    found: EverFinding = made(FINDINGS[kind], values)
    return found


def latency_of(values: dict[str, Any]) -> Latency:
    return Latency(
        values['chain'], values.get('from'), values.get('period'), values.get('greatest'), values['answers'], values.get('deadline'),
    )


def set_of(values: dict[str, Any], told: Sequence[tuple[str, dict[str, Any]]]) -> CoreSet:
    """A set of cores, of the object that begins it and those that follow."""
    return CoreSet(
        tuple(map(int, values['cores'].split())), values.get('from'), values.get('period'),
        tuple(finding_of(kind, found) for kind, found in told if kind in FINDINGS),
        tuple(response_of(kind, found) for kind, found in told if kind in RESPONSES),
        tuple(found['thread'] for kind, found in told if kind == 'unsettled'),
        any(kind == 'clean' for kind, _ in told),
    )


def outlook_of(lines: bytes) -> Outlook:
    """The outlook that these lines tell."""
    sets: list[tuple[dict[str, Any], list[tuple[str, dict[str, Any]]]]] = []
    chains: list[tuple[str, dict[str, Any]]] = []
    for kind, values in objects_of(lines):
        if kind in ('repeats', 'open'):
            sets.append((values, []))
        elif kind in OF_CHAINS:
            chains.append((kind, values))
        elif kind == 'sets':
            latencies = tuple(latency_of(told) for kind, told in chains if kind == CHAIN)
            of_chains = tuple(finding_of(kind, told) for kind, told in chains if kind != CHAIN)
            return Outlook(tuple(set_of(*one) for one in sets), made(Sets, values), latencies, of_chains)
        else:
            sets[-1][1].append((kind, values))
    raise EOFError('the outlook has no line of counts')
