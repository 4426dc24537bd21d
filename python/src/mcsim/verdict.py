"""What a check finds, and the figures of threads. The names are those of the JSON of mcscheck (docs/CHECK.md)."""
from __future__ import annotations

import dataclasses
import json
from collections.abc import Iterator, Mapping, Sequence
from dataclasses import dataclass
from typing import Any, Optional, Union


@dataclass(frozen=True)
class Miss:
    """A job that ended after its deadline. The ticks sum to the response: `queued` until the job before it ended, then by how the thread stood."""

    moment: int
    core: int
    thread: str
    number: int
    response: int
    deadline: int
    activated: int
    queued: int
    ready: int
    running: int
    throttled: int
    blocked: int
    server: int


@dataclass(frozen=True)
class Overdue:
    """A job that is under way at the horizon, and whose deadline has passed: it ends with a miss, or never. The ticks sum to its age."""

    moment: int
    core: int
    thread: str
    number: int
    age: int
    deadline: int
    activated: int
    queued: int
    ready: int
    running: int
    throttled: int
    blocked: int
    server: int


@dataclass(frozen=True)
class Untaken:
    """A word that was set `age` ticks before the horizon and that no thread took: whoever of `by` takes it misses its deadline, the greatest of which is
    `deadline`."""

    moment: int
    core: int
    note: str
    by: Sequence[str]
    word: int
    age: int
    deadline: int
    set: int


@dataclass(frozen=True)
class Lost:
    """A signal or an interrupt that added no bit to the word: an activation that is lost."""

    moment: int
    core: int
    note: str
    word: int


@dataclass(frozen=True)
class Never:
    """A thread with a deadline of which no job could begin up to the horizon."""

    moment: int
    core: int
    thread: str
    deadline: int


@dataclass(frozen=True)
class Unjudged:
    """A thread with a deadline of which no job has ended at the horizon, and none is overdue. `activated` is of its job under way, if one is. It is no
    finding."""

    moment: int
    core: int
    thread: str
    deadline: int
    activated: Optional[int] = None


@dataclass(frozen=True)
class Slow:
    """An answer of a chain that came later than the chain's deadline after the interrupt at `origin`."""

    moment: int
    core: int
    chain: str
    latency: int
    deadline: int
    origin: int


@dataclass(frozen=True)
class Unanswered:
    """An interrupt of a chain, at `origin`, that has no answer at the horizon, a deadline later."""

    moment: int
    core: int
    chain: str
    deadline: int
    origin: int


@dataclass(frozen=True)
class Other:
    """A finding of a kind that this package does not know, with all of its values."""

    moment: int
    core: int
    kind: str
    values: Mapping[str, Union[int, str]]


Finding = Union[Miss, Overdue, Untaken, Lost, Never, Slow, Unanswered, Other]


@dataclass(frozen=True)
class Hint:
    """A likely mistake in the file: `no_thread` and `no_deadline` are of all of it, `unsignalled` has a note, `unbound` a context, `unused` a core without a
    thread, and `overcommitted` a core and what it grants, in millionths. `unawaited` has a source on whose note nobody waits, `unhandled` a source, its note
    and its badge that no handler takes, `unheard` a thread that signals such a badge, and `inverted` a thread that calls a server at the priority `caller`,
    which is not below that of the server. `unreached` has a chain, its source and its thread, to which no signal leads from there."""

    hint: str
    note: Optional[str] = None
    context: Optional[str] = None
    core: Optional[int] = None
    grants: Optional[int] = None
    source: Optional[str] = None
    thread: Optional[str] = None
    badge: Optional[int] = None
    server: Optional[str] = None
    priority: Optional[int] = None
    caller: Optional[int] = None
    chain: Optional[str] = None


@dataclass(frozen=True)
class Counts:
    """How many findings there are of each kind. Merged and allowed ones are none, nor are unjudged threads and hints. Then how many threads and deadlines
    the file has, and how many jobs and answers with a deadline ended or are overdue, and words are untaken. The last two are 0 in a file without a
    chain."""

    missed: int
    overdue: int
    untaken: int
    lost: int
    never: int
    merged: int
    allowed: int
    unjudged: int
    hints: int
    threads: int
    deadlines: int
    judged: int
    slow: int = 0
    unanswered: int = 0


@dataclass(frozen=True)
class Verdict:
    """The findings in the order of the schedule, then those at the horizon; the threads that are unjudged; the hints; and the counts."""

    findings: Sequence[Finding]
    unjudged: Sequence[Unjudged]
    hints: Sequence[Hint]
    counts: Counts

    @property
    def is_clean(self) -> bool:
        """Whether nothing was found, which says nothing unless something was judged. Unjudged threads and hints are no findings."""
        return not self.findings

    @property
    def is_judged(self) -> bool:
        """Whether any job or answer with a deadline ended or is overdue, or a word is untaken."""
        return self.counts.judged > 0

    def __iter__(self) -> Iterator[Finding]:
        return iter(self.findings)

    def __len__(self) -> int:
        return len(self.findings)


@dataclass(frozen=True)
class Job:
    """A job that ended. The response counts from its activation."""

    moment: int
    core: int
    thread: str
    number: int
    activated: int
    begun: int
    response: int
    queued: int
    preemptions: int
    ready: int
    running: int
    throttled: int
    blocked: int
    server: int


@dataclass(frozen=True)
class Answer:
    """An answer of a chain: the end of the thread's job of this number. The latency counts from the interrupt at `origin`."""

    moment: int
    core: int
    thread: str
    number: int
    chain: str
    latency: int
    origin: int
    deadline: Optional[int] = None


@dataclass(frozen=True)
class Figures:
    """The figures of a thread. Shares are in millionths; None stands where there is no such number."""

    thread: str
    core: int
    priority: int
    budget: int
    period: int
    granted: int
    used: int
    rounds: int
    greatest: Optional[int] = None
    p50: Optional[int] = None
    p90: Optional[int] = None
    p99: Optional[int] = None
    deadline: Optional[int] = None
    margin: Optional[int] = None
    missed: int = 0
    late: int = 0
    lost: Optional[int] = None
    merged: Optional[int] = None
    ticks_pending: int = 0
    ticks_ready: int = 0
    ticks_running: int = 0
    ticks_throttled: int = 0
    ticks_blocked: int = 0
    ticks_server: int = 0
    ticks_done: int = 0


FINDINGS: Mapping[str, type[Union[Miss, Overdue, Untaken, Lost, Never, Slow, Unanswered]]] = {
    'miss': Miss, 'overdue': Overdue, 'untaken': Untaken, 'lost': Lost, 'never': Never, 'slow': Slow, 'unanswered': Unanswered,
}


def objects_of(lines: bytes) -> Iterator[tuple[str, dict[str, Any]]]:
    """The objects of the lines that mcscheck writes: the kind of each, and its other values. No object has a line feed in it."""
    found: list[dict[str, Any]] = json.loads(b'[%s]' % lines.rstrip(b'\n').replace(b'\n', b','))
    for values in found:
        yield values.pop('kind'), values


# the names of the values that each class has, once it was used
NAMES: dict[type[Any], frozenset[str]] = {}


def names_of(of: type[Any]) -> frozenset[str]:
    """The names of the values that a class has."""
    if of not in NAMES:
        NAMES[of] = frozenset(field.name for field in dataclasses.fields(of))
    return NAMES[of]


def made(of: type[Any], values: dict[str, Any]) -> Any:
    """An object of the values that its class has; a later library may write more."""
    names = names_of(of)
    return of(**values) if names.issuperset(values) else of(**{name: value for name, value in values.items() if name in names})


def finding_of(kind: str, values: dict[str, Any]) -> Finding:
    if kind == 'untaken':
        values['by'] = tuple(values['by'])
    if kind in FINDINGS:
        found: Finding = made(FINDINGS[kind], values)
        return found
    return Other(values['moment'], values['core'], kind, values)


def verdict_of(lines: bytes) -> Verdict:
    """The verdict that these lines tell."""
    findings: list[Finding] = []
    unjudged: list[Unjudged] = []
    hints: list[Hint] = []
    for kind, values in objects_of(lines):
        if kind == 'hint':
            hints.append(made(Hint, values))
        elif kind == 'unjudged':
            unjudged.append(made(Unjudged, values))
        elif kind == 'counts':
            return Verdict(tuple(findings), tuple(unjudged), tuple(hints), made(Counts, values))
        else:
            findings.append(finding_of(kind, values))
    raise EOFError('the verdict has no line of counts')


def jobs_of(lines: bytes) -> Iterator[Job]:
    for kind, values in objects_of(lines):
        if kind == 'job':
            yield made(Job, values)


def answers_of(lines: bytes) -> Iterator[Answer]:
    for kind, values in objects_of(lines):
        if kind == 'answer':
            yield made(Answer, values)


def table_of(lines: bytes) -> list[Figures]:
    return [made(Figures, values) for kind, values in objects_of(lines) if kind == 'thread']


def unused_of(lines: bytes) -> dict[str, Optional[int]]:
    return {values['context']: values.get('unused') for kind, values in objects_of(lines) if kind == 'context'}
