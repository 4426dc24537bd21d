"""The threads of a system as the analysis of handlers sees them: what a job does for each badge, in which servers, and what the analysis cannot cover.

The items of a server count as steps of the thread that calls it, as in the simulator: they run on its budget, at the server's priority."""
from __future__ import annotations

import collections
from collections.abc import Iterable, Iterator, Sequence
from dataclasses import dataclass
from typing import NamedTuple, Optional

from .settings import Tables
from .system import Item, items_for

VERSION_3 = 3
ENTER, LEAVE, WAIT, SIGNAL = 'enter', 'leave', 'wait', 'signal'


class NoBound(Exception):
    """The analysis does not hold, with the reason."""


class Step(NamedTuple):
    """A step, the ticks that it takes, and the innermost server in which it is done; None: in the thread's own script."""

    kind: str
    cost: int
    server: Optional[str]
    name: str = ''
    badge: int = 0


class Part(NamedTuple):
    """The steps of a handler, or, without badges, those of every job."""

    badges: Optional[int]
    steps: Sequence[Step]
    cost: int

    def is_for(self, badge: int) -> bool:
        return self.badges is None or self.badges & badge != 0


class Servers:
    """The servers of a system, and the steps of a call of each."""

    def __init__(self, tables: Tables) -> None:
        self.call: int = tables.get('call', 1)
        self.priorities: dict[str, int] = {}
        self.scripts: dict[str, list[Item]] = {}
        self.known: dict[tuple[str, int], list[Step]] = {}
        for row in tables.get('server', []):
            items = [item.split() for item in row['script']]
            # what it calls is unfolded now, so that no look-up goes deep
            list(self.steps(items, row['name']))
            self.priorities[row['name']], self.scripts[row['name']] = row['priority'], items

    def steps(self, items: Iterable[Item], server: Optional[str]) -> Iterator[Step]:
        """What becomes of items that are done within a server, or within none."""
        for word, *parts in items:
            if word == 'call':
                yield Step(ENTER, self.call, server, parts[0])
                yield from self.of_call(parts[0], int(parts[1]))
                yield Step(LEAVE, self.call, parts[0], parts[0])
            elif word == 'compute':
                yield Step(word, int(parts[0]), server)
            elif word == SIGNAL:
                yield Step(word, self.call, server, parts[0], int(parts[1]))
            elif word != 'on':
                yield Step(word, 0 if word == 'spin' else self.call, server, parts[0] if parts else '')

    def of_call(self, server: str, badge: int) -> list[Step]:
        key = server, badge
        if key not in self.known:
            self.known[key] = list(self.steps(items_for(self.scripts[server], badge), server))
        return self.known[key]


@dataclass(eq=False)
class Job:
    """A thread, with the parts of its job. `note` is that of the first wait; a thread without one has none."""

    name: str
    core: int
    priority: int
    # of its context
    budget: int
    period: int
    extra_refills: int
    is_bandwidth: bool
    start: int
    rounds: int
    deadline: int
    call: int
    note: Optional[str]
    parts: list[Part]
    # what it does that the analysis does not cover
    flaw: str = ''

    @property
    def is_slice(self) -> bool:
        """Whether the context is round robin, which is never throttled."""
        return self.budget == self.period

    def granted_in(self, window: int) -> int:
        """The ticks that its budget lets it run in a window, in mode bandwidth."""
        return -(-window // self.period) * self.budget

    @property
    def is_endless(self) -> bool:
        """Whether no wait and no last job ends its work."""
        return self.note is None and not self.rounds

    @property
    def steps(self) -> Iterator[Step]:
        for part in self.parts:
            yield from part.steps

    @property
    def calls(self) -> bool:
        return any(step.kind == ENTER for step in self.steps)

    def has_steps_for(self, word: int) -> bool:
        """Whether a word leaves something to do."""
        return any(part.steps for part in self.parts if part.is_for(word))

    def work(self, badge: int) -> int:
        """The ticks of a job whose word has just this badge."""
        return sum(part.cost for part in self.parts if part.is_for(badge))

    def cost(self, badge: int) -> int:
        """The same and the wait that follows."""
        return self.work(badge) + self.call

    def together(self, badges: Iterable[int]) -> int:
        """The ticks of a job whose word has all of these badges: each handler is gone through once."""
        word = 0
        for badge in badges:
            word |= badge
        return self.work(word)

    @property
    def at_start(self) -> int:
        """The ticks that it takes before a word comes: its first wait, or all of its jobs."""
        if self.note is None:
            return self.rounds * sum(part.cost for part in self.parts)
        return self.call


def parts_of(items: Sequence[Item], servers: Servers) -> list[Part]:
    """The items before the first handler, and each handler."""
    groups: list[tuple[Optional[int], list[Item]]] = [(None, [])]
    for item in items:
        if item[0] == 'on':
            groups.append((int(item[1]), []))
        else:
            groups[-1][1].append(item)
    unfolded = ((badges, list(servers.steps(own, None))) for badges, own in groups)
    return [Part(badges, steps, sum(step.cost for step in steps)) for badges, steps in unfolded]


def flaw_of(job: Job) -> str:
    """What a thread does that the analysis does not cover, or nothing."""
    for step in job.steps:
        if step.kind == WAIT:
            return f'{job.name} waits for {step.name} within its job'
        if step.kind == 'yield':
            return f'{job.name} yields'
        if step.kind == 'spin':
            return f'{job.name} computes without end'
    return f'{job.name} runs without a wait' if job.is_endless else ''


def jobs_of(tables: Tables, servers: Servers) -> dict[str, Job]:
    """The threads of a system by name."""
    contexts = {row['name']: row for row in tables.get('context', [])}
    words = {row['name']: row.get('word', 0) for row in tables.get('note', [])}
    default = 'bandwidth' if tables.get('version') == VERSION_3 else 'sporadic'
    found: dict[str, Job] = {}
    for row in tables.get('thread', []):
        items = [item.split() for item in row['script']]
        note, context = items[0][1] if items[0][0] == WAIT else None, contexts[row['context']]
        job = Job(
            row['name'], context['core'], row['priority'], context['budget'], context['period'], context.get('extra_refills', 0),
            context.get('mode', default) == 'bandwidth', row.get('start', 0), row.get('rounds', 0), row.get('deadline', 0), servers.call, note,
            parts_of(items[1:] if note else items, servers),
        )
        job.flaw = flaw_of(job) or (f'{note} has a word at first' if words.get(note) else '')
        found[job.name] = job
    note_others(found.values())
    return found


def note_others(jobs: Iterable[Job]) -> None:
    """Threads that share a notification: which of them a word wakes, the analysis does not know."""
    users: dict[str, list[str]] = collections.defaultdict(list)
    for job in jobs:
        for note in dict.fromkeys([*([job.note] if job.note else []), *(step.name for step in job.steps if step.kind == WAIT)]):
            users[note].append(job.name)
    for job in jobs:
        others = [name for name in users[job.note] if name != job.name] if job.note else []
        if others:
            job.flaw = job.flaw or f'{others[0]} waits for {job.note} too'
