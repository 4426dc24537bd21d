"""Bounds for the handlers of interrupts: the longest time from an interrupt of a source to the end of the job that handles it. They hold for all phases in
which no source begins before its start in the file, and for the times of the file.

Signals carry the jitter of the jobs that make them to the threads that they wake (Tindell and Clark 1994). So the responses of all threads are computed again
until none changes."""
from __future__ import annotations

import graphlib
from collections.abc import Iterator
from typing import NamedTuple, Optional

from . import exhaustion
from .analysis import Effort
from .arrivals import Arrivals, Stream
from .jobs import SIGNAL, Job, NoBound, Servers, jobs_of
from .levels import Board, Level, Responses
from .settings import Tables

# how often responses may change, and how many of the longest periods they may grow to, before their growth counts as endless
MOST_PASSES = 50
MOST_PERIODS = 10


class Bound(NamedTuple):
    """What the analysis says of a source or a chain: a bound, or why there is none; the thread, by how much threads of lower priority delay it at most, and
    the deadline, which is 0 if there is none."""

    source: str
    job: Optional[Job]
    badge: int
    most: Optional[int]
    why: str = ''
    blocking: Optional[int] = None
    deadline: int = 0


class Node(NamedTuple):
    """A thread and a badge of the words that activate it."""

    thread: str
    badge: int


def arrivals_of(source: Tables) -> Arrivals:
    return Arrivals(source['period'], source.get('at', [0]), source.get('start', 0), source.get('count', 0))


class Handlers:
    """The analysis of a system."""

    def __init__(self, tables: Tables, effort: Optional[Effort] = None) -> None:
        servers = Servers(tables)
        self.jobs = jobs_of(tables, servers)
        self.min_budget: int = tables.get('min_budget', 1)
        self.sources: list[Tables] = tables.get('source', [])
        self.by_note = {job.note: job for job in self.jobs.values() if job.note}
        core_of = {row['name']: row['core'] for row in tables.get('context', [])}
        of_core: dict[int, list[Job]] = {}
        for job in self.jobs.values():
            of_core.setdefault(job.core, []).append(job)
        ordered = frozenset(core_of[row['context']] for row in tables.get('order', []))
        self.longest = MOST_PERIODS * max((row['period'] for row in self.sources), default=1)
        self.none: dict[str, str] = {}
        self.board = Board(servers, of_core, ordered, self.none, effort=effort or Effort())
        self.board.capped = {job.name for job in self.jobs.values() if job.flaw and can_be_capped(job)}
        self.loops = [job.name for job in self.by_note.values()]
        self.dates = {row['name']: arrivals_of(row) for row in self.sources}
        self.note_signallers()
        self.signals = self.signals_of()
        self.order = self.ordered()
        self.found: dict[str, Responses] = {}
        self.levels: dict[str, Level] = {}

    # ---- what arrives

    def signals_of(self) -> dict[Node, list[Node]]:
        """For each thread and badge that something activates, by an interrupt or by signals of those that are, the threads and badges that its job signals."""
        found: dict[Node, list[Node]] = {}
        left = [Node(self.by_note[row['note']].name, row['badge']) for row in self.sources if row['note'] in self.by_note]
        while left:
            node = left.pop()
            if node not in found:
                found[node] = list(self.signalled_by(node))
                left += found[node]
        return found

    def signalled_by(self, node: Node) -> Iterator[Node]:
        job = self.jobs[node.thread]
        for part in job.parts:
            for step in part.steps if part.is_for(node.badge) else ():
                if step.kind == SIGNAL and step.name in self.by_note:
                    yield Node(self.by_note[step.name].name, step.badge)

    def note_signallers(self) -> None:
        """Threads that are signalled by one whose jobs nothing counts have no bound."""
        for job in self.jobs.values():
            if job.note is None or job.flaw:
                for step in job.steps:
                    if step.kind == SIGNAL and step.name in self.by_note:
                        name = self.by_note[step.name].name
                        self.deny(name, f'{job.name} signals {name}: {job.flaw or "it does not begin with a wait"}')

    def ordered(self) -> list[Node]:
        """The threads and badges, each after those that signal it. Circles have no bound."""
        makers: dict[Node, set[Node]] = {node: set() for node in self.signals}
        for node, signalled in self.signals.items():
            for other in signalled:
                makers[other].add(node)
        while True:
            try:
                return list(graphlib.TopologicalSorter(makers).static_order())
            except graphlib.CycleError as error:
                circle = list(reversed(error.args[1]))
                for node in circle:
                    self.deny(node.thread, f'signals go in a circle: {" to ".join(other.thread for other in circle)}')
                    makers[node] = set()

    def spread(self) -> None:
        """Finds what arrives for each thread, with the responses that are known by now."""
        streams: dict[Node, list[Stream]] = {node: [] for node in self.order}
        for row in self.sources:
            if row['note'] in self.by_note:
                streams[Node(self.by_note[row['note']].name, row['badge'])].append(Stream(row['badge'], self.dates[row['name']], row['name']))
        for node in self.order:
            late = self.lateness(node)
            for other in self.signals[node]:
                streams[other] += [Stream(other.badge, stream.arrivals.later(late)) for stream in streams[node]]
                if node.thread in self.none:
                    self.deny(other.thread, f'{node.thread} signals {other.thread}: {self.none[node.thread]}')
        self.board.streams = {name: [] for name in self.loops}
        for node, own in streams.items():
            self.board.streams[node.thread] += own

    def lateness(self, node: Node) -> int:
        """By how much the time from an arrival to a signal differs at most. The work of the job for the badge is a part of each response."""
        if node.thread not in self.found:
            return 0
        bounds = zip(self.board.streams[node.thread], self.found[node.thread].bounds)
        return max((most - self.jobs[node.thread].work(node.badge) for stream, most in bounds if stream.badge == node.badge), default=0)

    # ---- passes over all threads

    def run(self) -> list[Bound]:
        """Returns what is said of each source, in the order of the file."""
        while changed := self.settle():
            for name in changed:
                self.deny(name, 'the jitter of signals grows without end')
        return [self.bound_of(source) for source in self.sources]

    def settle(self) -> list[str]:
        """Passes until nothing changes. Returns the threads of which the responses changed to the last."""
        changed: list[str] = []
        for _ in range(MOST_PASSES):
            before, known = self.found, (len(self.none), len(self.board.capped))
            self.spread()
            self.find()
            self.judge()
            changed = [name for name in self.found if self.found[name] != before.get(name)]
            if before and (grown := [name for name in changed if max(self.found[name].bounds, default=0) > self.longest]):
                return grown
            if not changed and known == (len(self.none), len(self.board.capped)):
                return []
        return changed

    def find(self) -> None:
        """Finds the responses of all threads."""
        self.found, self.levels = {}, {}
        for name in self.loops:
            if name in self.none:
                continue
            try:
                level = Level(self.board, self.jobs[name])
                self.found[name] = level.responses()
                self.levels[name] = level
            except NoBound as error:
                self.deny(name, str(error))

    def judge(self) -> None:
        """Takes back what rests on a budget that may be exhausted."""
        exhausted = {
            name: exhaustion.why_it_may_be(job, self.min_budget, self.levels.get(name), self.found.get(name)) for name, job in self.jobs.items()
        }
        for name, level in self.levels.items():
            for job in level.needed():
                if not exhausted[job.name]:
                    continue
                if job in level.above and can_be_capped(job):
                    self.board.capped.add(job.name)
                else:
                    self.deny(name, self.none.get(job.name, exhausted[job.name]))

    def deny(self, name: str, why: str) -> None:
        """There is no bound for a thread. If its budget bounds what it takes from others, it counts with that for them."""
        self.none.setdefault(name, why)
        if can_be_capped(self.jobs[name]):
            self.board.capped.add(name)

    # ---- what is said

    def bound_of(self, source: Tables) -> Bound:
        name, badge = source['name'], source['badge']
        job = self.by_note.get(source['note'])
        if job is None:
            return Bound(name, None, badge, None, f'no script begins with a wait for {source["note"]}')
        if not job.has_steps_for(badge):
            return Bound(name, job, badge, None, f'{job.name} has nothing to do for badge {badge}', deadline=job.deadline)
        if job.name in self.none:
            return Bound(name, job, badge, None, self.none[job.name], deadline=job.deadline)
        streams, found = self.board.streams[job.name], self.found[job.name]
        place = next(place for place, stream in enumerate(streams) if stream.source == name)
        return Bound(name, job, badge, found.bounds[place], '', found.blocking, job.deadline)

    def most_of(self, node: Node) -> int:
        """The bound for a word with this badge, of a thread that has bounds."""
        bounds = zip(self.board.streams[node.thread], self.found[node.thread].bounds)
        return max(most for stream, most in bounds if stream.badge == node.badge)


def can_be_capped(job: Job) -> bool:
    """Whether the budget alone bounds how much a thread runs: in mode bandwidth it is at most the budget in any period. It must not stop in a server."""
    return job.is_bandwidth and not job.is_slice and not job.calls
