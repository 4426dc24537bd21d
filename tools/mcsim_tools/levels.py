"""The responses of one thread, under those of its core that can delay it.

The analysis looks at a busy period of the thread's priority: a stretch from a moment at which nothing of this priority or a higher one is left to do.
In it there is at most one section of a thread of lower priority, in a server whose priority is at least this one (Sha, Rajkumar and Lehoczky 1990; Baker
1991), all work of threads of this or a higher priority that arrives (Audsley et al. 1993), and the thread's own earlier jobs."""
from __future__ import annotations

import bisect
import fractions
from collections.abc import Iterator, Mapping
from dataclasses import dataclass, field
from typing import NamedTuple, Optional

from .analysis import Effort
from .arrivals import Stream
from .jobs import ENTER, WAIT, Job, NoBound, Servers

INSIDE = {WAIT: 'waits', 'yield': 'yields', 'spin': 'computes without end'}


@dataclass
class Board:
    """What is known of a system while its analysis is under way."""

    servers: Servers
    of_core: Mapping[int, list[Job]]
    # the cores with an order
    ordered: frozenset[int]
    # why threads have no bound
    none: dict[str, str]
    # what arrives for each thread that waits for words
    streams: dict[str, list[Stream]] = field(default_factory=dict)
    # the threads that only their budgets bound
    capped: set[str] = field(default_factory=set)
    effort: Effort = field(default_factory=Effort)

    def priority_at(self, job: Job, server: Optional[str]) -> int:
        return job.priority if server is None else self.servers.priorities[server]


class Responses(NamedTuple):
    """What is found of a thread: the bound of each of its streams, the time from an arrival to the end of the wait that follows its job, the length of a busy
    period, from when on nothing of the start is left, and how long a thread of lower priority delays it."""

    bounds: list[int]
    settled: int
    busy: int
    from_start: int
    blocking: int


class Level:
    """The threads of a core that can delay one of them."""

    def __init__(self, board: Board, own: Job) -> None:
        self.board, self.own, self.call = board, own, board.servers.call
        self.all = board.of_core[own.core]
        at_least = [job for job in self.all if job is not own and job.priority >= own.priority]
        self.below = [job for job in self.all if job.priority < own.priority]
        self.capped = [job for job in at_least if job.name in board.capped]
        self.above = [job for job in at_least if job.name not in board.capped]
        board.effort.take(sum(len(part.steps) + 1 for job in self.all for part in job.parts))
        self.check()
        self.sections = {job.name: self.section(job) for job in self.below}
        self.blocking = max(self.sections.values(), default=0)
        self.mine = board.streams[own.name]
        self.mine_with_costs = [(stream, own.cost(stream.badge)) for stream in self.mine]
        self.arriving = [(stream, job.cost(stream.badge)) for job in self.above for stream in board.streams.get(job.name, [])]
        self.at_start = sum(job.at_start for job in [own, *self.above])
        self.from_start = max(job.start for job in [own, *self.above]) + self.at_start + self.blocking
        if not self.capped and self.earliest() >= self.from_start:
            self.at_start = 0
        # amounts of work, ascending, and when they are done
        self.works: list[int] = []
        self.ended: list[int] = []

    # ---- what the analysis covers

    def check(self) -> None:
        """Raises what it does not cover."""
        if self.own.core in self.board.ordered:
            raise NoBound('an order changes a context of its core')
        for job in [self.own, *self.above]:
            if job.flaw:
                raise NoBound(job.flaw)
            if job.name in self.board.none:
                raise NoBound(self.board.none[job.name])
            first = min((stream.arrivals.earliest for stream in self.board.streams.get(job.name, [])), default=job.start)
            if first < job.start:
                raise NoBound(f'{job.name} starts at {job.start}, and its first word may come at {first}')
        if self.own.rounds:
            raise NoBound(f'{self.own.name} ends after {self.own.rounds} jobs')
        for job in self.all:
            self.check_calls(job, job.priority >= self.own.priority and job.name not in self.board.capped)

    def check_calls(self, job: Job, is_above: bool) -> None:
        """Each server that matters is a priority ceiling, and no thread of lower priority stops inside."""
        for step in job.steps:
            if step.kind == ENTER:
                at, ceiling = self.board.priority_at(job, step.server), self.board.servers.priorities[step.name]
                if ceiling < at and (is_above or ceiling >= self.own.priority):
                    raise NoBound(f'{job.name} calls {step.name} at priority {at}, which is above that of {step.name}')
            elif step.server and step.kind in INSIDE and self.board.servers.priorities[step.server] >= self.own.priority:
                raise NoBound(f'{job.name} {INSIDE[step.kind]} inside {step.server}')

    def may_wait_for_server(self, job: Job) -> bool:
        """Whether a thread may find a server taken: by one of the priority that it has before it enters."""
        return any(self.board.servers.priorities[step.name] == self.board.priority_at(job, step.server) for step in job.steps if step.kind == ENTER)

    def section(self, job: Job) -> int:
        """The longest time for which a thread of lower priority runs at the thread's priority or above, in servers."""
        longest = length = 0
        for step in job.steps:
            is_inside = step.server is not None and self.board.servers.priorities[step.server] >= self.own.priority
            length = length + step.cost if is_inside else 0
            longest = max(longest, length)
        return longest

    def needed(self) -> Iterator[Job]:
        """The threads that must never be throttled."""
        yield self.own
        yield from self.above
        yield from (job for job in self.below if self.sections[job.name])

    def earliest(self) -> int:
        """When the first word may come."""
        found = [stream.arrivals.earliest for stream in self.mine] + [stream.arrivals.earliest for stream, _ in self.arriving]
        return min(found, default=0)

    # ---- demand

    def utilisation(self) -> fractions.Fraction:
        asked = [stream.arrivals.rate * cost for stream, cost in [*self.mine_with_costs, *self.arriving]]
        granted = [fractions.Fraction(job.budget, job.period) for job in self.capped]
        return sum([*asked, *granted], fractions.Fraction())

    def above_in(self, window: int) -> int:
        """The ticks that threads of this or a higher priority take at most in a window."""
        self.board.effort.take(len(self.arriving) + len(self.capped) + 1)
        arrived = sum(stream.arrivals.most(window) * cost for stream, cost in self.arriving)
        return arrived + sum(job.granted_in(window) for job in self.capped)

    def own_in(self, window: int) -> int:
        """The ticks of the thread's own jobs, and their waits, for what arrives in a window."""
        self.board.effort.take(len(self.mine))
        return sum(stream.arrivals.most(window) * cost for stream, cost in self.mine_with_costs)

    def ends(self, work: int) -> int:
        """When so much work of the thread is done at the latest, from the beginning of a busy period on."""
        place = bisect.bisect_right(self.works, work) - 1
        fixed = self.at_start + self.blocking + work
        # more work ends later by that at least
        end = self.ended[place] + work - self.works[place] if place >= 0 else fixed
        while (longer := fixed + self.above_in(end)) > end:
            end = longer
        if place < 0 or self.works[place] < work:
            self.works.insert(place + 1, work)
            self.ended.insert(place + 1, end)
        return end

    def busy(self) -> int:
        """The length of a busy period at most."""
        end = self.at_start + self.blocking + 1
        while (longer := self.at_start + self.blocking + self.own_in(end) + self.above_in(end)) > end:
            end = longer
        return end

    # ---- responses

    def offsets(self, busy: int) -> list[int]:
        """When another word of the thread may come at the earliest, from the beginning of a busy period to its end."""
        found = set()
        for stream in self.mine:
            number = 1
            while (offset := stream.arrivals.apart(number)) < busy and number <= (stream.arrivals.count or number):
                self.board.effort.take(1)
                found.add(offset)
                number += 1
        return sorted(found)

    def before(self, own: Stream, offset: int) -> int:
        """The thread's work, with its waits, in jobs for words that come up to an arrival of `own`, from the beginning of a busy period on.

        A job begins when the one before it and its wait are done, so there is room for some jobs only, however many words come."""
        work = 0
        for stream, cost in self.mine_with_costs:
            arrived = stream.arrivals.most(offset + 1) - (stream is own)
            work += min(arrived, offset // cost + 1) * cost
        return work

    def work_until(self, stream: Stream, offset: int) -> int:
        """The thread's own work from the beginning of a busy period to the end of the job for an arrival, which comes `offset` ticks after it.

        Earlier jobs are for words up to this one. Then there is one job with all that has come meanwhile: each handler is gone through once."""
        earlier = self.before(stream, offset)
        taken = self.ends(earlier)
        one_job = earlier + self.own.together(other.badge for other in self.mine)
        return min(one_job, self.own_in(max(taken, offset + 1)) - self.call)

    def responses(self) -> Responses:
        """Returns what is found, or raises `NoBound`."""
        if self.utilisation() >= 1:
            raise NoBound(f'threads of core {self.own.core} from priority {self.own.priority} up ask for all of it or more')
        busy = self.busy()
        offsets = self.offsets(busy)
        bounds, settled = [], 0
        for stream in self.mine:
            works = [(offset, self.work_until(stream, offset)) for offset in offsets]
            bounds.append(max(self.ends(work) - offset for offset, work in works))
            settled = max([settled, *(self.ends(work + self.call) - offset for offset, work in works)])
        return Responses(bounds, settled, busy, self.from_start, self.blocking)
