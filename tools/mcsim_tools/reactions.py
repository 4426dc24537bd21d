"""Bounds for chains: the longest time from an interrupt to the end of the first job that answers it, over the handlers that pass it on.

Each handler makes all of its signals before its job ends, and a delay between cores is always the same. So the latency is at most the sum of the bounds of
the jobs on a way, and of the delays between them. Each way gives a bound, and the least one counts."""
from __future__ import annotations

import heapq
from collections.abc import Iterator
from typing import NamedTuple

from .handlers import Bound, Handlers, Node
from .settings import Tables


class Way(NamedTuple):
    """The time from an interrupt to a word of a thread, at most."""

    time: int
    node: Node


class Reactions:
    """The ways of a system whose handlers were analysed."""

    def __init__(self, tables: Tables, handlers: Handlers) -> None:
        self.handlers = handlers
        self.delay: int = tables['delay']
        self.links: dict[tuple[int, int], int] = {(row['maker'], row['home']): row['delay'] for row in tables.get('link', [])}
        self.sources = {row['name']: row for row in tables.get('source', [])}

    def of(self, chain: Tables) -> Bound:
        """The bound of a chain, or why there is none."""
        name, badges, deadline = f'chain.{chain["name"]}', chain.get('badges', 0), chain.get('deadline', 0)
        job = self.handlers.jobs[chain['thread']]
        why = f'no handlers pass interrupts of {chain["source"]} on to {job.name}'
        for way in self.ways(chain['source']):
            thread, badge = way.node
            if thread in self.handlers.none:
                why = self.handlers.none[thread]
            elif thread == job.name and job.has_steps_for(badge & badges if badges else badge):
                return Bound(name, job, badges, way.time + self.handlers.most_of(way.node), deadline=deadline)
        return Bound(name, job, badges, None, why, deadline=deadline)

    def ways(self, source: str) -> Iterator[Way]:
        """The threads and badges to which interrupts of a source are passed on, the earliest first."""
        row, known = self.sources[source], set[Node]()
        first = self.handlers.by_note.get(row['note'])
        left = [Way(0, Node(first.name, row['badge']))] if first else []
        while left:
            way = heapq.heappop(left)
            if way.node in known:
                continue
            known.add(way.node)
            yield way
            if way.node.thread not in self.handlers.none:
                ends = way.time + self.handlers.most_of(way.node)
                for other in self.handlers.signals[way.node]:
                    heapq.heappush(left, Way(ends + self.between(way.node, other), other))

    def between(self, maker: Node, other: Node) -> int:
        """The delay of a signal."""
        cores = self.handlers.jobs[maker.thread].core, self.handlers.jobs[other.thread].core
        return 0 if cores[0] == cores[1] else self.links.get(cores, self.delay)
