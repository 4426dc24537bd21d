"""The bound of response-time analysis for a thread of a system, if the system is one of periodic
tasks as `tools/tasks` makes them: each is a context that is a clock, or waits for a timer."""
from __future__ import annotations

from collections.abc import Mapping, Sequence
from typing import Any

from . import analysis
from .analysis import Demand, Effort, TooLong
from .settings import Tables

Row = Mapping[str, Any]
VERSION_3 = 3


class NoBound(Exception):
    """The analysis does not hold for the system, with the reason."""


class Tasks:
    """The threads that decide a response: those of the same core with at least its priority."""

    def __init__(self, tables: Tables, thread: str) -> None:
        self.tables = tables
        self.call = tables.get('call', 1)
        self.contexts = {row['name']: row for row in tables['context']}
        rows = {row['name']: row for row in tables['thread']}
        self.own = rows[thread]
        core = self.core_of(self.own)
        self.of_core = [row for row in rows.values() if self.core_of(row) == core]
        self.above = [row for row in self.of_core if row is not self.own and row['priority'] >= self.own['priority']]
        self.all = [self.own, *self.above]

    def core_of(self, row: Row) -> int:
        core: int = self.contexts[row['context']]['core']
        return core

    def has_clock(self, row: Row) -> bool:
        """Whether a thread waits for something first."""
        word: str = row['script'][0].split()[0]
        return word == 'wait'

    def check(self) -> None:
        """Raises what the analysis does not cover."""
        if self.tables.get('min_budget', 1) != 1:
            raise NoBound('min_budget is not 1')
        own = {row['context'] for row in self.of_core}
        if any(order['context'] in own for order in self.tables.get('order', [])):
            raise NoBound('an order changes a context of its core')
        for row in self.of_core:
            if any(item.split()[0] == 'call' for item in row['script']):
                raise NoBound(f'{row["name"]} calls a server')
        if len({self.has_clock(row) for row in self.all}) > 1:
            raise NoBound('some threads wait for a source, and others have their context as a clock')

    def work_of(self, row: Row, items: Sequence[str]) -> int:
        words = [item.split() for item in items]
        if not words or any(word[0] != 'compute' for word in words):
            raise NoBound(f'{row["name"]} does more than to compute')
        return sum(int(word[1]) for word in words)

    def is_sporadic(self, context: Row) -> bool:
        default = 'bandwidth' if self.tables.get('version') == VERSION_3 else 'sporadic'
        return bool(context.get('mode', default) == 'sporadic')

    def has_budget(self, row: Row, cost: int, period: int) -> bool:
        """Whether a context always has the budget of a job when that comes."""
        context = self.contexts[row['context']]
        if context['budget'] == context['period']:
            return True
        return self.is_sporadic(context) and bool(context['budget'] >= cost and context['period'] <= period)

    def demand_of(self, row: Row) -> Demand:
        return self.clocked(row) if self.has_clock(row) else self.unclocked(row)

    def unclocked(self, row: Row) -> Demand:
        """A thread whose context lets it run once in each period."""
        context, work = self.contexts[row['context']], self.work_of(row, row['script'])
        if work != context['budget'] or not self.is_sporadic(context):
            raise NoBound(f'the budget of {row["name"]} is not what it computes, in mode sporadic')
        return Demand(work, work, context['period'])

    def clocked(self, row: Row) -> Demand:
        """A thread that waits for one timer."""
        name, note = row['name'], row['script'][0].split()[1]
        work = self.work_of(row, row['script'][1:])
        sources = [source for source in self.tables.get('source', []) if source['note'] == note]
        scripts = [other['script'] for section in ('thread', 'server') for other in self.tables.get(section, []) if other is not row]
        users = [item for script in scripts for item in script if item.split()[1:2] == [note]]
        if len(sources) != 1 or len(sources[0].get('at', [0])) != 1 or users:
            raise NoBound(f'{name} does not wait for one source with one date in its period')
        period = sources[0]['period']
        if not self.has_budget(row, work + self.call, period):
            raise NoBound(f'the budget of {name} may be exhausted')
        if sources[0].get('start', 0) < self.settled():
            raise NoBound(f'{sources[0]["name"]} may interrupt before {self.settled()}, when all threads wait with full budgets')
        return Demand(work, work + self.call, period)

    def settled(self) -> int:
        """When all of the threads wait for their clocks, and what that cost is replenished."""
        longest = max(self.contexts[row['context']]['period'] for row in self.all)
        return int(max(row.get('start', 0) for row in self.all) + len(self.all) * self.call + longest)

    def bound(self) -> int:
        self.check()
        effort, found = Effort(), None
        for row in reversed(self.all):
            # of each thread, since an interrupt that finds the word of the one before is lost
            demand = self.demand_of(row)
            above = [self.demand_of(other) for other in self.all if other is not row and other['priority'] >= row['priority']]
            found = analysis.bound(demand, above, effort)
            if found is None:
                raise NoBound('the utilisation is above 1')
            if found + self.call >= 2 * demand.period if self.has_clock(row) else row is self.own and found > demand.period:
                raise NoBound(f'a job of {row["name"]} may still run when later ones come')
        # the last one was the thread itself
        assert found is not None
        return found


def bound(tables: Tables, thread: str) -> int:
    """Returns the maximum response of a thread, whatever the phases, or raises `NoBound`."""
    try:
        return Tasks(tables, thread).bound()
    except TooLong:
        raise NoBound(f'the analysis adds up more than {analysis.MOST_TERMS:,} terms') from None
