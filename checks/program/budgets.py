"""The dates with which threads enter the release queue, by the rows of a schedule.

A row `stop` has this date in its text, and rows `wake` and `enter` have not. So the budget of each context is followed by the rules of model.py: rows say
what is charged and when, when a thread is woken or chosen, and when an order comes."""
from __future__ import annotations

import collections
from collections.abc import Iterable
from typing import Optional

from checks.program import model
from checks.random_systems import Tables

# a row: its time, its words, and whether a thread that waited for a server enters it
Line = tuple[int, list[str], bool]


class Budgets:
    """The budgets of all contexts, after some rows."""

    def __init__(self, tables: Tables) -> None:
        system = model.System(tables)
        self.least = system.least
        self.name_of = {thread['name']: thread['context'] for thread in system.threads}
        starts = {thread['context']: thread.get('start', 0) for thread in system.threads}
        self.contexts = {part['name']: model.Context(part, starts.get(part['name'], 0)) for part in system.contexts}
        self.in_bandwidth = {part['name'] for number, part in enumerate(system.contexts) if system.is_bandwidth(number)}
        self.orders: dict[tuple[int, str], collections.deque[dict[str, int]]] = collections.defaultdict(collections.deque)
        for order in system.orders:
            self.orders[order['at'], order['context']].append(order)
        # the order whose row came, and which waits for the stop of a thread that ran
        self.ordered: Optional[tuple[int, str]] = None

    def of(self, thread: str) -> model.Context:
        return self.contexts[self.name_of[thread]]

    def obey(self) -> None:
        """The order that waits has its effect: what was in use has been charged."""
        if self.ordered:
            moment, name = self.ordered
            self.contexts[name].order(moment, self.orders[self.ordered].popleft())
        self.ordered = None

    def stop(self, moment: int, thread: str, why: str, charged: str) -> Optional[int]:
        if why != 'order':
            self.obey()
        self.of(thread).charge(int(charged), self.least)
        self.obey()
        return None if why in ('wait', 'call', 'done') else self.of(thread).date(moment)

    def resume(self, moment: int, thread: str) -> Optional[int]:
        """What the thread waited for has come."""
        if self.name_of[thread] not in self.in_bandwidth:
            self.of(thread).unblock(moment)
        return self.of(thread).date(moment)

    def see(self, moment: int, what: list[str], is_let_in: bool) -> Optional[int]:
        """Takes one more row. Returns the date with which its thread enters the release queue, if it does."""
        if what[0] == 'stop':
            return self.stop(moment, *what[1:4])
        self.obey()
        if what[0] == 'wake' or is_let_in:
            return self.resume(moment, what[1])
        if what[0] == 'order':
            self.ordered = moment, what[1]
        elif what[0] == 'run' and self.name_of[what[1]] in self.in_bandwidth:
            self.of(what[1]).unblock(moment)
        return None


def dates_of(tables: Tables, lines: Iterable[Line]) -> list[Optional[int]]:
    """For each row the date with which its thread enters the release queue, if it does."""
    budgets = Budgets(tables)
    return [budgets.see(*line) for line in lines]
