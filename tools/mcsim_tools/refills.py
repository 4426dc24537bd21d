"""What a context holds, followed from rows and file alone by the rules of docs/MODEL.md."""
from __future__ import annotations

import copy

from .system import Context, Order

# a refill: its date and its amount
Refill = list[int]


class Refills:
    """The refills of one context in order of their dates; of a round robin context, what is left of its slice."""

    __slots__ = ('list', 'budget', 'period', 'most', 'least', 'is_slice', 'is_bandwidth', 'orders')

    def __init__(self, context: Context, start: int, least: int, orders: list[Order]) -> None:
        self.budget, self.period, self.most, self.least = context.budget, context.period, 2 + context.extra_refills, least
        self.is_slice, self.is_bandwidth = context.is_round_robin, context.is_bandwidth
        self.list: list[Refill] = [[start, context.budget]]
        self.orders = iter(orders)

    def copy(self) -> Refills:
        other = copy.copy(self)
        other.list, other.orders = [list(refill) for refill in self.list], copy.copy(self.orders)
        return other

    def is_ready(self, moment: int) -> bool:
        return self.is_slice or self.list[0][0] <= moment

    def charge(self, ticks: int) -> None:
        """The first `ticks` dates leave, and come back a period later. A ValueError where the head has not so many: no schedule says so."""
        held = self.list
        if not ticks:
            return
        if self.is_slice:
            held[0][1] = held[0][1] - ticks or self.budget
            return
        date, amount = held[0]
        if amount < ticks:
            raise ValueError
        if amount == ticks:
            del held[0]
        else:
            held[0] = [date + ticks, amount - ticks]
        self.return_at(date + self.period, ticks)
        self.keep_least()

    def return_at(self, date: int, amount: int) -> None:
        """Dates that come back stand at the end; where the list is full its last refill first moves to touch them."""
        held = self.list
        if held and held[-1][0] + held[-1][1] != date and len(held) >= self.most:
            held[-1][0] = date - held[-1][1]
        if held and held[-1][0] + held[-1][1] == date:
            held[-1][1] += amount
        else:
            held.append([date, amount])

    def keep_least(self) -> None:
        """A head that is too small moves later and joins the next refill."""
        held = self.list
        while held[0][1] < self.least and len(held) > 1:
            few = held.pop(0)[1]
            held[0] = [held[0][0] - few, held[0][1] + few]

    def unblock(self, moment: int) -> None:
        """No date stays before the moment: refills that would overlap are joined."""
        held = self.list
        if self.is_slice or held[0][0] >= moment:
            return
        held[0][0] = moment
        while len(held) > 1 and moment + held[0][1] >= held[1][0]:
            held[0][1] += held.pop(1)[1]

    def order(self, moment: int) -> None:
        """The next order of the file: the head is cut, and what the new budget lacks stands at the end of the new period."""
        order = next(self.orders, None)
        if order is None:
            raise ValueError
        self.budget, self.period, self.most = order.budget, order.period, 2 + order.extra_refills
        if self.is_slice:
            self.list[0][1] = min(self.list[0][1], order.budget)
            return
        date, amount = max(self.list[0][0], moment), min(self.list[0][1], order.budget)
        lack = order.budget - amount
        self.list = [[date, amount]] + ([[date + order.period - lack, lack]] if lack else [])
