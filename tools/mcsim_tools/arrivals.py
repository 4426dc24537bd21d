"""Arrivals of interrupts and of signals: how many there may be at most in a window of time, whatever the phases."""
from __future__ import annotations

import bisect
import fractions
from collections.abc import Sequence
from typing import NamedTuple


def closest(period: int, dates: Sequence[int]) -> list[int]:
    """For each number from 1 to that of the dates of a period, the least time from the first to the last of so many of them."""
    twice = [*dates, *(date + period for date in dates)]
    many = len(dates)
    return [min(twice[first + further] - twice[first] for first in range(many)) for further in range(many)]


class Arrivals:
    """What arrives at certain dates of each period, and at most `jitter` later than that. A count of 0 has no end."""

    def __init__(self, period: int, dates: Sequence[int] = (0,), start: int = 0, count: int = 0) -> None:
        self.period, self.count, self.jitter = period, count, 0
        self.earliest = start + dates[0]
        self.closest = closest(period, dates)

    def later(self, jitter: int) -> Arrivals:
        """What these cause, each within a time that differs by at most `jitter`."""
        other = Arrivals.__new__(Arrivals)
        other.period, other.count, other.earliest, other.closest = self.period, self.count, self.earliest, self.closest
        other.jitter = self.jitter + jitter
        return other

    @property
    def rate(self) -> fractions.Fraction:
        """How many there are in a tick, in the long run."""
        return fractions.Fraction(0 if self.count else len(self.closest), self.period)

    def most(self, window: int) -> int:
        """The maximum number in a window of so many ticks."""
        if window <= 0:
            return 0
        periods, rest = divmod(window + self.jitter, self.period)
        found = periods * len(self.closest) + bisect.bisect_left(self.closest, rest)
        return min(found, self.count) if self.count else found

    def apart(self, number: int) -> int:
        """The least time from the first to the last of so many, which are at least one."""
        periods, further = divmod(number - 1, len(self.closest))
        return max(0, periods * self.period + self.closest[further] - self.jitter)


class Stream(NamedTuple):
    """What arrives at a thread's notification with a badge. Signals have no source."""

    badge: int
    arrivals: Arrivals
    source: str = ''
