"""Response-time analysis of periodic tasks with fixed priorities on one core.

Joseph and Pandya, and Audsley: R = C + sum over greater priorities of ceil(R / T) C. If a job ends after the next release, Lehoczky: the analysis takes
each job of the busy period that begins when all tasks are released together. A task's *work* is what its response has in it. Its *cost* is what a job
takes from tasks of lower priority: the same, and the call that comes after the response."""
from __future__ import annotations

import fractions
import math
from collections.abc import Sequence
from typing import NamedTuple, Optional

# products that an analysis may add up, which takes a few seconds
MOST_TERMS = 10**7
# a sum of floats this far from 1 is on the same side of it as the exact one; an exact term costs so many others
NEAR = 1e-9
EXACT = 64


class TooLong(Exception):
    """An analysis that would take more than `MOST_TERMS` terms."""


class Effort:
    """How many terms an analysis may still add up."""

    def __init__(self, left: int = MOST_TERMS) -> None:
        self.left = left

    def take(self, terms: int) -> None:
        self.left -= terms
        if self.left < 0:
            raise TooLong


class Demand(NamedTuple):
    """What a task asks of its core, in ticks."""

    work: int
    cost: int
    period: int


def is_too_much(demands: Sequence[Demand], effort: Effort) -> bool:
    """Whether the utilisation of tasks is above 1."""
    effort.take(len(demands))
    near = math.fsum(one.cost / one.period for one in demands)
    if abs(near - 1) > NEAR:
        return near > 1
    effort.take(EXACT * len(demands))
    return sum((fractions.Fraction(one.cost, one.period) for one in demands), fractions.Fraction()) > 1


def jobs_until(moment: int, period: int) -> int:
    """How many jobs were released before a moment, the first one at 0."""
    return -(-moment // period)


def settled(end: int, own: int, others: Sequence[Demand], effort: Effort) -> int:
    """The first moment, from one on, at which own work and all released jobs of others are done. It must exist."""
    while True:
        effort.take(len(others) + 1)
        longer = own + sum(jobs_until(end, one.period) * one.cost for one in others)
        if longer <= end:
            return end
        end = longer


def ends_at(own: int, others: Sequence[Demand], effort: Optional[Effort] = None) -> int:
    """When work that is released at 0 is done, under others that are all released at 0."""
    return settled(own, own, others, effort or Effort())


def bound(own: Demand, greater: Sequence[Demand], effort: Optional[Effort] = None) -> Optional[int]:
    """The maximum response of a task under others of higher or equal priority; None if their utilisation is above 1."""
    effort = effort or Effort()
    if is_too_much([own, *greater], effort):
        return None
    worst, job = 0, 0
    while True:
        before = job * own.cost
        worst = max(worst, ends_at(before + own.work, greater, effort) - job * own.period)
        job += 1
        if ends_at(before + own.cost, greater, effort) <= job * own.period:
            return worst


def busy_stretch(demands: Sequence[Demand], effort: Optional[Effort] = None) -> Optional[int]:
    """How long a core is busy from the moment at which all tasks are released; None if that has no end."""
    effort = effort or Effort()
    return None if is_too_much(demands, effort) else settled(sum(one.cost for one in demands), 0, demands, effort)
