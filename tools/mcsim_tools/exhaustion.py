"""Whether a thread's budget may be exhausted. Response-time analysis knows nothing of budgets, so it holds for threads that are never throttled.

Each tick that was used is replenished one period later at the latest, if the list of refills is never full. So a budget lasts if the thread never runs for
more ticks than that in a period. A full list moves its last refill later, so it has to have room for each piece that is used in a period."""
from __future__ import annotations

from typing import Optional

from .jobs import Job
from .levels import Level, Responses


def why_it_may_be(job: Job, min_budget: int, level: Optional[Level], found: Optional[Responses]) -> str:
    """Why a budget may be exhausted; nothing if it lasts. What was found of the thread takes it that no budget is exhausted."""
    if job.is_slice:
        return ''
    said = f'the budget of {job.name} may be exhausted'
    if min_budget != 1:
        return f'{said}: min_budget is {min_budget}'
    if job.at_start > job.budget:
        return f'{said} before it waits'
    if job.note is None:
        return said if job.is_endless else ''
    if level is None or found is None:
        return said
    if level.may_wait_for_server(job):
        return f'{said}: it has the priority of a server that it calls, so it may wait for it'
    if lasts_from_job_to_job(job, level, found):
        return ''
    short = shortage(job, level, found)
    return f'{said}: {short}' if short else ''


def is_settled(level: Level, found: Responses, ticks: int) -> bool:
    """Whether the first word comes so many ticks after all threads wait."""
    return not level.capped and level.earliest() >= found.from_start + found.settled + ticks


def lasts_from_job_to_job(job: Job, level: Level, found: Responses) -> bool:
    """Whether jobs come one by one, the whole budget is there for each, and is enough for it."""
    if len(level.mine) != 1:
        return False
    (stream,) = level.mine
    cost, apart = job.cost(stream.badge), stream.arrivals.apart(2)
    if cost > job.budget:
        return False
    # in mode sporadic, the dates of a job count from its wake, whatever delays it after that
    if not job.is_bandwidth and job.period <= apart and (stream.arrivals.earliest >= job.start + job.period or cost + job.at_start <= job.budget):
        return True
    return job.period + found.settled <= apart and is_settled(level, found, job.period)


def shortage(job: Job, level: Level, found: Responses) -> str:
    """What is too little for all that may run in a period: the budget, or the list of refills; nothing if both are enough."""
    at_start = not is_settled(level, found, job.period)
    # refills are merged at each wake in mode sporadic, and else whenever the thread is chosen
    window = job.period + found.settled + (0 if job.is_bandwidth else found.busy)
    ticks = level.own_in(window) + job.at_start * at_start
    if ticks > job.budget:
        return f'{ticks} ticks may be used in a period, and it has {job.budget}'
    if job.is_bandwidth and any(other is not job and other.priority == job.priority for other in level.all):
        return 'another thread has its priority'
    pieces = pieces_of_choices(level, window, at_start) if job.is_bandwidth else pieces_of_wakes(level, job.period, at_start)
    return f'{pieces} pieces may be used in a period, which takes {pieces - 1} extra refills' if pieces > job.extra_refills + 1 else ''


def pieces_of_wakes(level: Level, period: int, at_start: bool) -> int:
    return sum(stream.arrivals.most(period) for stream in level.mine) + at_start


def pieces_of_choices(level: Level, window: int, at_start: bool) -> int:
    """A piece ends with each wait, and with each preemption."""
    arrivals = [stream.arrivals for stream in level.mine] + [stream.arrivals for stream, _ in level.arriving]
    capped = sum(other.granted_in(window) for other in level.capped)
    return sum(each.most(window) for each in arrivals) + capped + (len(level.above) + 1) * at_start
