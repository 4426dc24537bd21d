"""A schedule and a measured trace of the same system, laid beside each other.

Both become spells: a thread runs on a core from one time to another. The trace's times become
ticks by a unit and an offset, which are given or fitted."""
from __future__ import annotations

import bisect
import math
import statistics
from collections.abc import Iterable, Iterator, Mapping, Sequence
from dataclasses import dataclass
from typing import NamedTuple, Optional

from . import measured
from .measured import Trace
from .reading import RUNNING, WOKE, Listener, Post, Stood
from .system import System

# a spread of times by the median of distances, as of a normal distribution
SPREAD = 1.4826
# the standard error of a median, in that of a mean
OF_MEDIAN = 1.2533
# how many spreads, and ticks at least, two times may lie apart that are the same
SPREADS, LEAST_TOLERANCE = 6.0, 1.0
# runs at the beginning of a thread by which a unit and an offset are tried, and of how many threads
TRIED, THREADS = 20, 6
# over how many runs a unit is estimated, and rounds in which the fit is refined
LAGS, REFINED = (1, 8), 4
# standard errors above which run times differ, and jobs by which that is told at least
ERRORS, FEWEST = 5.0, 4


class Spell(NamedTuple):
    """A thread runs on its core."""

    begin: float
    end: float
    name: str


class Job(NamedTuple):
    """From a thread's first tick, or from its wake, until it stops by itself."""

    begin: float
    end: float
    ran: float

    @property
    def span(self) -> float:
        return self.end - self.begin


@dataclass
class Side:
    """The spells of each core and the wakes of each thread, in the order of time."""

    spells: dict[int, list[Spell]]
    wakes: dict[str, list[float]]

    def begins(self) -> dict[str, list[float]]:
        """When each thread began to run."""
        found: dict[str, list[float]] = {}
        for own in self.spells.values():
            for spell in own:
                found.setdefault(spell.name, []).append(spell.begin)
        return found

    def scaled(self, unit: float, offset: float) -> Side:
        def tick(time: float) -> float:
            return (time - offset) / unit

        spells = {core: [Spell(tick(one.begin), tick(one.end), one.name) for one in own] for core, own in self.spells.items()}
        return Side(spells, {name: [tick(time) for time in times] for name, times in self.wakes.items()})

    @property
    def ends(self) -> tuple[float, float]:
        every = [spell for own in self.spells.values() for spell in own]
        return min(spell.begin for spell in every), max(spell.end for spell in every)


def add(spells: list[Spell], spell: Spell) -> None:
    """Appends a spell, or makes the last one longer if it goes on."""
    if spells and spells[-1].name == spell.name and spells[-1].end == spell.begin:
        spells[-1] = spells[-1]._replace(end=spell.end)
    elif spell.end > spell.begin:
        spells.append(spell)


class Ran(Listener):
    """The spells and wakes of a schedule."""

    def __init__(self) -> None:
        self.side = Side({}, {})

    def stood(self, stood: Stood) -> None:
        if stood.standing == RUNNING:
            add(self.side.spells.setdefault(stood.thread.core, []), Spell(stood.begin, stood.end, stood.thread.name))

    def posted(self, post: Post) -> None:
        if post.outcome == WOKE and post.thread:
            self.side.wakes.setdefault(post.thread.name, []).append(post.arrived)


def side_of(trace: Trace) -> Side:
    """The spells and wakes of a trace."""
    side, open_spells = Side({}, {}), dict[int, tuple[float, str]]()
    for row in trace.rows:
        if row.kind == measured.WAKE:
            side.wakes.setdefault(row.name, []).append(row.time)
        elif row.kind in (measured.RUN, measured.STOP):
            begin, name = open_spells.get(row.core, (row.time, ''))
            if row.kind == measured.STOP and row.name != name:
                continue
            if name:
                add(side.spells.setdefault(row.core, []), Spell(begin, row.time, name))
            open_spells[row.core] = (row.time, row.name if row.kind == measured.RUN else '')
    return side


# ---- unit and offset


# when each thread began to run
Begins = Mapping[str, Sequence[float]]


class Fit(NamedTuple):
    """A trace's time is the offset plus the unit times a tick; how much of both agrees, and within
    how many ticks two times are the same."""

    unit: float
    offset: float
    matched: float
    tolerance: float


def near(times: Sequence[float], wanted: float) -> Optional[float]:
    """The nearest of rising times."""
    place = bisect.bisect(times, wanted)
    beside = times[max(0, place - 1):place + 1]
    return min(beside, key=lambda time: abs(time - wanted)) if beside else None


def units_of(ours: Mapping[str, Sequence[float]], theirs: Mapping[str, Sequence[float]]) -> list[float]:
    """Units that may be the right one: by what some runs of each thread take in both."""
    found = []
    for name in sorted(ours.keys() & theirs.keys()):
        own, other = ours[name], theirs[name]
        for lag in LAGS:
            lag = min(lag, len(own) - 1, len(other) - 1)
            if lag > 0:
                gaps = [[after - time for time, after in zip(times, times[lag:])] for times in (own, other)]
                found.append(statistics.median(gaps[1]) / statistics.median(gaps[0]))
    return sorted(set(found)) or [1.0]


class Fitting:
    """Fits the unit and the offset of a trace."""

    def __init__(self, ours: Begins, theirs: Begins) -> None:
        self.ours, self.theirs = ours, theirs
        self.names = sorted(self.ours.keys() & self.theirs.keys())

    def pairs(self, unit: float, offset: float, within: float) -> list[tuple[float, float]]:
        """Each run of the trace with the nearest one of the schedule, where that is near."""
        found = []
        for name in self.names:
            for time in self.theirs[name]:
                wanted = (time - offset) / unit
                tick = near(self.ours[name], wanted)
                if tick is not None and abs(tick - wanted) <= within:
                    found.append((tick, time))
        return found

    def begun(self, unit: Optional[float], offset: Optional[float]) -> tuple[float, float]:
        """The unit and the offset under which the first runs of a few threads agree best. If all is
        periodic, several offsets agree alike, but for noise: the one nearest to the trace's first row."""
        names = sorted(self.names, key=lambda name: -len(self.theirs[name]))[:THREADS]
        first = Fitting({name: self.ours[name] for name in names}, {name: self.theirs[name][:TRIED] for name in names})
        tried = [
            (one, self.theirs[name][0] - one * tick if offset is None else offset)
            for one in (units_of(first.ours, first.theirs) if unit is None else [unit])
            for name in names for tick in self.ours[name][:TRIED]
        ]
        return max(tried, key=lambda one: (round(first.score(*one), 1), -abs(one[1])))

    def score(self, unit: float, offset: float) -> float:
        pairs = self.pairs(unit, offset, LEAST_TOLERANCE)
        return len(pairs) - sum(abs((time - offset) / unit - tick) for tick, time in pairs) / (1 + len(pairs))

    def fit(self, unit: Optional[float], offset: Optional[float], tolerance: Optional[float]) -> Fit:
        is_unit, is_offset = unit is not None, offset is not None
        unit, offset = self.begun(unit, offset)
        for _ in range(REFINED):
            pairs = self.pairs(unit, offset, LEAST_TOLERANCE)
            if len(pairs) < 2:
                break
            if not is_unit and not is_offset and len({tick for tick, _ in pairs}) > 1:
                unit, offset = statistics.linear_regression(*zip(*pairs))
            elif not is_offset:
                offset = statistics.median(time - unit * tick for tick, time in pairs)
            elif not is_unit:
                unit = statistics.median((time - offset) / tick for tick, time in pairs if tick)
        pairs = self.pairs(unit, offset, LEAST_TOLERANCE)
        apart = [abs((time - offset) / unit - tick) for tick, time in pairs]
        fitted = max(LEAST_TOLERANCE, SPREADS * SPREAD * statistics.median(apart)) if apart else LEAST_TOLERANCE
        matched = len(pairs) / max(1, sum(len(self.theirs[name]) for name in self.names))
        return Fit(unit, offset, matched, fitted if tolerance is None else tolerance)


# ---- where both part


class Parting(NamedTuple):
    """The first time at which both part on a core: the number of the spell there in each."""

    time: float
    core: int
    ours: int
    theirs: int
    why: str


def parting(core: int, ours: Sequence[Spell], theirs: Sequence[Spell], tolerance: float, until: float) -> Optional[Parting]:
    """The first spell that is not in both. One that is not longer than the tolerance may be missing."""
    i = j = 0
    while i < len(ours) and j < len(theirs):
        a, b = ours[i], theirs[j]
        if min(a.begin, b.begin) > until:
            return None
        is_same = a.name == b.name and abs(a.begin - b.begin) <= tolerance
        if is_same and (abs(a.end - b.end) <= tolerance or max(a.end, b.end) > until):
            i, j = i + 1, j + 1
        elif is_same:
            return Parting(min(a.end, b.end), core, i, j, f'{a.name} runs until {a.end:g} in the schedule, and until {b.end:.1f} in the trace')
        elif a.end - a.begin <= tolerance:
            i += 1
        elif b.end - b.begin <= tolerance:
            j += 1
        else:
            return Parting(min(a.begin, b.begin), core, i, j, f'the schedule runs {a.name} from {a.begin:g} on, and the trace {b.name} from {b.begin:.1f} on')
    rest = [spell for spell in (*ours[i:i + 1], *theirs[j:j + 1]) if spell.end - spell.begin > tolerance and spell.begin + tolerance < until]
    if not rest:
        return None
    where = 'schedule' if i < len(ours) else 'trace'
    return Parting(rest[0].begin, core, i, j, f'only the {where} runs {rest[0].name} from {rest[0].begin:.1f} on')


def cut(side: Side, begin: float, end: float) -> Side:
    """What lies between two times; a spell that began before the first is left out."""
    spells = {core: [spell for spell in own if begin <= spell.begin < end] for core, own in side.spells.items()}
    return Side(spells, {name: [time for time in times if begin <= time < end] for name, times in side.wakes.items()})


def first_parting(system: System, ours: Side, theirs: Side, tolerance: float, until: float) -> Optional[Parting]:
    found = [parting(core, ours.spells.get(core, []), theirs.spells.get(core, []), tolerance, until) for core in range(system.cores)]
    return min((one for one in found if one), default=None)


def differing(ours: Sequence[Spell], theirs: Sequence[Spell], begin: float, end: float, least: float) -> list[tuple[float, float]]:
    """From when to when a core does not run the same thread in both, for longer than `least`."""
    edges = sorted({begin, end, *(time for spell in (*ours, *theirs) for time in (spell.begin, spell.end) if begin < time < end)})
    found: list[tuple[float, float]] = []
    running = [runs_at(spells, edges) for spells in (ours, theirs)]
    for at, after, our, their in zip(edges, edges[1:], *running):
        if our == their:
            continue
        if found and found[-1][1] == at:
            found[-1] = found[-1][0], after
        else:
            found.append((at, after))
    return [one for one in found if one[1] - one[0] > least]


def runs_at(spells: Sequence[Spell], times: Iterable[float]) -> Iterator[str]:
    """Who runs from each of these times on, which rise; an empty name if nobody does."""
    place = 0
    for time in times:
        while place < len(spells) and spells[place].end <= time:
            place += 1
        yield spells[place].name if place < len(spells) and spells[place].begin <= time else ''


# ---- jobs


def jobs_of(system: System, side: Side, has_wakes: bool) -> dict[str, list[Job]]:
    """The jobs of each thread that ended: a thread stops by itself if the core is idle after it, or
    a thread of lower priority runs. One that a higher or an equal priority follows goes on later."""
    found: dict[str, list[Job]] = {}
    for own in side.spells.values():
        open_jobs: dict[str, tuple[float, float]] = {}
        for spell, after in zip(own, [*own[1:], None]):
            begin, ran = open_jobs.pop(spell.name, (spell.begin, 0.0))
            ran += spell.end - spell.begin
            if after is None:
                break
            is_idle = after.begin > spell.end
            if is_idle or system.threads[after.name].priority < system.threads[spell.name].priority:
                found.setdefault(spell.name, []).append(Job(begin, spell.end, ran))
            else:
                open_jobs[spell.name] = begin, ran
    return {name: list(from_wakes(own, side.wakes.get(name, []))) if has_wakes else own for name, own in found.items()}


def from_wakes(jobs: Iterable[Job], wakes: Sequence[float]) -> Iterator[Job]:
    """Each job from its wake on, if there was one since the end of the job before."""
    before = -math.inf
    for job in jobs:
        place = bisect.bisect(wakes, job.begin)
        yield job._replace(begin=wakes[place - 1]) if place and wakes[place - 1] >= before else job
        before = job.end


class Compared(NamedTuple):
    """The jobs of a thread in both, and by how much longer it runs in jobs that begin together, if
    that is more than chance."""

    name: str
    ours: Sequence[Job]
    theirs: Sequence[Job]
    longer: Optional[float]

    @property
    def means(self) -> tuple[Optional[float], Optional[float]]:
        return mean([job.ran for job in self.ours]), mean([job.ran for job in self.theirs])


def mean(values: Sequence[float]) -> Optional[float]:
    return statistics.fmean(values) if values else None


def pairs_of(ours: Sequence[Job], theirs: Sequence[Job], tolerance: float) -> Iterator[tuple[Job, Job]]:
    """The jobs that begin at the same time in both."""
    begins = [job.begin for job in theirs]
    for job in ours:
        place = bisect.bisect(begins, job.begin - tolerance)
        if place < len(begins) and begins[place] <= job.begin + tolerance:
            yield job, theirs[place]


def compared(name: str, ours: Sequence[Job], theirs: Sequence[Job], tolerance: float, share: float) -> Compared:
    """Run times differ if the median of their differences is more than a share of them, and more
    than some of its standard errors. A few jobs that are quite different don't hide it."""
    pairs = list(pairs_of(ours, theirs, tolerance))
    if len(pairs) < FEWEST:
        return Compared(name, ours, theirs, None)
    apart = [their.ran - our.ran for our, their in pairs]
    longer, own = statistics.median(apart), statistics.median(our.ran for our, _ in pairs)
    spread = SPREAD * statistics.median(abs(one - longer) for one in apart)
    error = OF_MEDIAN * spread / math.sqrt(len(apart))
    is_more = abs(longer) > max(share * own, ERRORS * error)
    return Compared(name, ours, theirs, longer / own if is_more else None)
