"""Steps of a search that are read off the rows of a run.

What makes a job late is how interrupts fall beside what happens in it and shortly before it. So one
step puts an interrupt at such a time, or a tick beside it. Another step moves all interrupts by the
same number of ticks: a job that has not ended at the horizon then begins earlier, and has more time
to get older."""
from __future__ import annotations

import bisect
import random
from collections.abc import Callable, Iterator, Sequence
from typing import NamedTuple, Optional

from . import trying, writing
from .ranges import Jitter, Numbers, Point, Space
from .trying import Question, Span

# the runs whose times are kept
KEPT = 64
# the last time up to which rows are read: more than 100 MB of them would be too long
FARTHEST = 10**7
# ticks before the worst job that are looked at; as many as the job has, if these are more
BEFORE = 30
# shares of steps that move all, that put the date in place that is the nearest one, and that move a
# second interrupt
ALL, NEAREST, TWO = 0.3, 0.5, 0.15
# shares of the steps that move all: how many bring a job that is open at the horizon forward a
# little, bring the beginning of the job to the earliest time, and bring another time there
SOONER, BEGINNING, OTHER = 0.4, 0.4, 0.4
# how far a job that is open is brought forward at most, if not as far as it is old
LITTLE = (10, 30, 100)
# ticks at which the beginning of the job is beside the earliest time
ASIDE = (0, 0, -1, 1, 5, 20)
# the most by which all are moved otherwise
FAR = 300

# a run: from when to when its worst value was, and its rows
Rows = Callable[[Point], Optional[tuple[Span, list[str]]]]


def runs_of(space: Space, question: Question, program: str) -> Rows:
    """The runs of points by mcsim, up to the end of the worst value."""

    def rows(point: Point) -> Optional[tuple[Span, list[str]]]:
        tables = space.tables_of(point)
        span = question.span(tables)
        if span is None or span[1] > FARTHEST:
            return None
        _, lines, _ = trying.lines_of(program, writing.system_text(tables).encode(), ['--horizon', str(span[1])])
        return span, lines

    return rows


class Window(NamedTuple):
    """A run around its worst value: from when to when that was, and when something happened."""

    span: Span
    times: Sequence[int]


class Start(NamedTuple):
    """A coordinate that is the start of a source or of a thread, with the coordinates of the jitter
    of that source."""

    place: int
    choice: Numbers
    jitter: range


def time_of(row: str) -> int:
    return int(row.split(None, 1)[0])


def window_of(span: Span, rows: Sequence[str]) -> Window:
    """The times of the rows in a span and shortly before it."""
    begin, end = span
    first = bisect.bisect_left(rows, begin - max(BEFORE, end - begin), key=time_of)
    times = {time_of(row) for row in rows[first:bisect.bisect_right(rows, end, key=time_of)]}
    return Window(span, sorted(times))


class Guide:
    """The steps through a space; `rows` runs a point."""

    def __init__(self, space: Space, horizon: int, rows: Rows) -> None:
        self.space, self.horizon, self.rows = space, horizon, rows
        self.starts = list(starts_of(space))
        self.earliest = space.moments()[0]
        self.windows: dict[Point, Optional[Window]] = {}

    def window(self, point: Point) -> Optional[Window]:
        if point not in self.windows:
            while len(self.windows) >= KEPT:
                del self.windows[next(iter(self.windows))]
            found = self.rows(point)
            self.windows[point] = window_of(*found) if found else None
        return self.windows[point]

    def step(self, point: Point, chance: random.Random) -> Point:
        """Another point, or the same one if nothing is to be read off its run."""
        window = self.window(point) if self.starts else None
        if window is None or not window.times:
            return point
        if chance.random() < ALL:
            return self.moved(point, self.starts, self.away(window, chance)) or point
        moved = self.aligned(point, window, chance)
        return self.aligned(moved, window, chance) if chance.random() < TWO else moved

    def away(self, window: Window, chance: random.Random) -> int:
        """By how much all are moved."""
        begin, end = window.span
        if end == self.horizon and chance.random() < SOONER:
            return -chance.randint(1, max(1, chance.choice((*LITTLE, end - begin))))
        kind = chance.random()
        if kind < BEGINNING:
            return self.earliest - begin + chance.choice(ASIDE)
        if kind < BEGINNING + OTHER:
            return self.earliest - chance.choice(window.times)
        return chance.randrange(-FAR, FAR)

    def aligned(self, point: Point, window: Window, chance: random.Random) -> Point:
        """A point with an interrupt at a time of the window, or beside it."""
        start = chance.choice(self.starts)
        time = chance.choice(window.times)
        dates = self.dates(point, start)
        nearest = min(dates, key=lambda date: abs(date - time))
        date = nearest if chance.random() < NEAREST else chance.choice(dates)
        return self.moved(point, [start], time - date + chance.choice((-1, 0, 0, 1))) or point

    def dates(self, point: Point, start: Start) -> list[int]:
        """The first interrupt of a source at each of its dates, or the start of a thread."""
        begin = int(start.choice.values[point[start.place]])
        if not start.choice.source:
            return [begin]
        tables = self.space.tables_of(point)
        row = next(row for row in tables['source'] if row['name'] == start.choice.source)
        return [begin + date for date in row.get('at', [0])]

    def moved(self, point: Point, starts: Sequence[Start], ticks: int) -> Optional[Point]:
        """A point whose interrupts come some ticks later; None if a start is not in its range."""
        made = list(point)
        for start in starts:
            choice, old = start.choice, int(start.choice.values[point[start.place]])
            place = choice.place_of(old + ticks)
            if place is None:
                return None
            made[start.place] = place
            periods = (old + ticks - int(choice.values[place])) // choice.period
            kept = [point[place] for place in start.jitter]
            # a start that is earlier by a period has the jitter of the interrupts one place later
            for number, its in enumerate(start.jitter):
                made[its] = kept[(number - periods * self.each(start)) % len(kept)]
        return tuple(made)

    def each(self, start: Start) -> int:
        """How many dates with jitter a source has in one period."""
        jitter = next(choice for choice in self.space.choices if isinstance(choice, Jitter) and self.name_of(choice) == start.choice.source)
        return len(jitter.dates) * start.choice.period // jitter.period

    def name_of(self, jitter: Jitter) -> str:
        name: str = self.space.tables['source'][jitter.row]['name']
        return name


def starts_of(space: Space) -> Iterator[Start]:
    """The starts that are left open."""
    places = space.places()
    jitters = {space.tables['source'][choice.row]['name']: its for choice, its in zip(space.choices, places) if isinstance(choice, Jitter)}
    for choice, its in zip(space.choices, places):
        if isinstance(choice, Numbers) and choice.period and choice.count > 1:
            yield Start(its[0], choice, jitters.get(choice.source, range(0)))
