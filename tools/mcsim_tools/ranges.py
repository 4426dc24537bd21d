"""What a search may choose in a system: numbers in their ranges, and the dates of sources.

A choice is one or more coordinates, each a whole number from 0 on; a point has the coordinates of
all choices, one after another. Every point is a system, which the program may still refuse."""
from __future__ import annotations

import abc
import copy
import itertools
import math
import pathlib
import re
from collections.abc import Iterator, Mapping, Sequence
from dataclasses import dataclass
from typing import Any, Optional

from . import digits, named, settings, system, writing
from .faults import Fault
from .settings import Place, Tables, Value

Point = tuple[int, ...]

DATES = re.compile(r'source\.([^.=]+)\.at')
JITTER = re.compile(r'jitter\s+([0-9]+)')
BURST = re.compile(r'burst\s+([0-9]+)\s+in\s+([0-9]+)')
COMPUTE = 'compute'
# periods that a list of dates with jitter covers at most before it repeats
UNROLLED = 16
# numbers that a source's list has at most
MOST_DATES = 1024
ALLOWED = 'a range is A..B, A..B:STEP or a list with commas, and that of source.NAME.at is jitter J or burst N in W'


class Choice(abc.ABC):
    """What is left open at one place, as some coordinates."""

    text: str
    # how many values each coordinate has
    sizes: Sequence[int]

    @property
    def count(self) -> int:
        """How many ways there are to choose."""
        return math.prod(self.sizes)

    def all(self) -> Iterator[Point]:
        return itertools.product(*map(range, self.sizes))

    @property
    def least(self) -> Point:
        return (0,) * len(self.sizes)

    @property
    def greatest(self) -> Point:
        return tuple(size - 1 for size in self.sizes)

    @property
    def is_time(self) -> bool:
        """Whether it is a time of computation, which is longest at its end."""
        return False

    @abc.abstractmethod
    def put(self, edited: Tables, chosen: Point) -> None:
        """Sets what is chosen in tables of the same form."""

    @abc.abstractmethod
    def said(self, chosen: Point) -> str:
        """What is chosen, in words."""

    def aligned(self, moment: int, late: Mapping[str, int]) -> Optional[Point]:
        """What makes a job come at a moment, if that depends on this choice. A source in `late`
        has a first date that is later than its start."""
        return None


@dataclass(frozen=True)
class Numbers(Choice):
    """A number of a range, or one of a list."""

    text: str
    place: Place
    values: Sequence[Value]
    is_time_of_work: bool = False
    # of a start: after how many ticks jobs come again, and the source that it is of
    period: int = 0
    source: str = ''

    @property
    def sizes(self) -> Sequence[int]:  # type: ignore[override]
        return (len(self.values),)

    @property
    def is_time(self) -> bool:
        return self.is_time_of_work

    def put(self, edited: Tables, chosen: Point) -> None:
        self.place.put(edited, self.values[chosen[0]])

    def said(self, chosen: Point) -> str:
        return f'{self.text}={self.values[chosen[0]]}'

    def place_of(self, start: int) -> Optional[int]:
        """Where a start stands in the range, or one some periods before or after it."""
        values = self.values
        away = (start - int(values[0])) % self.period
        if isinstance(values, range):
            place, rest = divmod(away, values.step)
            return place if rest == 0 and place < len(values) else None
        return next((place for place, value in enumerate(values) if int(value) - int(values[0]) == away), None)

    def aligned(self, moment: int, late: Mapping[str, int]) -> Optional[Point]:
        if not self.period:
            return None
        starts = [int(value) for value in self.values[:self.period]]
        wanted = moment - late.get(self.source, 0)

        def distance(place: int) -> int:
            off = (starts[place] - wanted) % self.period
            return min(off, self.period - off)

        return (min(range(len(starts)), key=distance),)


@dataclass(frozen=True)
class Jitter(Choice):
    """The dates of a source, each of which may come later by up to `most` ticks. The list covers
    several periods, so that one interrupt may be late and the next one not."""

    text: str
    row: int
    period: int
    dates: Sequence[int]
    most: int

    @property
    def sizes(self) -> Sequence[int]:  # type: ignore[override]
        return (self.most + 1,) * len(self.dates)

    def put(self, edited: Tables, chosen: Point) -> None:
        edited['source'][self.row] |= {'period': self.period, 'at': self.chosen(chosen)}

    def chosen(self, chosen: Point) -> list[int]:
        return [date + late for date, late in zip(self.dates, chosen)]

    def said(self, chosen: Point) -> str:
        return f'{self.text}={self.chosen(chosen)} (period {self.period})'

    def aligned(self, moment: int, late: Mapping[str, int]) -> Optional[Point]:
        return (self.most, *(0 for _ in self.dates[1:]))


@dataclass(frozen=True)
class Burst(Choice):
    """Some interrupts in each period of a source, anywhere in its first `within` ticks."""

    text: str
    row: int
    many: int
    within: int

    @property
    def sizes(self) -> Sequence[int]:  # type: ignore[override]
        return (self.within - self.many + 1,) * self.many

    @property
    def count(self) -> int:
        return math.comb(self.within, self.many)

    def all(self) -> Iterator[Point]:
        return itertools.combinations_with_replacement(range(self.within - self.many + 1), self.many)

    def put(self, edited: Tables, chosen: Point) -> None:
        edited['source'][self.row]['at'] = self.chosen(chosen)

    @staticmethod
    def chosen(chosen: Point) -> list[int]:
        """Rising dates: what lies before each of them is chosen beside the dates themselves."""
        return [place + before for place, before in enumerate(sorted(chosen))]

    def said(self, chosen: Point) -> str:
        return f'{self.text}={self.chosen(chosen)}'

    def aligned(self, moment: int, late: Mapping[str, int]) -> Optional[Point]:
        return self.least


# ---- what a user writes


def place_and_range(text: str) -> tuple[str, str]:
    place, is_there, wanted = text.partition('=')
    if not is_there or not wanted:
        raise Fault(f'{text}: what is left open is PLACE=RANGE')
    return place.strip(), wanted.strip()


def choice_of(text: str, tables: Tables, horizon: int) -> Choice:
    """What `PLACE=RANGE` leaves open in a system."""
    place, wanted = place_and_range(text)
    found = DATES.fullmatch(place)
    return dates_of(place, found[1], wanted, tables, horizon) if found else numbers_of(place, wanted, tables)


def numbers_of(text: str, wanted: str, tables: Tables) -> Numbers:
    place = settings.place_of(text, tables)
    try:
        values = settings.values_of(place, wanted.replace('..', ':'))
    except Fault:
        raise Fault(f'{text}={wanted}: {ALLOWED}') from None
    if place.takes_words:
        return Numbers(text, place, list(dict.fromkeys(values)))
    if not isinstance(values, range):
        values = sorted(set(map(int, values)))
    if place.key == settings.SCRIPT:
        items = tables[place.section][place.row][place.key]
        return Numbers(text, place, values, is_time_of_work=items[place.item].split()[0] == COMPUTE)
    row = tables[place.section][place.row] if place.key else {}
    if place.key != 'start':
        return Numbers(text, place, values)
    if place.section == 'source':
        return Numbers(text, place, values, period=row['period'], source=row['name'])
    return Numbers(text, place, values, period=period_of(tables, row))


def period_of(tables: Tables, thread: Mapping[str, Any]) -> int:
    """The period of a thread's context."""
    return next(int(row['period']) for row in tables['context'] if row['name'] == thread['context'])


def dates_of(text: str, name: str, wanted: str, tables: Tables, horizon: int) -> Choice:
    row = settings.row_of(text, 'source', name, tables)
    source = tables['source'][row]
    jitter, burst = JITTER.fullmatch(wanted), BURST.fullmatch(wanted)
    if jitter:
        return jitter_of(text, row, source, digits.number(jitter[1]), horizon)
    if burst:
        many, within = digits.number(burst[1], 1, MOST_DATES), digits.number(burst[2], 1, source['period'])
        if many is None or within is None or many > within:
            raise Fault(f'{text}={wanted}: N is 1 to {MOST_DATES}, and W is N to the period, {source["period"]}')
        return Burst(text, row, many, within)
    raise Fault(f'{text}={wanted}: {ALLOWED}')


def jitter_of(text: str, row: int, source: Mapping[str, Any], most: Optional[int], horizon: int) -> Jitter:
    period, dates = source['period'], source.get('at', [0])
    ends = [*dates[1:], period + (dates[0] if source.get('start', 0) else 0)]
    room = min(min(after - date for date, after in zip(dates, ends)), period - dates[-1]) - 1
    if most is None or most > room:
        raise Fault(f'{text}=jitter: a date stays before the next one and in its period, so J is 0 to {room}')
    wanted = max(1, -(-(horizon - source.get('start', 0)) // period))
    many = max(1, min(UNROLLED, wanted, MOST_DATES // len(dates)))
    return Jitter(text, row, many * period, [each * period + date for each in range(many) for date in dates], most)


def texts_of_file(path: pathlib.Path) -> list[str]:
    """The lines `PLACE = RANGE` of a table of ranges, as `PLACE=RANGE`."""
    found = system.tables_of(path, system.read_bytes(path))
    texts: list[str] = []

    def take(table: Mapping[str, Any], before: str) -> None:
        for key, value in table.items():
            place = f'{before}{key}'
            if isinstance(value, Mapping):
                take(value, f'{place}.')
            elif isinstance(value, str):
                texts.append(f'{place}={value}')
            elif type(value) is int or isinstance(value, list) and all(type(one) is int for one in value):
                listed = value if isinstance(value, list) else [value]
                texts.append(f'{place}={",".join(map(str, listed))}')
            else:
                raise Fault(f'{path}: {place}: {ALLOWED}')

    take(found, '')
    if not texts:
        raise Fault(f'{path}: it leaves nothing open: a line is PLACE = "RANGE"')
    return texts


def phases_of(tables: Tables) -> list[str]:
    """The start of each source, and of each thread that waits for nothing first, over its period."""
    found = []
    for row in tables.get('source', []):
        found.append((f'source.{row["name"]}.start', row.get('start', 0), row['period']))
    for row in tables.get('thread', []):
        if not row['script'][0].split()[0] == 'wait':
            found.append((f'thread.{row["name"]}.start', row.get('start', 0), period_of(tables, row)))
    return [f'{place}={start}..{start + period - 1}' for place, start, period in found]


def times_of(tables: Tables, share: int) -> list[str]:
    """Each time of computation, from a share of it, in percent, to all of it."""
    found = []
    for section in ('server', 'thread'):
        for row in tables.get(section, []):
            for place, item in enumerate(row['script'], 1):
                word, *rest = item.split()
                if word == COMPUTE and (most := int(rest[0])) > (least := max(1, -(-most * share // 100))):
                    found.append(f'{section}.{row["name"]}.script.{place}={least}..{most}')
    return found


# ---- all that is left open


class Space:
    """A system and all that is left open in it."""

    def __init__(self, tables: Tables, choices: Sequence[Choice]) -> None:
        self.tables, self.choices = tables, list(choices)
        names = [choice.text for choice in choices]
        twice = next((name for name in names if names.count(name) > 1), None)
        if twice:
            raise Fault(f'{twice}: it is left open twice')
        self.sizes = [size for choice in choices for size in choice.sizes]
        self.count = math.prod(choice.count for choice in choices)

    def places(self) -> list[range]:
        """The places of each choice's coordinates in a point."""
        ends = list(itertools.accumulate(len(choice.sizes) for choice in self.choices))
        return [range(begin, end) for begin, end in zip([0, *ends], ends)]

    def parts(self, point: Point) -> Iterator[tuple[Choice, Point]]:
        """Each choice with its own coordinates."""
        for choice, its in zip(self.choices, self.places()):
            yield choice, point[its.start:its.stop]

    def all(self) -> Iterator[Point]:
        for parts in itertools.product(*(choice.all() for choice in self.choices)):
            yield tuple(itertools.chain.from_iterable(parts))

    def tables_of(self, point: Point) -> Tables:
        edited = copy.deepcopy(self.tables)
        for choice, own in self.parts(point):
            choice.put(edited, own)
        return edited

    def said(self, point: Point) -> list[str]:
        """What is chosen, but for what is as in the file."""
        return [choice.said(own) for choice, own in self.parts(point) if self.is_other(choice, own)] or ['the values of the file']

    def is_other(self, choice: Choice, own: Point) -> bool:
        edited = copy.deepcopy(self.tables)
        choice.put(edited, own)
        return edited != self.tables

    def text_of(self, point: Point, head: Sequence[str] = ()) -> str:
        return writing.system_text(self.tables_of(point), head)

    # ---- where a search begins

    def corners(self) -> list[Point]:
        """The critical instants with the longest and the shortest times, all at its least and at
        its greatest, and each choice at its ends while the others are at the critical instant."""
        moments = self.moments()
        starts = [self.critical(moment, is_long) for is_long in (True, False) for moment in moments]
        first = starts[0]
        starts += [tuple(itertools.chain.from_iterable(getattr(choice, end) for choice in self.choices)) for end in ('least', 'greatest')]
        for choice in self.choices:
            for end in (choice.least, choice.greatest):
                starts.append(tuple(itertools.chain.from_iterable(end if other is choice else own for other, own in self.parts(first))))
        return list(dict.fromkeys(starts))

    def longest(self) -> dict[int, int]:
        """The coordinates that are times of computation, each with its greatest value."""
        return {its.start: choice.sizes[0] - 1 for choice, its in zip(self.choices, self.places()) if choice.is_time}

    def moments(self) -> list[int]:
        """When jobs may come together: once all that is left open has begun, at a date of each
        source whose start is given."""
        begun = [int(choice.values[0]) for choice in self.choices if isinstance(choice, Numbers) and choice.period]
        earliest = max(begun, default=0)
        is_open = {choice.source for choice in self.choices if isinstance(choice, Numbers)}
        moments = [earliest]
        for row in self.tables.get('source', []):
            if row['name'] not in is_open:
                period = row['period']
                moments.append(earliest + (row.get('start', 0) - earliest) % period)
        return list(dict.fromkeys(moments))

    def critical(self, moment: int, is_long: bool) -> Point:
        """The point at which jobs come together at a moment, with the longest or shortest times."""
        late = {self.tables['source'][choice.row]['name']: choice.most for choice in self.choices if isinstance(choice, Jitter)}
        parts = []
        for choice in self.choices:
            aligned = choice.aligned(moment, late)
            end = choice.greatest if is_long or not choice.is_time else choice.least
            parts.append(end if aligned is None else aligned)
        return tuple(itertools.chain.from_iterable(parts))


def known_chain(name: str, tables: Tables) -> Optional[str]:
    """The chain that a name means, None if it means a thread; `chain.NAME` is always a chain."""
    threads, chains = ([row['name'] for row in tables.get(section, [])] for section in ('thread', 'chain'))
    wanted = name.removeprefix('chain.')
    if name not in threads and wanted in chains:
        return wanted
    if name not in threads:
        raise Fault(f'--of {name}: there is no thread and no chain {name!r}: {named.known(name, [*threads, *chains])}')
    return None
