"""What mcscheck --why writes of an answer of a chain, found a second time: from the file and the rows that mcsim writes of it.

The way of an answer is that of its interrupt, by the reading of its chain (chain_reading.py): who has it is what that reading says after each row, and a
row that brings it to somebody says from whom. Who has it already keeps the first way. How a thread stood is looked up tick by tick."""
from __future__ import annotations

import collections
from collections.abc import Iterator, Sequence
from typing import Any, NamedTuple, Optional

from checks.program.answers import object_of
from checks.program.chain_reading import Answer, ChainReading
from checks.program.chained import Chained, answer_line
from checks.program.reading import Tables, Values, rows_of

PARTS = ('ready', 'running', 'throttled', 'blocked', 'server')
SEEN = (
    'a way through a notification', 'a way over two cores', 'a way of five legs', 'a leg ready, running and throttled', 'the way of a later answer of a job',
    # (callers in front of a taken server are rare in these systems)
    *(f'a leg with {part} ticks' for part in PARTS if part != 'server'),
)
# who has the interrupt: a notification or a thread, by its name
Holder = tuple[str, str]


class Leg(NamedTuple):
    """A piece of a way: at a notification, with a thread, or between two cores, from one moment to another."""

    kind: str
    of: tuple[str, ...]
    begin: int
    end: int


class Place(NamedTuple):
    """Since when somebody has the interrupt, and the way on which it came."""

    since: int
    way: tuple[Leg, ...]


class WayReading(ChainReading):
    """The way of one interrupt of a chain."""

    def __init__(self, tables: Tables, chain: dict[str, Any], origin: int) -> None:
        super().__init__(tables, chain)
        self.origin = origin
        self.places: dict[Holder, Place] = {}
        # what the post of the latest row brings, and what is under way, as the signals of the reading are
        self.brought: Optional[Place] = None
        self.sent: dict[tuple[int, int], collections.deque[tuple[int, Optional[Place]]]] = collections.defaultdict(collections.deque)
        self.way: tuple[Leg, ...] = ()

    def holders(self) -> set[Holder]:
        """Who has the interrupt now."""
        found: set[Holder] = {('held', name) for name, bits in self.held.items() if any(self.origin in origins for origins in bits.values())}
        for name, thread in self.threads.items():
            if self.origin in thread.free or any(self.origin in origins for origins in thread.bits.values()):
                found.add(('ran', name))
        return found

    def leaving(self, holder: Holder, moment: int) -> Place:
        """It leaves somebody at this moment."""
        place = self.places[holder]
        return Place(moment, (*place.way, Leg(holder[0], (holder[1],), place.since, moment)))

    def see(self, moment: int, core: int, what: Sequence[str]) -> None:
        known = len(self.answers)
        answering = self.leaving(('ran', what[1]), moment) if what[0] == 'round' and ('ran', what[1]) in self.places else None
        super().see(moment, core, what)
        self.brings(moment, core, what)
        if answering and any(answer.origin == self.origin for answer in self.answers[known:]):
            self.way = answering.way
        self.comes(moment, what)

    def brings(self, moment: int, core: int, what: Sequence[str]) -> None:
        """What the row posts, at home or to another core."""
        if what[0] == 'interrupt':
            self.brought = Place(moment, ()) if self.origin in self.post[1] else None
        elif what[0] == 'signal':
            home = self.core_of[what[2]]
            given = self.post[1] if home == core else self.under_way[core, home][-1]
            place = self.leaving(('ran', what[1]), moment) if self.origin in given else None
            if home == core:
                self.brought = place
            else:
                self.sent[core, home].append((moment, place))
        elif what[0] == 'arrive':
            made, place = self.sent[int(what[4]), core].popleft()
            self.brought = place and Place(moment, (*place.way, Leg('delay', (what[4], str(core)), made, moment)))

    def comes(self, moment: int, what: Sequence[str]) -> None:
        """Who has it now and had it not, and who had it and has it no more."""
        holders = self.holders()
        for holder in holders - self.places.keys():
            place = self.brought
            if what[0] == 'got':
                taken = self.places['held', what[2]]
                place = taken if taken.since == moment else self.leaving(('held', what[2]), moment)
            assert place, (holder, what)
            self.places[holder] = place._replace(since=moment)
        for holder in self.places.keys() - holders:
            del self.places[holder]


def way_of(tables: Tables, chain: dict[str, Any], text: str, answer: Answer) -> tuple[Leg, ...]:
    """The way of an answer, by all rows of a schedule."""
    reading = WayReading(tables, chain, answer.origin)
    for row in rows_of(text):
        if row.moment > answer.moment:
            break
        reading.see(row.moment, row.core, row.what)
    return reading.way


class Ways:
    """The ways of the answers of a system's chains, by the rows of its schedule."""

    def __init__(self, tables: Tables, text: str, found: Chained) -> None:
        self.tables, self.text, self.found = tables, text, found
        self.homes = {note['name']: note['core'] for note in tables.get('note', [])}

    def values_of(self, leg: Leg) -> Values:
        """The values of a leg by their names, as an object has them."""
        times = {'to': leg.end, 'ticks': leg.end - leg.begin}
        if leg.kind == 'delay':
            maker, home = leg.of
            return {'moment': leg.begin, 'core': int(maker), 'kind': 'delay', 'home': int(home), **times}
        name, = leg.of
        if leg.kind == 'held':
            return {'moment': leg.begin, 'core': self.homes[name], 'kind': 'held', 'note': name, **times}
        core = self.found.contexts[self.found.threads[name]['context']]['core']
        stood = collections.Counter(self.found.whole.standings(name, leg.begin, leg.end))
        assert set(stood) <= set(PARTS), stood
        return {'moment': leg.begin, 'core': core, 'kind': 'ran', 'thread': name, **times, **{part: stood[part] for part in PARTS}}

    def told(self, way: Sequence[Leg]) -> Iterator[Values]:
        """What is told of a way: each leg, and the sums of their ticks."""
        legs = [self.values_of(leg) for leg in way]
        yield from legs
        sums = {kind: sum(leg['ticks'] for leg in legs if leg['kind'] == kind) for kind in ('held', 'delay')}
        parts = {part: sum(leg.get(part, 0) for leg in legs) for part in PARTS}
        yield {'kind': 'sum', 'ticks': sum(leg['ticks'] for leg in legs), **sums, **parts}

    def shown(self, chain: ChainReading, number: int) -> Iterator[str]:
        """What the way of an answer shows."""
        answer = chain.answers[number - 1]
        way = list(self.told(way_of(self.tables, chain.chain, self.text, answer)))
        sums = way[-1]
        yield from (what for what, kind in (('a way through a notification', 'held'), ('a way over two cores', 'delay')) if sums[kind])
        yield from (f'a leg with {part} ticks' for part in PARTS if sums[part])
        if len(way) > 5:
            yield 'a way of five legs'
        if any(all(leg.get(part) for part in PARTS[:3]) for leg in way[:-1]):
            yield 'a leg ready, running and throttled'
        if any(other.number == answer.number for other in chain.answers[:number - 1]):
            yield 'the way of a later answer of a job'

    def written(self, chain: ChainReading, number: int, form: str) -> str:
        """All lines of the way of an answer, by its number from 1."""
        answer = chain.answers[number - 1]
        line, way = answer_line(chain, answer), way_of(self.tables, chain.chain, self.text, answer)
        values = list(self.told(way))
        if form == 'json':
            return ''.join(map(object_of, [self.found.values(line), *values]))
        return ''.join(f'{each}\n' for each in (line, *map(words_of, values)))


def words_of(values: Values) -> str:
    """The line of a leg or of the sums: the names that it is about, and then each value behind its name."""
    begin = [str(values[name]) for name in ('moment', 'core') if name in values]
    of = [str(values[name]) for name in ('thread', 'note') if name in values]
    of += ['core', str(values['home'])] if 'home' in values else []
    counts = [f'{name} {value}' for name, value in values.items() if name not in ('moment', 'core', 'kind', 'thread', 'note', 'home')]
    return ' '.join([*begin, str(values['kind']), *of, *counts])


def refused(chain: ChainReading, number: str) -> str:
    """The line of a number that no answer has."""
    many = len(chain.answers)
    there = 'there is none' if not many else 'there is answer 1' if many == 1 else f'there are answers 1 to {many}'
    return f'mcscheck: --why: no answer "{number}" of {chain.chain["name"]}: {there}\n'
