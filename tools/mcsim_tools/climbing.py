"""A search for the point with the maximum value, where nothing is known of the values.

It tries starting points first. Then it climbs several times: each climb begins with random points,
of which some have given coordinates, and takes steps from the best of them until none is better for
long. A step changes one coordinate, at times a few, or mixes two points, or asks a guide. The last
climb begins with the best points of all, and most of its steps are around the best one. Points come
in batches of one size, so that the same seed gives the same points however many are tried at once.
No point is tried twice."""
from __future__ import annotations

import random
from collections.abc import Callable, Generator, Iterable, Iterator, Mapping, Sequence
from itertools import islice
from typing import Optional

Point = tuple[int, ...]
# the value of a point; None if it has none
Value = Optional[int]
Batches = Generator[list[Point], list[Value], None]
Evaluate = Callable[[list[Point]], list[Value]]
# another point that may be better than a point, or the point itself
Guide = Callable[[Point, random.Random], Point]

# points that are tried at once
BATCH = 8
# batches in a row without a new point, after which all points are taken to be known
STALE = 200
# parts of all tries that are starting points at most, and that are the last climb
STARTS, LAST = 8, 5
# random points with which a climb begins, and tries without a better point after which it ends
DRAWN, PATIENCE = 60, 100
# points of a batch that are around the best one: in a climb, and in the last one
AROUND, MOSTLY = 2, 6
# the number of best points from which steps are made
ELITE = 4
# shares of steps that ask the guide, if there is one, that mix two points, and that change one
# coordinate; the others change 2 to FEW
GUIDED, MIXED, SINGLE, FEW = 0.5, 0.2, 0.5, 3
# half, for a choice of two, and the share of changes that take an end
HALF, ENDS = 0.5, 0.1


def order(value: Value) -> int:
    """No value is below all values."""
    return -1 if value is None else value


def batches(points: Iterable[Point], size: int = BATCH) -> Iterator[list[Point]]:
    rest = iter(points)
    while batch := list(islice(rest, size)):
        yield batch


class Climb:
    """A search under way: the values of the points that were tried, and the best of them."""

    def __init__(self, sizes: Sequence[int], starts: Sequence[Point], tries: int, seed: int, likely: Mapping[int, int] = {}) -> None:
        self.sizes, self.starts, self.tries = list(sizes), list(starts), tries
        # values of coordinates that half of the random points have
        self.likely = likely
        self.random = random.Random(seed)
        self.known: dict[Point, Value] = {}
        # the best points of all, and of the climb under way, the best first; of two alike the one
        # that was tried first
        self.finest: list[Point] = []
        self.elite: list[Point] = []
        # coordinates with a choice, those that belong together in one list
        self.blocks = [[place] for place, size in enumerate(self.sizes) if size > 1]
        self.guide: Optional[Guide] = None

    def join(self, blocks: Iterable[Iterable[int]]) -> None:
        """Takes the coordinates of each block together: a step chooses a block first."""
        chosen = [[place for place in block if self.sizes[place] > 1] for block in blocks]
        self.blocks = [block for block in chosen if block]

    @property
    def best(self) -> Optional[Point]:
        return self.finest[0] if self.finest else None

    def value(self, point: Point) -> int:
        return order(self.known[point])

    @property
    def left(self) -> int:
        return self.tries - len(self.known)

    def of(self, points: Iterable[Point]) -> Batches:
        """Has the values of points, except of those that are known and of those above the number
        of tries."""
        new = list(dict.fromkeys(point for point in points if point not in self.known))
        for batch in batches(new[:self.left]):
            for point, value in zip(batch, (yield batch)):
                self.known[point] = value
                self.keep(self.finest, point)
                self.keep(self.elite, point)

    def keep(self, best: list[Point], point: Point) -> None:
        """Gives a point its place among the best, if it has one."""
        place = len(best)
        while place > 0 and self.value(best[place - 1]) < self.value(point):
            place -= 1
        best.insert(place, point)
        del best[ELITE:]

    def run(self) -> Batches:
        """Gives batches of points and takes their values."""
        yield from self.of(self.starts[:max(1, self.tries // STARTS)])
        last, before = self.tries // LAST, -1
        while self.left > last and before < len(self.known):
            before = len(self.known)
            yield from self.of([self.drawn() for _ in range(min(DRAWN, self.left - last))])
            yield from self.climbed(last, PATIENCE, AROUND)
            self.elite = []
        self.elite = list(self.finest)
        yield from self.climbed(0, self.tries, MOSTLY)

    def climbed(self, end: int, patience: int, many: int) -> Batches:
        """Takes steps until `end` tries are left, or a number of them brought nothing better, or
        all points are known."""
        best, since, stale = -1, len(self.known), 0
        while self.elite and self.left > end and len(self.known) - since < patience and stale < STALE:
            before = len(self.known)
            around = self.around(many)
            yield from self.of([*around, *(self.step() for _ in range(BATCH - len(around)))])
            stale = stale + 1 if len(self.known) == before else 0
            if self.value(self.elite[0]) > best:
                best, since = self.value(self.elite[0]), len(self.known)

    def drawn(self) -> Point:
        likely = self.likely if self.random.random() < HALF else {}
        return tuple(likely.get(place, self.random.randrange(size)) for place, size in enumerate(self.sizes))

    def around(self, many: int) -> list[Point]:
        """A few points that are not known, each a change of one coordinate of the best by a power
        of two, the smallest ones first."""
        best, found = self.elite[0], list[Point]()
        for power in range(max(self.sizes).bit_length()):
            moves = [(place, sign * 2**power) for block in self.blocks for place in block for sign in (-1, 1)]
            self.random.shuffle(moves)
            for place, away in moves:
                point = (*best[:place], best[place] + away, *best[place + 1:])
                if 0 <= point[place] < self.sizes[place] and point not in self.known:
                    found.append(point)
            if len(found) >= many:
                break
        return found[:many]

    def step(self) -> Point:
        """Another point: one of the best, changed or mixed with another one of them."""
        point = self.elite[0] if self.random.random() < HALF else self.random.choice(self.elite)
        if self.guide and self.random.random() < GUIDED:
            return self.guide(point, self.random)
        chance = self.random.random()
        if chance < MIXED:
            other = self.random.choice(self.elite)
            return tuple(own if self.random.random() < HALF else its for own, its in zip(other, point))
        many = 1 if chance < MIXED + SINGLE else self.random.randint(2, FEW)
        changed = list(point)
        for block in self.random.sample(self.blocks, min(many, len(self.blocks))):
            place = self.random.choice(block)
            changed[place] = self.changed(point[place], self.sizes[place])
        return tuple(changed)

    def changed(self, own: int, size: int) -> int:
        """Another value of a coordinate: any one, an end, or one at a power of two."""
        chance = self.random.random()
        if chance < HALF:
            return self.random.randrange(size)
        if chance < HALF + ENDS:
            return (size - 1) * self.random.randrange(2)
        away: int = self.random.choice((-1, 1)) * 2 ** self.random.randrange(size.bit_length())
        return max(0, min(size - 1, own + away))


def exhaust(points: Iterable[Point]) -> Batches:
    """Gives all points."""
    for batch in batches(points):
        yield batch


def drive(search: Batches, values: Evaluate) -> None:
    """Runs a search to its end with a function for the values."""
    try:
        batch = next(search)
        while True:
            batch = search.send(values(batch))
    except StopIteration:
        return
