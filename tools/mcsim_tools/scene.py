"""What of a schedule is to be drawn: single things of a window of time while they are few enough, and else shares of time by columns."""
from __future__ import annotations

from collections.abc import Collection, Iterable
from typing import Any, NamedTuple, Optional, Union

from .reading import DONE, LOST, PENDING, RUNNING, STANDINGS, Holding, Post, Reading, Round, Stood, UnderWay
from .system import Context, System, Thread
from .tally import Tally

COLUMNS = 1200
# where there are many threads, columns are fewer: cells of all together at most, but so many columns at least
CELLS, LEAST_COLUMNS = 8_000_000, 120
# what a column counts beside ticks in each standing
ROUNDS, MISSED, LOSSES = range(len(STANDINGS), len(STANDINGS) + 3)
ORDERS = 2000


class Sent(NamedTuple):
    """A signal that is still under way."""

    note: str
    signal: UnderWay


class Ordered(NamedTuple):
    context: Context
    moment: int


class Held(NamedTuple):
    """What a context held from one moment to before another."""

    thread: Thread
    refills: list[tuple[int, int]]
    begin: int
    end: int
    is_used: bool


class Stay(NamedTuple):
    """A thread was in a server from one moment to another, or waited for it."""

    server: str
    thread: Thread
    begin: int
    end: int
    is_inside: bool


Thing = Union[Stood, Round, Post, Sent, Ordered, Held, Stay]


class Scene:
    """The things of a window. Its end is open until the schedule has told it."""

    def __init__(self, threads: Collection[str], begin: int, end: Optional[int]) -> None:
        self.threads, self.begin, self.end = threads, begin, end
        self.stood: list[Stood] = []
        self.rounds: list[Round] = []
        self.posts: list[Post] = []
        self.sent: list[Sent] = []
        self.orders: list[Ordered] = []
        self.held: list[Held] = []
        self.stays: list[Stay] = []
        self.lists: dict[type[Thing], list[Any]] = {
            Stood: self.stood, Round: self.rounds, Post: self.posts, Sent: self.sent, Ordered: self.orders, Held: self.held, Stay: self.stays,
        }
        self.count = 0

    @property
    def last(self) -> int:
        """The end, once the schedule has told it."""
        assert self.end is not None
        return self.end

    def is_within(self, begin: int, end: int) -> bool:
        return end >= self.begin and (self.end is None or begin <= self.end)

    def add(self, thing: Thing) -> None:
        self.lists[type(thing)].append(thing)
        self.count += 1

    def clear(self) -> None:
        for things in self.lists.values():
            things.clear()


def others_on(core: int) -> str:
    """The name under which the threads of a core that were not asked for are counted. No thread has a space in its name."""
    return f'core {core}'


class Columns:
    """Shares of time by columns of equal width over a window; while its end is open, the width doubles as the schedule goes on."""

    def __init__(self, threads: Iterable[str], begin: int, end: Optional[int]) -> None:
        self.begin, self.is_open = begin, end is None
        names = list(threads)
        columns = max(LEAST_COLUMNS, min(COLUMNS, CELLS // max(1, len(names) * (LOSSES + 1)))) // 2 * 2
        self.width = 1 if end is None else max(1, -(-(end - begin) // columns))
        self.many = 2 * columns if end is None else -(-max(1, end - begin) // self.width)
        self.cells = {name: [[0] * self.many for _ in range(LOSSES + 1)] for name in names}

    def widen(self, moment: int) -> None:
        """Makes room for a moment, where the end is open."""
        while self.is_open and moment - self.begin >= self.many * self.width:
            for counts in self.cells.values():
                for cells in counts:
                    half = [one + two for one, two in zip(cells[::2], cells[1::2])]
                    cells[:] = half + [0] * (self.many - len(half))
            self.width *= 2

    def add_ticks(self, name: str, standing: int, begin: int, end: int) -> None:
        if self.is_open:
            self.widen(end - 1)
        cells, width = self.cells[name][standing], self.width
        first, last = (begin - self.begin) // width, (end - 1 - self.begin) // width
        if first == last:
            cells[first] += end - begin
            return
        cells[first] += (first + 1) * width - (begin - self.begin)
        if last > first + 1:
            cells[first + 1:last] = [width] * (last - first - 1)
        cells[last] += end - self.begin - last * width

    def add_one(self, name: str, what: int, moment: int) -> None:
        if self.is_open:
            self.widen(moment)
        self.cells[name][what][min((moment - self.begin) // self.width, self.many - 1)] += 1


class Shown(Tally):
    """Listens to a whole schedule: counts all of it, and keeps what is to be drawn of a window, for the threads that have lanes."""

    def __init__(self, system: System, threads: Collection[str], begin: int, end: Optional[int], most: int, plotted: Collection[str]) -> None:
        super().__init__(system)
        self.threads, self.most = threads, most
        # of the other threads on these cores a picture shows that they run
        self.cores = {system.threads[name].core for name in threads}
        self.scene = Scene(threads, begin, end)
        self.columns = Columns([*threads, *map(others_on, sorted(self.cores))], begin, end)
        self.is_single = True
        self.hears_holdings = plotted
        # for columns too, in which an open round shows nothing else
        self.overdue: list[Round] = []
        self.last_held: dict[str, Held] = {}

    def keep(self, begin: int, end: int, thing: Thing) -> None:
        """A thing from one moment to another, both within reach of it."""
        if self.is_single and self.scene.is_within(begin, end):
            self.scene.add(thing)
            if self.scene.count > self.most:
                self.is_single = False
                self.hears_holdings = ()
                self.scene.clear()

    def stood(self, stood: Stood) -> None:
        super().stood(stood)
        thread, standing, begin, end, _ = stood
        name = thread.name
        if name not in self.threads:
            if standing != RUNNING or thread.core not in self.cores:
                return
            name = others_on(thread.core)
        if standing != PENDING and standing != DONE:
            self.keep(begin, end, stood)
        begin = max(begin, self.scene.begin)
        end = end if self.scene.end is None else min(end, self.scene.end)
        if begin < end:
            self.columns.add_ticks(name, standing, begin, end)

    def round_ended(self, ended: Round) -> None:
        thread, _, activated, _, end = ended
        if thread.name in self.threads:
            self.keep(activated, max(end, activated + thread.deadline), ended)
            if self.scene.is_within(end, end):
                self.columns.add_one(thread.name, ROUNDS, end)
                if 0 < thread.deadline < end - activated:
                    self.columns.add_one(thread.name, MISSED, end)
        super().round_ended(ended)

    def round_open(self, open_round: Round) -> None:
        if open_round.thread.name in self.threads:
            self.keep(open_round.activated, max(open_round.end, open_round.due), open_round)
            if open_round.is_overdue:
                self.overdue.append(open_round)
        super().round_open(open_round)

    def posted(self, post: Post) -> None:
        if post.maker and post.maker.name in self.threads or post.thread and post.thread.name in self.threads:
            self.keep(post.made, post.arrived, post)
            if post.outcome == LOST and post.thread and post.thread.name in self.threads and self.scene.is_within(post.arrived, post.arrived):
                self.columns.add_one(post.thread.name, LOSSES, post.arrived)
        super().posted(post)

    def under_way(self, note: str, signal: UnderWay) -> None:
        if signal.maker and signal.maker.name in self.threads:
            self.keep(signal.made, signal.made, Sent(note, signal))

    def in_server(self, server: str, thread: Thread, begin: int, end: int) -> None:
        if thread.core in self.cores:
            self.keep(begin, end, Stay(server, thread, begin, end, True))

    def at_server(self, server: str, thread: Thread, begin: int, end: int) -> None:
        if thread.core in self.cores:
            self.keep(begin, end, Stay(server, thread, begin, end, False))

    def ordered(self, context: Context, moment: int) -> None:
        if self.scene.is_within(moment, moment) and len(self.scene.orders) < ORDERS:
            self.scene.orders.append(Ordered(context, moment))

    def holds(self, holding: Holding) -> None:
        self.end_held(holding.thread, holding.moment)
        refills = [(date, amount) for date, amount in holding.refills]
        self.last_held[holding.thread.name] = Held(holding.thread, refills, holding.moment, holding.moment, holding.is_used)

    def end_held(self, thread: Thread, moment: int) -> None:
        was = self.last_held.pop(thread.name, None)
        if was and was.begin < moment and self.scene.is_within(was.begin, moment):
            self.scene.held.append(was._replace(end=moment))

    def close(self, reading: Reading, end: Optional[int]) -> None:
        """Ends what is open; the window ends at `end`, or with the schedule."""
        for name in list(self.last_held):
            self.end_held(self.system.threads[name], reading.end)
        if self.scene.end is None:
            self.scene.end = max(reading.end if end is None else end, self.scene.begin + 1)
