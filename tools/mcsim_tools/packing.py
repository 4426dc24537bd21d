"""What a page holds of a schedule: how threads stood, rounds, signals, servers and budgets, in a window of time, as arrays of numbers.

An array is packed byte by byte: the lowest bytes of all its numbers, then the next ones, as many as its greatest number has. All arrays together are
compressed, and written in letters (base64). The browser reads them with what it has. If a schedule has more than a page may hold, single things end at
some time, and from there on the page has shares of time by columns."""
from __future__ import annotations

import array
import base64
import sys
import zlib
from collections.abc import Collection, Iterable
from typing import Optional

from .chains import Answer
from .locks import locks_of
from .reading import BLOCKED, HELD, LOST, MERGED, READY, RUNNING, THROTTLED, WOKE, Holding, Post, Reading, Round, Stood, UnderWay
from .scene import LOSSES, MISSED, ROUNDS, Columns
from .system import Context, System, Thread
from .tally import Finding, Tally

# things that a page holds at most, which take some 4 bytes each, so that it has less than 10 MB; and states of budgets, which end then
MOST, MOST_HELD = 1_600_000, 400_000
# findings that a page lists, and answers of chains that came too late
LISTED, LISTED_SLOW = 20_000, 2_000
ORDERS = 2000
WHYS = ('', 'spent', 'yield', 'wait', 'call', 'done', 'preempt', 'order', 'wake')
OUTCOMES = (WOKE, HELD, MERGED, LOST)
# what columns count, in the order of their arrays
COUNTED = {'Run': RUNNING, 'Ready': READY, 'Throttled': THROTTLED, 'Blocked': BLOCKED, 'Rounds': ROUNDS, 'Missed': MISSED, 'Losses': LOSSES}


class Packed(Tally):
    """Listens to a whole schedule: counts all of it, and keeps what a page shows of a window."""

    hears_chains = True

    def __init__(self, system: System, begin: int, end: Optional[int], most: int = MOST, budgets: Collection[str] = ()) -> None:
        super().__init__(system)
        self.begin, self.last, self.most = begin, end, most
        self.threads = [thread for own in system.by_core().values() for thread in own]
        self.place = places([thread.name for thread in self.threads])
        self.notes, self.sources, self.servers = list(system.home_of), list(system.sources), sorted(system.servers)
        self.note_place, self.source_place = places(self.notes), places(self.sources)
        self.segments: list[list[int]] = [[] for _ in self.threads]
        self.rounds: list[list[int]] = [[] for _ in self.threads]
        self.posts: list[int] = []
        # of each state of a budget the time since the one before, its length, whether it is used, and how many refills; and the refills
        self.held: list[array.array[int]] = [array.array('Q') for _ in self.threads]
        self.refills: list[array.array[int]] = [array.array('Q') for _ in self.threads]
        self.held_until = [0] * len(self.threads)
        self.held_end: Optional[int] = None
        self.open_held: dict[str, Holding] = {}
        self.served: dict[str, list[int]] = {name: [] for name in self.servers}
        self.queued: dict[str, list[int]] = {name: [] for name in self.servers}
        self.open_rounds: list[Round] = []
        self.chains = list(system.chains.values())
        self.chain_place = places(system.chains)
        # of each chain its answers in order, with how many pieces each has, and the pieces
        self.ways: list[list[int]] = [[] for _ in self.chains]
        self.legs: list[list[int]] = [[] for _ in self.chains]
        self.slow: list[Answer] = []
        self.sent: list[tuple[str, UnderWay]] = []
        self.orders: list[tuple[Context, int]] = []
        self.count = self.held_count = 0
        # the time at which single things end, and shares by columns begin
        self.detail: Optional[int] = None
        self.columns: Optional[Columns] = None
        # all budgets, or those that are asked for
        self.hears_holdings: Collection[str] = frozenset(budgets or (thread.name for thread in self.threads if not thread.context.is_round_robin))

    # ---- what a reading says

    def find(self, finding: Finding) -> None:
        self.found[finding.kind] += 1
        if len(self.findings) < LISTED:
            self.findings.append(finding)

    def stood(self, stood: Stood) -> None:
        super().stood(stood)
        thread, standing, begin, end, why = stood
        begin, end = max(begin, self.begin), end if self.last is None else min(end, self.last)
        if begin >= end:
            return
        single = end if self.detail is None else min(end, self.detail)
        if begin < single:
            self.segments[self.place[thread.name]] += (single - begin, standing + 8 * WHYS.index(why))
            self.count += 1
        if self.columns and (first := max(begin, self.columns.begin)) < end:
            self.columns.add_ticks(thread.name, standing, first, end)
        elif not self.columns and self.count > self.most and (self.last is None or end < self.last):
            self.end_detail(end)

    def end_detail(self, moment: int) -> None:
        """From this time on there are columns. What a thread does across it is divided when it is told."""
        self.detail = moment
        self.end_budgets(moment)
        self.columns = Columns(self.place, moment, self.last)

    def is_seen(self, begin: int, end: int) -> bool:
        return end >= self.begin and (self.last is None or begin <= self.last)

    def round_ended(self, ended: Round) -> None:
        thread, number, activated, begun, end = ended
        if self.is_seen(activated, max(end, ended.due)):
            if self.columns and self.is_seen(end, end):
                self.columns.add_one(thread.name, ROUNDS, end)
                if ended.is_missed:
                    self.columns.add_one(thread.name, MISSED, end)
            elif not self.columns:
                self.rounds[self.place[thread.name]] += (number, end, end - activated, end - begun)
                self.count += 1
        super().round_ended(ended)

    def round_open(self, open_round: Round) -> None:
        self.open_rounds.append(open_round)
        super().round_open(open_round)

    def posted(self, post: Post) -> None:
        super().posted(post)
        if not self.is_seen(post.made, post.arrived):
            return
        if self.columns:
            if post.outcome == LOST and post.thread and self.is_seen(post.arrived, post.arrived):
                self.columns.add_one(post.thread.name, LOSSES, post.arrived)
            return
        self.posts += (
            post.arrived, post.arrived - post.made, self.number(post.maker), self.number(post.thread), self.note_place[post.note], post.badge,
            OUTCOMES.index(post.outcome), self.source_place[post.source] + 1 if post.source else 0, post.core,
        )
        self.count += 1

    def number(self, thread: Optional[Thread]) -> int:
        """The number of a thread from 1; 0 for none."""
        return self.place[thread.name] + 1 if thread else 0

    def under_way(self, note: str, signal: UnderWay) -> None:
        if signal.maker and self.is_seen(signal.made, signal.made):
            self.sent.append((note, signal))

    def answered(self, answer: Answer) -> None:
        if answer.is_first and answer.is_slow and len(self.slow) < LISTED_SLOW:
            self.slow.append(answer)
        if self.columns or not self.is_seen(answer.origin, answer.moment):
            return
        place = self.chain_place[answer.chain.name]
        self.ways[place] += (answer.moment, answer.latency, len(answer.way))
        for hop in answer.way:
            made, arrived = hop.brought.made, hop.brought.arrived
            self.legs[place] += (made - answer.origin, arrived - made, hop.taken - arrived, self.place[hop.thread.name], self.note_place[hop.note])
        self.count += 1 + len(answer.way)

    def ordered(self, context: Context, moment: int) -> None:
        if self.is_seen(moment, moment) and len(self.orders) < ORDERS:
            self.orders.append((context, moment))

    def in_server(self, server: str, thread: Thread, begin: int, end: int) -> None:
        if self.is_seen(begin, end) and not self.columns:
            self.served[server] += (begin, end, self.place[thread.name])

    def at_server(self, server: str, thread: Thread, begin: int, end: int) -> None:
        if self.is_seen(begin, end) and not self.columns:
            self.queued[server] += (begin, end, self.place[thread.name])

    def holds(self, holding: Holding) -> None:
        self.end_held(holding.thread.name, holding.moment)
        self.open_held[holding.thread.name] = holding._replace(refills=[list(refill) for refill in holding.refills])

    def end_held(self, name: str, moment: int) -> None:
        was = self.open_held.pop(name, None)
        if was and was.moment < moment and self.is_seen(was.moment, moment):
            place = self.place[name]
            self.held[place].extend((was.moment - self.held_until[place], moment - was.moment, was.is_used, len(was.refills)))
            self.held_until[place] = moment
            for date, amount in was.refills:
                self.refills[place].extend((max(0, date - was.moment), amount))
            self.held_count += 1
            if self.held_count == MOST_HELD:
                self.held_end = moment
                self.end_budgets(moment)

    def end_budgets(self, moment: int) -> None:
        """From this time on no budget is followed."""
        for name in list(self.open_held) if self.hears_holdings else ():
            self.end_held(name, moment)
        self.open_held.clear()
        self.hears_holdings = ()

    def close(self, reading: Reading, end: Optional[int]) -> None:
        """Ends what is open; the window ends at `end`, or with the schedule."""
        if self.last is None:
            self.last = max(reading.end if end is None else end, self.begin + 1)
        self.end_budgets(reading.end)

    @property
    def end(self) -> int:
        """The end of the window, once the schedule has told it."""
        assert self.last is not None
        return self.last

    def server_cores(self) -> list[int]:
        """The core of each server, which is that of whoever was inside; -1 if nobody was."""
        return [self.threads[own[2]].core if own else -1 for own in self.served.values()]

    def locks(self) -> list[int]:
        """The numbers of the notifications that are used as locks."""
        makers = [None, *self.threads]
        found = locks_of((self.notes[note], makers[maker]) for note, maker in zip(self.posts[4::9], self.posts[2::9]))
        return sorted(self.note_place[note] for note in found)

    # ---- the arrays

    def arrays(self) -> Iterable[tuple[str, list[int]]]:
        """The arrays with their names. Times are written as what passed since the one before."""
        yield 'segCount', [len(own) // 2 for own in self.segments]
        yield from columns_of('seg', ('Length', 'Code'), flat(self.segments))
        yield 'roundCount', [len(own) // 4 for own in self.rounds]
        numbers: list[list[int]] = [[], [], [], []]
        for own in self.rounds:
            for values, kept in zip((steps(own[0::4]), steps(own[1::4]), own[2::4], own[3::4]), numbers):
                kept += values
        yield from zip(('roundNumber', 'roundEnd', 'roundResponse', 'roundTook'), numbers)
        fields = [self.posts[place::9] for place in range(9)]
        yield from zip(('postAt', 'postWay', 'postMaker', 'postTo', 'postNote', 'postBadge', 'postOutcome', 'postSource', 'postCore'), [steps(fields[0]), *fields[1:]])
        yield 'heldCount', [len(own) // 4 for own in self.held]
        yield from columns_of('held', ('Gap', 'Length', 'Used', 'Many'), flat(self.held))
        yield 'refillCount', [len(own) // 2 for own in self.refills]
        yield from columns_of('refill', ('Date', 'Amount'), flat(self.refills))
        for what, of_servers in (('served', self.served), ('queued', self.queued)):
            yield f'{what}Count', [len(own) // 3 for own in of_servers.values()]
            yield from columns_of(what, ('Begin', 'End', 'Thread'), flat(of_servers.values()))
        yield 'wayCount', [len(own) // 3 for own in self.ways]
        yield 'wayEnd', flat(steps(own[::3]) for own in self.ways)
        yield from zip(('wayLatency', 'wayLegs'), (flat(own[place::3] for own in self.ways) for place in (1, 2)))
        yield from columns_of('leg', ('Made', 'Arrived', 'Taken', 'Thread', 'Note'), flat(self.legs))
        if self.columns:
            cells = self.columns.cells
            for what, counts in COUNTED.items():
                yield f'column{what}', flat(cells[thread.name][counts] for thread in self.threads)

    def text(self) -> tuple[str, list[tuple[str, int, int]]]:
        """The arrays in letters, and the name of each with how many numbers it has, and how many bytes a number."""
        data, parts = [], []
        for name, numbers in self.arrays():
            packed, wide = packed_bytes(numbers)
            data.append(packed)
            parts.append((name, len(numbers), wide))
        return base64.b64encode(zlib.compress(b''.join(data), 6)).decode(), parts


def places(names: Iterable[str]) -> dict[str, int]:
    return {name: place for place, name in enumerate(names)}


def flat(lists: Iterable[Iterable[int]]) -> list[int]:
    found: list[int] = []
    for one in lists:
        found += one
    return found


def columns_of(name: str, fields: tuple[str, ...], numbers: list[int]) -> Iterable[tuple[str, list[int]]]:
    return [(name + field, numbers[place::len(fields)]) for place, field in enumerate(fields)]


def steps(numbers: list[int]) -> list[int]:
    """From each number to the next; they never fall."""
    return [after - before for before, after in zip([0, *numbers], numbers)]


def packed_bytes(numbers: list[int]) -> tuple[bytes, int]:
    """The bytes of numbers from 0 to 2^63, the lowest byte of each first; and how many bytes each has."""
    whole = array.array('Q', numbers)
    if sys.byteorder == 'big':
        whole.byteswap()
    data, wide = whole.tobytes(), max(1, (max(numbers, default=0).bit_length() + 7) // 8)
    return b''.join(data[place::8] for place in range(wide)), wide
