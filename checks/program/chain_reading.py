"""What the rows of a schedule say of the chains of a system, read a second time: from the file and the rows that mcsim writes.

It follows the rules in crates/mcs_chain/README.md with sets of moments, one for each bit of a word. A set keeps an origin that has an answer; only its first
answer counts."""
from __future__ import annotations

import collections
import dataclasses
from collections.abc import Iterator, Sequence
from typing import Any, NamedTuple, Optional

from checks.program.reading import Scripts, Tables, has_work, rows_of, scripts_of

Origins = set[int]
# the origins at each bit of a word
ByBit = dict[int, Origins]
BITS = 32


class Step(NamedTuple):
    """A step that makes a row of its own in which something is posted or taken, and the badges of the handler in which it lies, if it lies in one."""

    kind: str
    handler: Optional[int]
    is_first: bool


class Answer(NamedTuple):
    """The first answer for an origin: the round that ends at this moment on this core."""

    moment: int
    core: int
    origin: int
    number: int

    @property
    def latency(self) -> int:
        return self.moment - self.origin


def bits_of(word: int) -> list[int]:
    return [bit for bit in range(BITS) if word >> bit & 1]


def steps_of_call(servers: Scripts, server: str, badge: int, handler: Optional[int]) -> Iterator[Step]:
    """The steps of a call: the server is entered, its own steps for the badge follow, and it is left."""
    yield Step('enter', handler, False)
    taken = True
    for word, *rest in map(str.split, servers[server]):
        if word == 'on':
            taken = bool(int(rest[0]) & badge)
        elif taken and word == 'call':
            yield from steps_of_call(servers, rest[0], int(rest[1]), handler)
        elif taken and word in ('signal', 'wait'):
            yield Step(word, handler, False)
    yield Step('leave', handler, False)


def steps_of(servers: Scripts, script: Sequence[str]) -> Iterator[Step]:
    handler: Optional[int] = None
    for number, (word, *rest) in enumerate(map(str.split, script)):
        if word == 'on':
            handler = int(rest[0])
        elif word == 'call':
            yield from steps_of_call(servers, rest[0], int(rest[1]), handler)
        elif word in ('signal', 'wait'):
            yield Step(word, handler, number == 0)


@dataclasses.dataclass
class Thread:
    """A thread on its way through its steps: how many are behind it, its round's word, and what it carries."""

    script: Sequence[str]
    steps: Sequence[Step]
    behind: int = 0
    word: int = 0
    bits: ByBit = dataclasses.field(default_factory=lambda: collections.defaultdict(set))
    free: Origins = dataclasses.field(default_factory=set)

    def next_step(self, kind: str) -> Step:
        """The step of this kind that the thread has just taken; it stays at its first wait if there is nothing to do for the word."""
        while self.behind < len(self.steps):
            step = self.steps[self.behind]
            self.behind += 1
            if step.handler is None or step.handler & self.word:
                assert step.kind == kind, (step, kind)
                return step
        assert self.steps[0].is_first and kind == 'wait', kind
        self.behind = 1
        return self.steps[0]

    def gives(self, step: Step) -> Origins:
        bits = range(BITS) if step.handler is None else bits_of(step.handler)
        return self.free.union(*(self.bits[bit] for bit in bits))

    def takes(self, step: Step, word: int, given: ByBit) -> None:
        """Takes what a wait gives with this word."""
        if step.is_first:
            self.word = word
            for bit, origins in given.items():
                self.bits[bit] |= origins
            for bit in bits_of(word):
                if not has_work(self.script, 1 << bit):
                    self.bits[bit] = set()
            return
        origins = set().union(*given.values())
        if step.handler is None:
            self.free |= origins
        else:
            for bit in bits_of(step.handler & self.word):
                self.bits[bit] |= origins

    def answers(self, badges: int) -> Origins:
        """The origins of which a round that ends is an answer, if a chain has these badges."""
        if badges and not badges & self.word:
            return set()
        return self.free.union(*(self.bits[bit] for bit in (bits_of(badges) if badges else range(BITS))))

    def begins(self) -> None:
        self.behind, self.word, self.free = 0, 0, set()
        self.bits.clear()


class ChainReading:
    """A chain, by the rows of a schedule from its first one on."""

    def __init__(self, tables: Tables, chain: dict[str, Any]) -> None:
        self.chain = chain
        servers = scripts_of(tables)
        self.core_of = {note['name']: note['core'] for note in tables.get('note', [])}
        self.threads = {
            thread['name']: Thread(thread['script'], list(steps_of(servers, thread['script']))) for thread in tables.get('thread', [])
        }
        self.held: dict[str, ByBit] = {name: collections.defaultdict(set) for name in self.core_of}
        # for each core that makes signals and each core to which they go what they carry, in the order in which they were made
        self.under_way: dict[tuple[int, int], collections.deque[Origins]] = collections.defaultdict(collections.deque)
        self.post: tuple[int, Origins] = (0, set())
        self.interrupts: list[int] = []
        self.answers: list[Answer] = []

    @property
    def unanswered(self) -> list[int]:
        answered = {answer.origin for answer in self.answers}
        return [origin for origin in self.interrupts if origin not in answered]

    def posted(self) -> ByBit:
        badge, origins = self.post
        return {bit: set(origins) for bit in bits_of(badge)}

    def interrupt(self, moment: int, source: str, badge: int) -> None:
        is_origin = source == self.chain['source']
        self.post = (badge, {moment} if is_origin else set())
        if is_origin:
            self.interrupts.append(moment)

    def signal(self, core: int, thread: Thread, note: str, badge: int) -> None:
        given = thread.gives(thread.next_step('signal'))
        if self.core_of[note] == core:
            self.post = (badge, given)
        else:
            self.under_way[core, self.core_of[note]].append(given)

    def end(self, moment: int, core: int, name: str, number: int) -> None:
        thread = self.threads[name]
        if name == self.chain['thread']:
            first = thread.answers(self.chain.get('badges', 0)).intersection(self.unanswered)
            self.answers += [Answer(moment, core, origin, number) for origin in sorted(first)]
        thread.begins()

    def see(self, moment: int, core: int, what: Sequence[str]) -> None:
        """Takes one row more."""
        if what[0] == 'interrupt':
            self.interrupt(moment, what[1], int(what[3]))
        elif what[0] == 'signal':
            self.signal(core, self.threads[what[1]], what[2], int(what[3]))
        elif what[0] == 'arrive':
            self.post = (int(what[2]), self.under_way[int(what[4]), core].popleft())
        elif what[0] == 'hold':
            for bit, origins in self.posted().items():
                self.held[what[1]][bit] |= origins
        elif what[0] in ('wake', 'got'):
            thread = self.threads[what[1]]
            given = self.posted() if what[0] == 'wake' else self.held[what[2]]
            thread.takes(thread.next_step('wait'), int(what[3]), given)
            if what[0] == 'got':
                self.held[what[2]] = collections.defaultdict(set)
        elif what[0] in ('enter', 'leave'):
            self.threads[what[1]].next_step(what[0])
        elif what[0] == 'round':
            self.end(moment, core, what[1], int(what[2]))

    def slow(self) -> list[str]:
        """The lines of the answers that come too late, each with the earliest origin of its row."""
        deadline = self.chain.get('deadline', 0)
        first: dict[tuple[int, int, int], Answer] = {}
        for answer in self.answers:
            if deadline and answer.latency > deadline:
                first.setdefault((answer.moment, answer.core, answer.number), answer)
        return [
            f'{answer.moment} {answer.core} slow {self.chain["name"]} latency {answer.latency} deadline {deadline} origin {answer.origin}'
            for answer in first.values()
        ]

    def left(self, horizon: int) -> Optional[str]:
        """The line of the earliest origin without an answer, if its deadline has passed."""
        deadline = self.chain.get('deadline', 0)
        if deadline and self.unanswered and self.unanswered[0] <= horizon - deadline:
            return f'unanswered {self.chain["name"]} deadline {deadline} origin {self.unanswered[0]}'
        return None


def read_chain(tables: Tables, chain: dict[str, Any], text: str) -> ChainReading:
    """The chain, by all rows of a schedule, as mcsim writes them."""
    reading = ChainReading(tables, chain)
    for row in rows_of(text):
        reading.see(row.moment, row.core, row.what)
    return reading
