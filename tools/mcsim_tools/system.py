"""What the tools need of a system's file. The program is what tests a file; this reads one that it accepts, and refuses what no tool could draw."""
from __future__ import annotations

import contextlib
import pathlib
import re
import sys
from collections.abc import Iterable, Iterator, Mapping, Sequence
from dataclasses import dataclass, field
from typing import IO, Any, Optional

from . import tables
from .faults import Fault, why
from .options import STANDARD_INPUT

LONGEST = 2**26
GREATEST = 2**40
GREATEST_WORD = 2**32 - 1
# the version of files with handlers, servers and sources, in which contexts are in bandwidth mode unless they say otherwise
VERSION_3 = 3
NAME = re.compile(r'[A-Za-z0-9_-]{1,32}')
Tables = Mapping[str, Any]
# an item of a script: its word and the parts behind it
Item = Sequence[str]


@dataclass(frozen=True)
class Context:
    """A scheduling context as the file has it."""

    name: str
    core: int
    budget: int
    period: int
    extra_refills: int
    is_bandwidth: bool

    @property
    def is_round_robin(self) -> bool:
        return self.budget == self.period


@dataclass(frozen=True)
class Order:
    """An order of SchedControl: from its moment on the context has this configuration."""

    at: int
    budget: int
    period: int
    extra_refills: int


@dataclass(frozen=True, eq=False)
class Thread:
    """A thread, with what its script says of waiting, in the servers that it calls too."""

    number: int
    name: str
    context: Context
    priority: int
    start: int
    deadline: int
    waits: tuple[str, ...]
    # the notification whose word activates a round, where the script begins with a wait
    activated_by: Optional[str]
    # the bits of which such a word has to have one, where nothing but handlers follows that wait; None: each word will do
    bits: Optional[int] = None
    script: Sequence[Item] = ()
    # whether no other wait, here or in a server that it calls, is for that notification
    waits_alone: bool = True

    @property
    def core(self) -> int:
        return self.context.core

    def has_work_for(self, word: int) -> bool:
        """Whether a word leaves the thread something to do when its script's first wait gives it."""
        return has_one_of(word, self.bits)


def has_one_of(word: int, bits: Optional[int]) -> bool:
    """Whether a word has one of these bits, or any where all will do."""
    return word != 0 if bits is None else word & bits != 0


@dataclass(frozen=True)
class Chain:
    """A way from the interrupts of a source to the rounds of a thread that answer them; no badges and no deadline are 0."""

    name: str
    source: str
    thread: str
    badges: int
    deadline: int

    def is_answered_by(self, word: int) -> bool:
        """Whether a round of the thread with this word answers."""
        return not self.badges or self.badges & word != 0


@dataclass(frozen=True)
class System:
    """A system: its parts by name, each in the order of the file."""

    cores: int
    min_budget: int
    contexts: dict[str, Context]
    home_of: dict[str, int]
    threads: dict[str, Thread]
    # for each context its orders as they will be applied: by moment, within one moment as in the file
    orders: dict[str, list[Order]]
    # the word that each notification holds at first
    words: dict[str, int] = field(default_factory=dict)
    # the script of each server, and for each source the notification that it signals
    servers: Mapping[str, Sequence[Item]] = field(default_factory=dict)
    sources: dict[str, str] = field(default_factory=dict)
    chains: dict[str, Chain] = field(default_factory=dict)
    thread_of: dict[str, Thread] = field(init=False)
    waiters: dict[str, list[Thread]] = field(init=False)
    # for each notification the bits that leave something to do to a thread whose script begins with a wait for it
    heard: dict[str, Optional[int]] = field(init=False)
    # the deadlines of notifications that have one: the greatest of those that may take its word, where each begins with it a round that has one
    due: dict[str, int] = field(init=False)

    def __post_init__(self) -> None:
        waiters: dict[str, list[Thread]] = {note: [] for note in self.home_of}
        for thread in self.threads.values():
            for note in thread.waits:
                waiters[note].append(thread)
        object.__setattr__(self, 'thread_of', {thread.context.name: thread for thread in self.threads.values()})
        object.__setattr__(self, 'waiters', waiters)
        object.__setattr__(self, 'due', {
            note: max(thread.deadline for thread in own) for note, own in waiters.items() if own and all(begins_due(thread, note) for thread in own)
        })
        object.__setattr__(self, 'heard', {note: bits_of_all([thread for thread in own if thread.activated_by == note]) for note, own in waiters.items()})

    def is_set(self, note: str, word: int) -> bool:
        """Whether a notification's word leaves something to do to a thread whose script begins with a wait for it."""
        return has_one_of(word, self.heard[note])

    def by_core(self) -> dict[int, list[Thread]]:
        """The threads of each core that has some, by priority, so that preemption reads downward."""
        found: dict[int, list[Thread]] = {}
        for thread in sorted(self.threads.values(), key=lambda thread: (thread.core, -thread.priority, thread.number)):
            found.setdefault(thread.core, []).append(thread)
        return found


def begins_due(thread: Thread, note: str) -> bool:
    """Whether a thread begins with any word that it takes of a notification a round that has a deadline."""
    return thread.deadline > 0 and thread.activated_by == note and thread.waits_alone


def bits_of_all(threads: Iterable[Thread]) -> Optional[int]:
    """The bits that leave one of these threads something to do."""
    bits = 0
    for thread in threads:
        if thread.bits is None:
            return None
        bits |= thread.bits
    return bits


def whole(table: Tables, key: str, default: Optional[int] = None, least: int = 0, most: int = GREATEST) -> int:
    """A whole number of a table."""
    value = table[key] if default is None else table.get(key, default)
    if type(value) is not int or not least <= value <= most:
        raise ValueError(f'{key} is no number of {least} to {most}')
    return value


def name_of(table: Tables) -> str:
    name: str = table['name']
    if not NAME.fullmatch(name):
        raise ValueError('a name has 1 to 32 characters of A-Z a-z 0-9 _ -')
    return name


def part_of(parts: Mapping[str, object], name: str) -> str:
    """The name of a part that is there."""
    parts[name]
    return name


def context_of(table: Tables, cores: int, version: object) -> Context:
    period = whole(table, 'period', least=1)
    budget = whole(table, 'budget', least=1, most=period)
    default = 'bandwidth' if version == VERSION_3 and budget < period else 'sporadic'
    is_bandwidth = table.get('mode', default) == 'bandwidth'
    return Context(name_of(table), whole(table, 'core', most=cores - 1), budget, period, whole(table, 'extra_refills', 0), is_bandwidth)


class Waits:
    """The notifications for which scripts wait, in the servers that they call too. A server is called after it was added."""

    def __init__(self) -> None:
        self.scripts: dict[str, list[Item]] = {}
        self.known: dict[tuple[str, int], tuple[str, ...]] = {}

    def of(self, items: Iterable[Item]) -> tuple[str, ...]:
        """The notifications for which these items wait, each once."""
        found: dict[str, None] = {}
        for item in items:
            if item[0] == 'wait':
                found[item[1]] = None
            elif item[0] == 'call':
                found.update(dict.fromkeys(self.in_server(item[1], int(item[2]))))
        return tuple(found)

    def in_server(self, server: str, badge: int) -> tuple[str, ...]:
        key = server, badge
        if key not in self.known:
            self.known[key] = self.of(items_for(self.scripts[server], badge))
        return self.known[key]

    def add(self, server: str, items: list[Item]) -> None:
        # what it calls is looked up now, so that no look-up goes deep
        self.of(items)
        self.scripts[server] = items


def items_for(items: Iterable[Item], badge: int) -> Iterator[Item]:
    """The items of a server's script that are gone through for a call with this badge."""
    is_passed_over = False
    for item in items:
        if item[0] == 'on':
            is_passed_over = not int(item[1]) & badge
        elif not is_passed_over:
            yield item


def bits_of(items: Sequence[Item]) -> Optional[int]:
    """The badges of the handlers behind the first item that have an item, where nothing but handlers stands there; None: something stands before them."""
    rest = items[1:]
    if rest and rest[0][0] != 'on':
        return None
    bits = 0
    for item, following in zip(rest, rest[1:]):
        if item[0] == 'on' and following[0] != 'on':
            bits |= int(item[1])
    return bits


def items_of(table: Tables) -> list[Item]:
    return [item.split() for item in table['script']]


def thread_of(number: int, table: Tables, contexts: Mapping[str, Context], waits: Waits) -> Thread:
    items = items_of(table)
    first = items[0][1] if items[0][0] == 'wait' else None
    start, deadline = whole(table, 'start', 0), whole(table, 'deadline', 0)
    bits = None if first is None else bits_of(items)
    alone = first is None or first not in waits.of(items[1:])
    return Thread(number, name_of(table), contexts[table['context']], whole(table, 'priority'), start, deadline, waits.of(items), first, bits, items, alone)


def chain_of(table: Tables, sources: Mapping[str, object], threads: Mapping[str, object]) -> Chain:
    source, thread = part_of(sources, table['source']), part_of(threads, table['thread'])
    return Chain(name_of(table), source, thread, whole(table, 'badges', 0, most=GREATEST_WORD), whole(table, 'deadline', 0))


def orders_of(tables: Tables, contexts: Mapping[str, Context]) -> dict[str, list[Order]]:
    orders: dict[str, list[Order]] = {name: [] for name in contexts}
    for table in sorted(tables.get('order', []), key=lambda table: whole(table, 'at')):
        period = whole(table, 'period', least=1)
        orders[table['context']].append(Order(table['at'], whole(table, 'budget', least=1, most=period), period, whole(table, 'extra_refills', 0)))
    return orders


def system_of(tables: Tables) -> System:
    cores = whole(tables, 'cores', least=1, most=64)
    contexts = {table['name']: context_of(table, cores, tables.get('version')) for table in tables.get('context', [])}
    waits = Waits()
    for table in tables.get('server', []):
        waits.add(name_of(table), items_of(table))
    threads = [thread_of(number, table, contexts, waits) for number, table in enumerate(tables.get('thread', []))]
    home_of = {name_of(table): whole(table, 'core', most=cores - 1) for table in tables.get('note', [])}
    words = {table['name']: whole(table, 'word', 0, most=GREATEST_WORD) for table in tables.get('note', [])}
    sources = {name_of(table): part_of(home_of, table['note']) for table in tables.get('source', [])}
    by_name = {thread.name: thread for thread in threads}
    chains = {chain.name: chain for chain in (chain_of(table, sources, by_name) for table in tables.get('chain', []))}
    orders = orders_of(tables, contexts)
    return System(cores, whole(tables, 'min_budget', 1), contexts, home_of, by_name, orders, words, waits.scripts, sources, chains)


def opened(path: pathlib.Path) -> contextlib.AbstractContextManager[IO[bytes]]:
    """A file that is read; `-` is standard input, which stays open."""
    if path == STANDARD_INPUT:
        return contextlib.nullcontext(sys.stdin.buffer)
    return path.open('rb')


def read_bytes(path: pathlib.Path) -> bytes:
    """A file's bytes, as many as the program takes."""
    try:
        with opened(path) as file:
            text = file.read(LONGEST + 1)
    except OSError as error:
        raise why(path, error) from None
    if len(text) > LONGEST:
        raise Fault(f'{path}: longer than {LONGEST} bytes')
    return text


def tables_of(path: pathlib.Path, text: bytes) -> tables.Tables:
    """The tables of a file's text."""
    try:
        return tables.read(text)
    except tables.NotTOML as error:
        raise Fault(f'{path}: {error}') from None


def parse(path: pathlib.Path, text: bytes) -> System:
    """The system that a file describes."""
    found = tables_of(path, text)
    try:
        return system_of(found)
    except KeyError as error:
        raise Fault(f'{path}: no system: {error} is missing') from None
    except ValueError as error:
        raise Fault(f'{path}: no system: {error}') from None
    except (AttributeError, IndexError, TypeError):
        raise Fault(f'{path}: no system') from None
