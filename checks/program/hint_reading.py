"""The hints about badges, calls and chains, found a second time from the file alone: badges that no script takes, servers that are called from above, and
chains that no signal can complete.

It goes through the items that a thread runs, with those of the servers that it calls, and looks at all threads anew for each badge. An interrupt of a chain's
source is followed from bit to bit, on each of its ways alone."""
from __future__ import annotations

from collections.abc import Iterator, Mapping, Sequence
from typing import Any, NamedTuple, Optional

Tables = dict[str, Any]
# a bit of a notification's word
Bit = tuple[str, int]
EVERY = 2**32 - 1
KINDS = ('unawaited', 'unhandled', 'unheard', 'inverted', 'unreached')
# where a thread has what it gave to the whole job
ALL = 'the whole job'


class Call(NamedTuple):
    """A call of a server, with its priority and that of the caller at that place."""

    server: str
    priority: int
    caller: int


class InHandler(NamedTuple):
    """An item that a thread runs, and the badges of the handler in which it lies, if it lies in one."""

    handler: Optional[int]
    words: list[str]


def bits_of(word: int) -> set[int]:
    return {bit for bit in range(32) if word >> bit & 1}


class Uses:
    """How the threads of a system use notifications and servers."""

    def __init__(self, tables: Tables) -> None:
        self.chains: Sequence[Tables] = tables.get('chain', [])
        self.threads: Sequence[Tables] = tables.get('thread', [])
        self.sources: Sequence[Tables] = tables.get('source', [])
        self.servers: Mapping[str, Tables] = {server['name']: server for server in tables.get('server', [])}

    def run(self, script: Sequence[str], priority: int, badge: Optional[int] = None) -> Iterator[tuple[int, list[str]]]:
        """The items of a script that is called with a badge, or of a thread's, each with the priority at which it is run; after a call, those of the server."""
        is_passed_over = False
        for word, *rest in map(str.split, script):
            if word == 'on':
                is_passed_over = badge is not None and not int(rest[0]) & badge
            elif not is_passed_over:
                yield priority, [word, *rest]
                if word == 'call':
                    server = self.servers[rest[0]]
                    yield from self.run(server['script'], server['priority'], int(rest[1]))

    def of_thread(self, thread: Tables) -> list[tuple[int, list[str]]]:
        return list(self.run(thread['script'], thread['priority']))

    def taken_by(self, thread: Tables, note: str) -> int:
        """The badges that a thread takes from a notification."""
        waits = [place for place, (_, item) in enumerate(self.of_thread(thread)) if item == ['wait', note]]
        handlers = [int(item.split()[1]) for item in thread['script'] if item.split()[0] == 'on']
        # an item before all handlers is there for each badge
        has_handlers_alone = len(thread['script']) > 1 and thread['script'][1].split()[0] == 'on'
        badges = 0
        for place in waits:
            for handler in handlers if place == 0 and has_handlers_alone else [EVERY]:
                badges |= handler
        return badges

    def taken(self, note: str) -> int:
        badges = 0
        for thread in self.threads:
            badges |= self.taken_by(thread, note)
        return badges

    def calls(self, thread: Tables) -> Iterator[Call]:
        for caller, (word, *rest) in self.of_thread(thread):
            if word == 'call':
                yield Call(rest[0], self.servers[rest[0]]['priority'], caller)

    def unheard(self, thread: Tables) -> Iterator[tuple[str, int]]:
        """The signals of a thread whose badge nobody takes, though somebody waits there."""
        for _, (word, *rest) in self.of_thread(thread):
            if word == 'signal' and 0 != (badges := self.taken(rest[0])) and not badges & int(rest[1]):
                yield rest[0], int(rest[1])

    def in_handlers(self, thread: Tables) -> Iterator[InHandler]:
        """The items of a thread, those of the servers that it calls behind each call."""
        handler = None
        for item in thread['script']:
            if item.split()[0] == 'on':
                handler = int(item.split()[1])
            else:
                yield from (InHandler(handler, words) for _, words in self.run([item], 0))

    def unreached(self) -> Iterator[str]:
        """The hints of chains."""
        ways = Ways({thread['name']: (thread['script'], list(self.in_handlers(thread))) for thread in self.threads})
        for chain in self.chains:
            source = next(source for source in self.sources if source['name'] == chain['source'])
            if not ways.lead(source, chain['thread'], chain.get('badges', 0)):
                yield f'hint chain {chain["name"]}: no signal leads from {source["name"]} to {chain["thread"]}'

    def hints(self) -> Iterator[str]:
        for source in self.sources:
            name, note, badge = source['name'], source['note'], source['badge']
            badges = self.taken(note)
            if not badges:
                yield f'hint source {name} interrupts on {note} and no script waits on it'
            elif not badges & badge:
                yield f'hint source {name} interrupts on {note} with badge {badge} and no handler takes it'
        for thread in self.threads:
            for note, badge in list(self.unheard(thread))[:1]:
                yield f'hint thread {thread["name"]} signals {note} with badge {badge} and no handler takes it'
        for thread in self.threads:
            for call in [call for call in self.calls(thread) if call.priority <= call.caller][:1]:
                yield f'hint thread {thread["name"]} calls {call.server} of priority {call.priority} at priority {call.caller}'
        yield from self.unreached()


class Ways:
    """The ways that one interrupt can go, from a bit of a word to a thread, and by a signal to another word. `threads` has for each thread its script and
    the items that it runs."""

    def __init__(self, threads: Mapping[str, tuple[Sequence[str], Sequence[InHandler]]]) -> None:
        self.threads = threads

    def has_work(self, thread: str, bit: int) -> bool:
        """Whether this bit alone leaves the thread something to do behind its first item, a wait."""
        handler = None
        for item in self.threads[thread][0][1:]:
            if item.split()[0] == 'on':
                handler = int(item.split()[1])
            elif handler is None or handler >> bit & 1:
                return True
        return False

    def taken(self, thread: str, at: Bit) -> Iterator[tuple[int, set[int | str]]]:
        """Each wait that can take what is at this bit: its number, and where the thread has it then."""
        script, items = self.threads[thread]
        for number, (handler, words) in enumerate(items):
            if words != ['wait', at[0]]:
                continue
            if number == 0 and script[0].startswith('wait '):
                yield number, {at[1]} if self.has_work(thread, at[1]) else set()
            else:
                yield number, {ALL} if handler is None else {*bits_of(handler)}

    def behind(self, at: Bit) -> Iterator[Bit]:
        """Where a signal can take what is at this bit."""
        for thread, (_, items) in self.threads.items():
            for number, places in self.taken(thread, at):
                for handler, words in items[number + 1:]:
                    if words[0] == 'signal' and reach(handler) & places:
                        yield from ((words[1], bit) for bit in bits_of(int(words[2])))

    def lead(self, source: Tables, thread: str, badges: int) -> bool:
        """Whether one leads from an interrupt of the source to the end of a job of the thread that answers it."""
        found: set[Bit] = set()
        left: list[Bit] = [(source['note'], bit) for bit in bits_of(source['badge'])]
        while left:
            if (at := left.pop()) not in found:
                found.add(at)
                left += self.behind(at)
        return any(reach(badges or None) & places for at in found for _, places in self.taken(thread, at))


def reach(badges: Optional[int]) -> set[int | str]:
    """Where what a handler gives is, or what is answered for these badges."""
    return {ALL, *bits_of(EVERY if badges is None else badges)}


def values_of(line: str) -> Optional[dict[str, int | str]]:
    """The values of such a hint, or None if the line is another hint."""
    words = line.split()
    if words[1] == 'chain':
        return {'kind': 'hint', 'hint': 'unreached', 'chain': words[2].removesuffix(':'), 'source': words[7], 'thread': words[9]}
    if words[1] not in ('source', 'thread'):
        return None
    subject: dict[str, int | str] = {words[1]: words[2]}
    if words[3] == 'calls':
        return {'kind': 'hint', 'hint': 'inverted', **subject, 'server': words[4], 'priority': int(words[7]), 'caller': int(words[10])}
    if words[1] == 'source' and words[6:] == ['and', 'no', 'script', 'waits', 'on', 'it']:
        return {'kind': 'hint', 'hint': 'unawaited', **subject, 'note': words[5]}
    kind, note = ('unhandled', words[5]) if words[1] == 'source' else ('unheard', words[4])
    return {'kind': 'hint', 'hint': kind, **subject, 'note': note, 'badge': int(words[words.index('badge') + 1])}
