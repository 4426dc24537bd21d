"""At which step of its script a thread is, told by its rows.

A call becomes the step at which the thread enters the server, the steps of the server's items for the call's badge, and the step at which it leaves.
Steps that give no row, such as a computation, are left out here. A step lies in the handler of the last `on` before it in the thread's own script, and
is passed over if the handler's badges and the word of the round have no bit in common."""
from __future__ import annotations

from collections.abc import Iterable, Iterator, Mapping, Sequence
from typing import NamedTuple, Optional

from .system import Item, Thread, items_for

SIGNAL, WAIT, ENTER, LEAVE = 'signal', 'wait', 'enter', 'leave'


class Step(NamedTuple):
    """A step that gives a row: what it does, with which notification or server, and the badges of the handler in which it lies."""

    kind: str
    name: str
    handler: Optional[int] = None

    def is_passed_over(self, word: int) -> bool:
        return self.handler is not None and not self.handler & word


class Scripts:
    """The steps of scripts, with those of the servers that they call."""

    def __init__(self, servers: Mapping[str, Sequence[Item]]) -> None:
        self.servers = servers
        self.known: dict[tuple[str, int], list[Step]] = {}

    def of(self, thread: Thread) -> list[Step]:
        found: list[Step] = []
        handler = None
        for item in thread.script:
            if item[0] == 'on':
                handler = int(item[1])
            else:
                found += (step._replace(handler=handler) for step in self.of_items([item]))
        return found

    def of_items(self, items: Iterable[Item]) -> Iterator[Step]:
        for item in items:
            if item[0] == 'call':
                yield Step(ENTER, item[1])
                yield from self.of_call(item[1], int(item[2]))
                yield Step(LEAVE, item[1])
            elif item[0] in (SIGNAL, WAIT):
                yield Step(item[0], item[1])

    def of_call(self, server: str, badge: int) -> list[Step]:
        key = server, badge
        if key not in self.known:
            self.known[key] = list(self.of_items(items_for(self.servers[server], badge)))
        return self.known[key]


class Place:
    """At which step a thread is: the last one that gave a row; and the word of its round, as the row gave it."""

    __slots__ = ('thread', 'steps', 'at', 'word')

    def __init__(self, thread: Thread, scripts: Scripts) -> None:
        self.thread, self.steps = thread, scripts.of(thread)
        self.begin()

    def begin(self) -> None:
        """A round begins."""
        self.at, self.word = -1, 0

    def next(self) -> Step:
        """The next step that gives a row. A ValueError if no further one does before the end of the round."""
        return self.steps[self.next_at()]

    def next_at(self) -> int:
        for at in range(self.at + 1, len(self.steps)):
            if not self.steps[at].is_passed_over(self.word):
                return at
        raise ValueError

    def advance(self, kind: str, name: str) -> Step:
        """Goes to the step that gave a row. A ValueError if the script has another one there."""
        at = self.next_at()
        step = self.steps[at]
        if step[:2] != (kind, name):
            raise ValueError
        self.at = at
        return step

    def take(self, note: str, word: int) -> Optional[Step]:
        """A wait gives a word. None if it is the script's first item; if it leaves nothing to do, the thread is at that wait again."""
        is_first = self.at < 0 and self.thread.activated_by is not None
        step = self.advance(WAIT, note)
        if not is_first:
            return step
        if self.thread.has_work_for(word):
            self.word = word
        else:
            self.begin()
        return None
