"""The rows of a schedule. Each has its time (`moment`) and its core; docs/FORMAT.md says when each comes."""
from __future__ import annotations

from collections.abc import Callable, Iterator
from dataclasses import dataclass
from typing import Any, Literal, Optional, Union, get_args

Why = Literal['spent', 'yield', 'wait', 'call', 'done', 'preempt', 'order']
WHYS: dict[str, Why] = {why: why for why in get_args(Why)}


@dataclass(frozen=True)
class Release:
    """The thread leaves the release queue: its budget is replenished, or its start has come."""

    moment: int
    core: int
    thread: str


@dataclass(frozen=True)
class Run:
    """The thread is chosen to run."""

    moment: int
    core: int
    thread: str


@dataclass(frozen=True)
class Stop:
    """The thread stops, and is charged. `until` is the time of its next replenishment if it has to wait for that."""

    moment: int
    core: int
    thread: str
    why: Why
    charged: int
    until: Optional[int] = None


@dataclass(frozen=True)
class Signal:
    """The thread's signal takes effect."""

    moment: int
    core: int
    thread: str
    note: str
    badge: int


@dataclass(frozen=True)
class Arrive:
    """A signal that another core made arrives."""

    moment: int
    core: int
    note: str
    badge: int
    maker: int


@dataclass(frozen=True)
class Wake:
    """The thread is woken with this word."""

    moment: int
    core: int
    thread: str
    note: str
    word: int


@dataclass(frozen=True)
class Hold:
    """No thread waits: this is the pending word."""

    moment: int
    core: int
    note: str
    word: int


@dataclass(frozen=True)
class Got:
    """The thread's wait took this word without blocking."""

    moment: int
    core: int
    thread: str
    note: str
    word: int


@dataclass(frozen=True)
class Round:
    """The thread's job of this number, from 1, ended. The response counts from the job's beginning."""

    moment: int
    core: int
    thread: str
    number: int
    response: int


@dataclass(frozen=True)
class Ordered:
    """A reconfiguration of the context is applied (`order`)."""

    moment: int
    core: int
    context: str


@dataclass(frozen=True)
class Interrupt:
    """The source posts this badge."""

    moment: int
    core: int
    source: str
    note: str
    badge: int


@dataclass(frozen=True)
class Enter:
    """The thread enters the server."""

    moment: int
    core: int
    thread: str
    server: str


@dataclass(frozen=True)
class Leave:
    """The thread leaves the server."""

    moment: int
    core: int
    thread: str
    server: str


Row = Union[Release, Run, Stop, Signal, Arrive, Wake, Hold, Got, Round, Ordered, Interrupt, Enter, Leave]
# the row of a line, by its third word; its words are given
READERS: dict[str, Callable[[int, int, list[str]], Row]] = {
    'release': lambda moment, core, words: Release(moment, core, words[3]),
    'run': lambda moment, core, words: Run(moment, core, words[3]),
    'stop': lambda moment, core, words: Stop(moment, core, words[3], WHYS[words[4]], int(words[5]), int(words[7]) if len(words) > 6 else None),
    'signal': lambda moment, core, words: Signal(moment, core, words[3], words[4], int(words[5])),
    'arrive': lambda moment, core, words: Arrive(moment, core, words[3], int(words[4]), int(words[6])),
    'wake': lambda moment, core, words: Wake(moment, core, words[3], words[4], int(words[5])),
    'hold': lambda moment, core, words: Hold(moment, core, words[3], int(words[4])),
    'got': lambda moment, core, words: Got(moment, core, words[3], words[4], int(words[5])),
    'round': lambda moment, core, words: Round(moment, core, words[3], int(words[4]), int(words[5])),
    'order': lambda moment, core, words: Ordered(moment, core, words[3]),
    'interrupt': lambda moment, core, words: Interrupt(moment, core, words[3], words[4], int(words[5])),
    'enter': lambda moment, core, words: Enter(moment, core, words[3], words[4]),
    'leave': lambda moment, core, words: Leave(moment, core, words[3], words[4]),
}


def rows_of(lines: bytes) -> Iterator[Row]:
    """The rows of the lines that the simulator writes, one after another."""
    at = 0
    while at < len(lines):
        end = lines.index(b'\n', at)
        words = lines[at:end].decode().split(' ')
        yield READERS[words[2]](int(words[0]), int(words[1]), words)
        at = end + 1


# the class of a row for each kind of object that mcscheck --why writes
KINDS: dict[str, type[Row]] = {
    'release': Release, 'run': Run, 'stop': Stop, 'signal': Signal, 'arrive': Arrive, 'wake': Wake, 'hold': Hold, 'got': Got, 'round': Round, 'order': Ordered,
    'interrupt': Interrupt, 'enter': Enter, 'leave': Leave,
}


def row_of(kind: str, values: dict[str, Any]) -> Row:
    """The row of an object: its values have the names of the row's fields, but for the core that a signal comes from."""
    return KINDS[kind](**{'maker' if name == 'from' else name: value for name, value in values.items()})
