"""The parts of a system, with the names, ranges and defaults of the tables of a file (docs/FORMAT.md).

A value is not tested here: the simulator tests a whole system, and `Fault` has its line."""
from __future__ import annotations

from collections.abc import Sequence
from dataclasses import dataclass
from typing import Literal, Union


@dataclass(frozen=True)
class Context:
    """A scheduling context: a budget that is replenished after a period. Times are in ticks."""

    name: str
    core: int
    budget: int
    period: int
    extra_refills: int = 0
    mode: Literal['sporadic', 'bandwidth', None] = None


@dataclass(frozen=True)
class Note:
    """A notification, on whose core threads wait for it. `word` is its word at first."""

    name: str
    core: int
    word: int = 0


@dataclass(frozen=True)
class Server:
    """A passive server: it works on its callers' contexts, at its own priority."""

    name: str
    core: int
    priority: int
    script: Sequence[str]


@dataclass(frozen=True)
class Thread:
    """A thread, bound to a context. `rounds` 0 means without end, `deadline` 0 none."""

    name: str
    context: str
    priority: int
    script: Sequence[str]
    start: int = 0
    rounds: int = 0
    deadline: int = 0


@dataclass(frozen=True)
class Source:
    """A device or a timer that interrupts. `count` 0 means without end."""

    name: str
    note: str
    badge: int
    period: int
    start: int = 0
    count: int = 0
    at: Sequence[int] = (0,)


@dataclass(frozen=True)
class Order:
    """A reconfiguration of a context by SchedControl, at a time."""

    at: int
    core: int
    context: str
    budget: int
    period: int
    extra_refills: int = 0


@dataclass(frozen=True)
class Link:
    """The delay of signals from one core to another."""

    maker: int
    home: int
    delay: int


@dataclass(frozen=True)
class Chain:
    """From the interrupts of a source to the jobs of a thread that answer them."""

    name: str
    source: str
    thread: str
    badges: int = 0
    deadline: int = 0


Named = Union[Context, Note, Server, Thread, Source, Chain]
Part = Union[Named, Order, Link]
