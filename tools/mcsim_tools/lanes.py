"""Which lanes a picture has, and where: for each core one, and below it those of its threads by priority, each with its budget where it is plotted."""
from __future__ import annotations

from collections.abc import Collection, Iterable, Mapping, Sequence
from dataclasses import dataclass, field
from typing import Optional

from . import style
from .faults import Fault
from .system import System, Thread
from .tally import Finding

TOP = 62


@dataclass
class Lanes:
    """Places from top to bottom. A thread's is its base line: its bar stands above it."""

    shown: list[Thread] = field(default_factory=list)
    core_at: dict[int, int] = field(default_factory=dict)
    base: dict[str, int] = field(default_factory=dict)
    plot_at: dict[str, int] = field(default_factory=dict)
    server_at: dict[str, int] = field(default_factory=dict)
    colour: dict[str, int] = field(default_factory=dict)
    # of a measured trace: the strip of each core, and that of each thread
    trace_core_at: dict[int, int] = field(default_factory=dict)
    trace_at: dict[str, int] = field(default_factory=dict)
    top: int = TOP
    bottom: int = TOP

    def on(self, core: int) -> list[Thread]:
        return [thread for thread in self.shown if thread.core == core]


def lanes_of(system: System, threads: Collection[str], plotted: Collection[str], servers: Mapping[str, int], has_trace: bool = False) -> Lanes:
    """Returns the places of the lanes of threads, and of servers on these cores; each core and each
    thread has a strip for a trace, if there is one."""
    lanes = Lanes(top=TOP + style.LINE * has_trace)
    at = lanes.top
    for core, own in system.by_core().items():
        here = [thread for thread in own if thread.name in threads]
        if not here:
            continue
        lanes.core_at[core] = at
        if has_trace:
            at += style.CORE + style.BETWEEN
            lanes.trace_core_at[core] = at
        at += style.CORE + 5
        for server, home in servers.items():
            if home == core:
                lanes.server_at[server] = at
                at += style.SERVER
        for thread in here:
            lanes.colour[thread.name] = len(lanes.colour) % style.LOOKS_OF_THREADS
            lanes.base[thread.name] = at + style.HEAD + style.BAR
            at += style.LANE
            if has_trace:
                lanes.trace_at[thread.name] = at
                at += style.TRACE + 7
            if thread.name in plotted:
                lanes.plot_at[thread.name] = at + 1
                at += style.PLOT + 7
        lanes.shown += here
        at += 12
    lanes.bottom = at - 6
    return lanes


@dataclass(frozen=True)
class Choice:
    """The threads that get lanes, and how many of those that were asked for get none."""

    threads: frozenset[str]
    left_out: int

    @classmethod
    def of(cls, asked: Sequence[str], findings: Iterable[Finding], most: int) -> Choice:
        """Chooses among the threads that were asked for. If they are too many, those with findings come first."""
        found = dict.fromkeys(finding.thread.name for finding in findings if finding.thread)
        known = frozenset(asked)
        first = [name for name in found if name in known] if len(asked) > most else []
        ordered = list(dict.fromkeys([*first, *asked]))
        return cls(frozenset(ordered[:most]), len(ordered[most:]))


def names_in(asked: Optional[str]) -> Optional[list[str]]:
    return None if asked is None else [name for name in asked.split(',') if name]


def asked(system: System, threads: Optional[str], cores: Optional[str]) -> list[str]:
    """Returns the threads that may have lanes, core by core. Names and numbers have commas between them; None asks for all."""
    names, numbers = names_in(threads), names_in(cores)
    for name in names or []:
        if name not in system.threads:
            raise Fault(f'there is no thread {name!r}')
    for number in numbers or []:
        if not (number.isascii() and number.isdigit() and int(number) < system.cores):
            raise Fault(f'there is no core {number!r}')
    cores_asked = None if numbers is None else {int(number) for number in numbers}
    return [thread.name for own in system.by_core().values() for thread in own
            if (names is None or thread.name in names) and (cores_asked is None or thread.core in cores_asked)]


FEW = 5


def budgets_asked(system: System, asked: str) -> Collection[str]:
    """The threads whose budgets a page holds whatever they take; all others are held as long as they are few."""
    return () if asked in ('auto', 'none') else choose_budgets(system, asked)


def choose_budgets(system: System, asked: str) -> frozenset[str]:
    """The threads whose budgets are plotted: `all`, `none`, `auto` (all, where they are few), or names with commas between."""
    sporadic = [thread.name for thread in system.threads.values() if not thread.context.is_round_robin]
    if asked in ('all', 'none', 'auto'):
        return frozenset(sporadic if asked == 'all' or asked == 'auto' and len(sporadic) <= FEW else [])
    names = names_in(asked) or []
    for name in names:
        if name not in system.threads:
            raise Fault(f'there is no thread {name!r}')
    return frozenset(names)
