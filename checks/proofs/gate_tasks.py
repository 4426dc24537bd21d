"""The tasks of a run of the gate, for gate.py: what each took, the longest chain of them, and a model of the wall time.

The model: each task occupies one processor for the CPU seconds that it took when it was measured, in the order in which rt begins tasks, and the
runs of tests and programs come at the end, one after another. Memory is left out."""
from __future__ import annotations

import heapq
from collections.abc import Iterable, Sequence
from typing import Any, NamedTuple

from checks.common import TOP

# rt begins these where nothing else is ready
LATE = ('edits', 'seed')


def edits_of(crate: str) -> list[str]:
    """The names of a crate's edits, in the order in which rt numbers them."""
    files = sorted(path.name for path in (TOP / 'crates' / crate / 'must-fail').glob('*.edit'))
    return [name.removesuffix('.edit') for name in files]


class Task(NamedTuple):
    """A task of the gate: which it is, the places of those that it waits for, its work in lines, and its CPU seconds."""

    crate: str
    part: str
    number: int | None
    waits: list[int]
    lines: int
    seconds: float
    began: float
    ended: float

    @property
    def name(self) -> str:
        if self.number is None:
            return f'{self.crate} {self.part}'
        edits = edits_of(self.crate)
        return f'{self.crate}/{edits[self.number]}' if self.number < len(edits) else f'{self.crate} edit {self.number}'


def edits_in(tasks: Iterable[Task]) -> int:
    """How many edits these tasks try. One kind of kits has a task for each edit, and the other a task for all edits of a crate."""
    return sum(len(edits_of(task.crate)) if task.number is None else 1 for task in tasks if task.part == 'edits')


class Measured(NamedTuple):
    """What a run of the gate took: its tasks, the seconds of the runs of tests and programs, and its minutes; and when and how it ran."""

    tasks: list[Task]
    runs: float
    minutes: float
    date: str = ''
    kit: str = ''
    processors: int = 0
    status: int = 0
    tally: str = 'no count'
    said: str = ''

    @property
    def seconds(self) -> float:
        return self.runs + sum(task.seconds for task in self.tasks)


def measured(told: dict[str, Any]) -> Measured:
    """A run of the gate, of what timed_rt.py and gate.py wrote of it."""
    how: dict[str, Any] = {**told, 'tasks': [Task(**task) for task in told['tasks']]}
    return Measured(**how)


def longest_chain(tasks: Sequence[Task]) -> list[Task]:
    """The dearest chain of tasks of which each waits for the one before; a task stands after those that it waits for."""
    chains: list[tuple[float, int | None]] = []
    for task in tasks:
        before = max(task.waits, key=lambda place: chains[place][0], default=None)
        chains.append((task.seconds + (chains[before][0] if before is not None else 0.0), before))
    at = max(range(len(tasks)), key=lambda place: chains[place][0], default=None)
    found = []
    while at is not None:
        found.append(tasks[at])
        at = chains[at][1]
    return found[::-1]


def order_of(tasks: Sequence[Task]) -> list[int]:
    """The places of the tasks in the order in which rt begins those that are ready: those with most lines behind them first, edits last."""
    behind = [0] * len(tasks)
    for place in range(len(tasks) - 1, -1, -1):
        behind[place] += tasks[place].lines
        for before in tasks[place].waits:
            behind[before] = max(behind[before], behind[place])
    return sorted(range(len(tasks)), key=lambda place: (tasks[place].part in LATE, -behind[place]))


def wall(tasks: Sequence[Task], processors: int) -> float:
    """The seconds that the tasks take on so many processors, by the model."""
    left, now = order_of(tasks), 0.0
    ended: set[int] = set()
    running: list[tuple[float, int]] = []
    while left or running:
        ready = [place for place in left if ended.issuperset(tasks[place].waits)]
        for place in ready[:processors - len(running)]:
            left.remove(place)
            heapq.heappush(running, (now + tasks[place].seconds, place))
        now, place = heapq.heappop(running)
        ended.add(place)
    return now
