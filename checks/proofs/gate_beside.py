"""A run of the gate beside the table of its cost, for gate.py: which tasks took longest, how much of the table each is, and whether the whole is too dear.

What an earlier gate on this machine had kept costs next to nothing and is left out, on both sides; so is what the table does not have. Of a crate's edits
the table gives those that were tried their share.

The ratio of a task is its CPU seconds over those of the table. Each processor, and other work beside the gate, moves all ratios alike; therefore the
whole is held to LIMIT times the table times the median ratio. The median counts as 1 if it is less: a fast machine allows nothing less than the table
does. A gate that became dearer everywhere moves the median too, so nothing fails; then a line says so, and a person has to look."""
from __future__ import annotations

import statistics
from collections.abc import Iterator, Sequence
from typing import NamedTuple

from checks.common import Count
from checks.proofs.gate_cost import COLUMNS, LEAST, Cost
from checks.proofs.gate_tasks import Measured, Task, edits_in

# how often the whole may cost what the table has
LIMIT = 1.3
# with fewer tasks a median says little
ENOUGH = 20
LONGEST = 5
RUNS = 'runs of tests and programs'


class Beside(NamedTuple):
    """The CPU seconds of a crate's tasks of one column, and those of the table: 0 if it has none."""

    name: str
    seconds: float
    known: float

    @property
    def ratio(self) -> float:
        return self.seconds / self.known

    def __str__(self) -> str:
        held = f'{self.known:.0f} in the table, {self.ratio:.2f} times' if self.known else 'not in the table'
        return f'{self.seconds:6.0f} s  {self.name}: {held}'


def done(tasks: Sequence[Task]) -> list[Task]:
    """The tasks that were done in this run."""
    return [task for task in tasks if task.seconds >= LEAST]


def known_of(cost: Cost, crate: str, column: str, tried: int) -> float:
    """What the table has for a column of a crate; for edits the share of those that were tried."""
    row = cost.row(crate)
    if row is None:
        return 0
    number = int(row.number_of_edits or 0)
    share = tried / number if column == 'Edits' and number else 1
    return row.of(column) * share


def beside(found: Measured, cost: Cost) -> Iterator[Beside]:
    """What was done in a run, by crate and column, each beside the table."""
    for crate in dict.fromkeys(task.crate for task in found.tasks):
        for column, parts in COLUMNS.items():
            own = [task for task in done(found.tasks) if task.crate == crate and task.part in parts]
            if own:
                known = known_of(cost, crate, column, edits_in(own))
                yield Beside(f'{crate} {column.lower()}', sum(task.seconds for task in own), known if known >= LEAST else 0)
    if found.runs >= LEAST and cost.runs:
        yield Beside(RUNS, found.runs, cost.runs)


def kept_of(found: Measured, cost: Cost) -> int:
    """How many tasks an earlier gate had kept: those that the table has, and that did nothing here."""
    column_of = {'proof': 'Proof', 'tests': 'Tests', 'edits': 'Edits'}
    idle = [task for task in found.tasks if task.seconds < LEAST and task.part in column_of]
    return sum(known_of(cost, task.crate, column_of[task.part], 1) >= LEAST for task in idle)


def hold(held: Sequence[Beside], has_limit: bool, count: Count) -> None:
    """Says what the whole costs beside the table; it is a try if there is a limit."""
    median = statistics.median(it.ratio for it in held)
    spent, known = sum(it.seconds for it in held), sum(it.known for it in held)
    allowed = LIMIT * max(1, median)
    print(f'in all {spent:.0f} s, {known:.0f} in the table, {spent / known:.2f} times; the median ratio of {len(held)} parts is {median:.2f}')
    if median >= LIMIT:
        print('note: on the same machine, without other work, such a median says that the gate became dearer everywhere')
    if has_limit and len(held) >= ENOUGH:
        what = f'the gate costs {spent / known:.2f} times the table, and may cost {allowed:.2f} times: checks/README.md, "What the gate costs"'
        count.expect(what, spent <= allowed * known)


def compare(found: Measured, cost: Cost | None) -> Count:
    """Says how a run of the gate compares with the table. It is a try if the gate passed, with the kit of the table, and did enough."""
    count = Count()
    if cost is None:
        print('the gate has no table of its cost: checks/proofs/gate.py --anew --write makes it')
        return count
    parts = list(beside(found, cost))
    held = [it for it in parts if it.known]
    print(f'the gate did {len(done(found.tasks))} tasks, and took {kept_of(found, cost)} from earlier gates on this machine. What took longest, beside the '
          f'table of {cost.head["date"]}, which lacks {len(parts) - len(held)} of {len(parts)} parts:')
    for it in sorted(parts, key=lambda it: -it.seconds)[:LONGEST]:
        print(it)
    if held:
        hold(held, found.status == 0 and bool(found.kit) and found.kit == cost.head.get('kit'), count)
    return count
