"""What a user writes: mypy --strict finds nothing here, and each line that is marked would be refused without its mark."""
from __future__ import annotations

import dataclasses
from collections.abc import Sequence
from typing import Optional

import mcsim
from mcsim import rows

SYSTEM = mcsim.System(contexts=[mcsim.Context('a', core=0, budget=2, period=5)], threads=[mcsim.Thread('A', 'a', 5, ['compute 5'])])


def responses(system: mcsim.System) -> list[int]:
    return [row.response for row in system.simulate(100) if isinstance(row, rows.Round)]


def lateness(found: mcsim.Verdict) -> list[int]:
    return [one.response - one.deadline for one in found if isinstance(one, mcsim.Miss)]


def greatest(system: mcsim.System) -> dict[str, Optional[int]]:
    return {figures.thread: figures.greatest for figures in system.table(100)}


def blamed(system: mcsim.System) -> dict[str, int]:
    return {thread: ticks for thread, ticks in system.why('A', 1).ran.items() if thread != 'A'}


def each_period(system: mcsim.System) -> list[Optional[int]]:
    return [one.each_period for one in system.forever() if isinstance(one, mcsim.Misses)]


def with_budget(system: mcsim.System, budget: int) -> mcsim.System:
    return system.put(dataclasses.replace(system.context('a'), budget=budget))


def names(threads: Sequence[mcsim.Thread]) -> list[str]:
    return [thread.name for thread in threads]


mcsim.Context('a', core='0', budget=2, period=5)  # type: ignore[arg-type]
mcsim.Context('a', 0, 2, 5, mode='other')  # type: ignore[arg-type]
SYSTEM.context('a').budget = 3  # type: ignore[misc]
greatest(SYSTEM)['A'] + 1  # type: ignore[operator]
[row.response for row in SYSTEM.simulate(100)]  # type: ignore[union-attr]
SYSTEM.put(mcsim.Order(1, 0, 'a', 2, 5))  # type: ignore[arg-type]
SYSTEM.why('A', '1')  # type: ignore[arg-type]
SYSTEM.why('A', 1).ended + 1  # type: ignore[operator]
[one.thread for one in SYSTEM.forever(100)]  # type: ignore[union-attr]
