"""Random systems of event loops, run with several phases beside the bounds of `tools/tasks --handlers`."""
from __future__ import annotations

import collections
import pathlib
import random
import statistics
import sys
from collections.abc import Callable
from typing import Any, Optional
from unittest import mock

from checks.common import TOP, Count
from checks.program import handler_systems

sys.path.insert(0, str(TOP / 'tools'))
from mcsim_tools import handling, writing
from mcsim_tools.handlers import Bound, Handlers

# how often each system runs, with other phases each time, and of how many systems one is analysed wrongly as well
PHASES = 3
WRONG = 4
# what an analysis may forget, and what is put in its place. Runs show that each of these bounds is wrong
FORGOTTEN: dict[str, tuple[str, Callable[..., Any]]] = {
    'budgets': ('mcsim_tools.exhaustion.why_it_may_be', lambda *_: ''),
    'ceilings': ('mcsim_tools.levels.Level.check_calls', lambda *_: None),
    'sections': ('mcsim_tools.levels.Level.section', lambda *_: 0),
    'jitter of signals': ('mcsim_tools.arrivals.Arrivals.later', lambda arrivals, _: arrivals),
    'waits between jobs': ('mcsim_tools.jobs.Job.cost', lambda job, badge: job.work(badge)),
    'other handlers of a job': ('mcsim_tools.jobs.Job.together', lambda job, badges: job.work(min(badges))),
}
SHOWN = {'slice': 'time slices', 'sporadic': 'mode sporadic', 'bandwidth': 'mode bandwidth'}


def worst_of(seen: dict[str, int], bounds: list[Bound]) -> Optional[tuple[int, Bound]]:
    """The first source of which more is seen than its bound."""
    return next(((seen[each.source], each) for each in bounds if each.most is not None and seen.get(each.source, 0) > each.most), None)


class Trial:
    """What has been tried."""

    def __init__(self, program: pathlib.Path, count: Count) -> None:
        self.program, self.count = program, count
        self.shown: collections.Counter[str] = collections.Counter()
        self.ratios: list[float] = []

    def try_system(self, number: int, seed: int) -> None:
        rng = random.Random(f'handlers {seed} {number}')
        system, closest = handler_systems.system_of(rng), dict[str, float]()
        for phase in range(PHASES):
            tables = handler_systems.phased(rng, system)
            bounds, seen = handling.bounds_of(tables), self.seen(tables)
            exceeded = worst_of(seen, bounds)
            self.count.expect(f'system {number} of seed {seed}, phase {phase}: seen {exceeded}', exceeded is None)
            for bound in bounds:
                self.note(bound, tables, seen, closest)
            if phase == 0 and number % WRONG == 0:
                self.forget(tables, seen)
        self.ratios += closest.values()

    def seen(self, tables: handler_systems.Tables) -> dict[str, int]:
        text = writing.system_text(tables).encode()
        return handling.seen_in(str(self.program), pathlib.Path('a random system'), text, tables, handler_systems.HORIZON)

    def note(self, bound: Bound, tables: handler_systems.Tables, seen: dict[str, int], closest: dict[str, float]) -> None:
        """Counts a bound by what kind of context it is for, and keeps the greatest ratio of what was seen."""
        if bound.job is None or bound.most is None:
            self.shown['no bound'] += 1
            return
        if bound.source.startswith(handling.CHAIN):
            self.shown['chains'] += 1
        else:
            kind = next('slice' if bound.job.is_slice else row['mode'] for row in tables['context'] if row['name'] == bound.job.name)
            self.shown[SHOWN[kind]] += 1
        if bound.source in seen:
            closest[bound.source] = max(closest.get(bound.source, 0), seen[bound.source] / bound.most)

    def forget(self, tables: handler_systems.Tables, seen: dict[str, int]) -> None:
        """Notes which wrong analyses the run shows to be wrong."""
        for what, (place, other) in FORGOTTEN.items():
            with mock.patch(place, other):
                self.shown[f'without {what}'] += worst_of(seen, Handlers(tables).run()) is not None

    def end(self) -> None:
        ratios = sorted(self.ratios)
        if not ratios:
            self.count.expect('no run shows a handler that has a bound', False)
            return
        reached = sum(ratio == 1 for ratio in ratios)
        print(f'handlers: {len(ratios)} bounds, the median of seen / bound is {statistics.median(ratios):.2f}, and {reached} are reached')
        self.count.expect_all(self.shown, [*SHOWN.values(), 'chains', 'no bound', *(f'without {what}' for what in FORGOTTEN)])
