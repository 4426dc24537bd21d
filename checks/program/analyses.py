#!/usr/bin/env python3
"""Checks that response-time analysis, the runs and the table of mcscheck agree, on 300 random sets of tasks and 500 systems of event loops.

Each set is made by UUniFast for one to three cores, with deadlines below and above the periods. Where all tasks begin together, the greatest response
seen in the run of mcsim has to be the bound of `tools/tasks`, tick for tick, and that of cores which are played here tick by tick; with offsets no
response may be above the bound. Half of the sets have a clock for each task, whose wait costs a call.

The table of mcscheck has to tell the same of each task: `greatest` is the bound, `margin` the deadline less it, and a round is `missed` just where it is
above the deadline. With clocks contexts are made in five ways: a budget of a job and its call, with no extra refill and with 64, all of the period, and
all but a tick of it, sporadic and in bandwidth mode. Where the context is the clock, a job that waits for the one before it is activated when that ends,
so a task is compared where its bound is at most its period.

A table would be wrong, and this script fails, that counted from the beginning of a round, as a row does: too little where a job waits for the one
before it, and too much where the context is the clock; that left out the job of the moment at which all tasks begin; that had the call in the response;
or that told the end of a bucket, as percentiles do, of a response of 128 and above. Sets that show none of these are a failure too.

The systems of event loops have sources, handlers, servers, signals and contexts of all kinds. Each runs with three choices of phases, and no handler of
an interrupt may take longer than its bound by `tools/tasks --handlers`. Analyses that forget a rule are to be shown wrong by these runs."""
from __future__ import annotations

import collections
import csv
import io
import pathlib
import random
import sys
from collections.abc import Callable
from dataclasses import replace
from typing import Any, NamedTuple, Optional

sys.dont_write_bytecode = True
sys.path[0] = str(pathlib.Path(__file__).resolve().parents[2])
from checks import common
from checks.common import TOP, Count
from checks.program import handler_bounds

sys.path.insert(0, str(TOP / 'tools'))
from mcsim_tools import tasks, writing
from mcsim_tools.tasks import Form, Task

# what the context of a task has in place of what tools/tasks gives it
Keys = Callable[[Task], dict[str, Any]]
WITH_CLOCKS: dict[str, Keys] = {
    'a job and its call': lambda _: {},
    'the same and 64 extra refills': lambda _: {'extra_refills': 64},
    'all of the period': lambda task: {'budget': task.period},
    'all but a tick': lambda task: {'budget': task.period - 1},
    'all but a tick, in bandwidth mode': lambda task: {'budget': task.period - 1, 'mode': 'bandwidth'},
}
AS_CLOCKS: dict[str, Keys] = {'the context as clock': lambda _: {}}
# of which tasks there are to be some, so that what is wrong is seen: in all sets, and of those that are compared with the table
ABOVE = {True: 'above the period with a clock', False: 'above the period without one'}
COMPARED = (*WITH_CLOCKS, *AS_CLOCKS, 'missed', 'in time', '128 or more')
# the longest run of a set that is played here
FAR = 20_000
# systems of event loops for each three sets of tasks
SYSTEMS = 5


def played(form: Form, core: int, ticks: int) -> dict[str, int]:
    """The greatest responses of jobs that end, where a core runs the greatest priority in each tick, and jobs of a task one after another. A call
    follows a job, and is in no response."""
    call = form.has_clocks
    order = sorted((task for task in form.tasks if task.core == core), key=lambda task: -(task.priority or 0))
    waiting: dict[str, collections.deque[int]] = {task.name: collections.deque() for task in order}
    work = {task.name: task.work for task in order}
    # of the job under way: what is left of it
    left = dict.fromkeys(waiting, 0)
    worst = dict.fromkeys(waiting, 0)
    for tick in range(ticks):
        for task in order:
            if tick % task.period == 0:
                waiting[task.name].append(tick)
        name = next((one.name for one in order if left[one.name] or waiting[one.name]), None)
        if name is None:
            continue
        if not left[name]:
            left[name] = work[name] + call
        left[name] -= 1
        if left[name] == call:
            worst[name] = max(worst[name], tick + 1 - waiting[name].popleft())
    return worst


# ---- sets


def set_of(rng: random.Random) -> list[Task]:
    made: list[Task] = []
    for core in range(rng.randint(1, 3)):
        periods = rng.choice([(8, 120), (8, 120), (50, 900)])
        own = tasks.random_tasks(rng.randint(2, 8), rng.uniform(0.3, 1), rng.randrange(2**30), periods)
        made += [replace(task, name=f'{task.name}_{core}', core=core, deadline=rng.randint(task.work, 2 * task.period)) for task in own]
    return tasks.with_priorities(made, rng.choice(['rate', 'deadline']))


def bounds_of(form: Form) -> dict[str, int]:
    """The bound of each task that has one."""
    bounds = {task.name: form.bound(task) for task in form.tasks}
    return {name: bound for name, bound in bounds.items() if bound is not None}


def is_tried(form: Form) -> bool:
    """Whether there is a bound for each task, and a run that tells it is short; where clocks tick, each job and its call are to end before the tick after
    next, since of the ticks that come meanwhile a notification keeps one."""
    bounds = bounds_of(form)
    if len(bounds) < len(form.tasks) or form.horizon() > FAR:
        return False
    return not form.has_clocks or all(bounds[task.name] + tasks.CALL < 2 * task.period for task in form.tasks)


def form_of(rng: random.Random, has_clocks: bool) -> Form:
    while True:
        made = set_of(rng)
        # a tick of the period is left over
        if has_clocks and any(task.work + tasks.CALL >= task.period for task in made):
            continue
        form = Form(made, has_clocks)
        if is_tried(form):
            return form


# ---- the table of mcscheck


class Told(NamedTuple):
    """What the table tells of a task."""

    greatest: Optional[int]
    margin: Optional[int]
    has_missed: bool


def number(cell: str) -> Optional[int]:
    return int(cell) if cell else None


def told(checker: pathlib.Path, form: Form, keys: Keys, horizon: int) -> dict[str, Told]:
    """What the table tells of the tasks, with these keys of their contexts."""
    tables = form.tables()
    for task, context in zip(form.tasks, tables['context']):
        context |= keys(task)
    ran = common.run([checker, '--horizon', str(horizon), '--show=table', '--format=csv'], writing.system_text(tables).encode())
    rows = {row['thread']: row for row in csv.DictReader(io.StringIO(ran.stdout.decode()))}
    own = [rows[task.name] for task in form.tasks if task.name in rows]
    return {row['thread']: Told(number(row['greatest']), number(row['margin']), row['missed'] != '0') for row in own}


class Trial:
    """The programs, and what the table has told."""

    def __init__(self, program: pathlib.Path, checker: Optional[pathlib.Path]) -> None:
        self.program, self.checker = program, checker
        self.count = Count()
        self.seen: collections.Counter[str] = collections.Counter()

    def try_set(self, number: int, seed: int) -> None:
        rng = random.Random(f'{seed} {number}')
        form = form_of(rng, number % 2 == 1)
        what = f'set {number} of seed {seed}'
        bounds = bounds_of(form)
        together = form.horizon()
        found = tasks.seen(form, str(self.program), together)
        self.count.expect(f'{what}: bounds {bounds}, seen {found}', found == bounds)
        own = {name: worst for core in range(form.board) for name, worst in played(form, core, together - form.first).items()}
        self.count.expect(f'{what}: bounds {bounds}, played {own}', own == bounds)
        self.seen[ABOVE[form.has_clocks]] += sum(bounds[task.name] > task.period for task in form.tasks)
        if number % 3 == 0:
            self.try_apart(what, Form([replace(task, offset=rng.randrange(task.period)) for task in form.tasks], form.has_clocks), bounds)
        if self.checker:
            self.try_table(what, form, bounds, together)

    def try_apart(self, what: str, form: Form, bounds: dict[str, int]) -> None:
        """The same tasks with offsets."""
        found = tasks.seen(form, str(self.program), form.first + 2000)
        self.count.expect(f'{what}: bounds {bounds}, seen with offsets {found}', all(found[name] <= most for name, most in bounds.items()))

    def try_table(self, what: str, form: Form, bounds: dict[str, int], horizon: int) -> None:
        """The table, in each way to make contexts."""
        assert self.checker
        compared = {task.name: task for task in form.tasks if form.has_clocks or bounds[task.name] <= task.period}
        wanted = {name: Told(bounds[name], task.deadline - bounds[name], bounds[name] > task.deadline) for name, task in compared.items()}
        for way, keys in (WITH_CLOCKS if form.has_clocks else AS_CLOCKS).items():
            got = {name: each for name, each in told(self.checker, form, keys, horizon).items() if name in compared}
            self.count.expect(f'{what}: {way}: the analysis has {wanted}, the table {got}', got == wanted)
            self.seen[way] += len(compared)
        for name, each in wanted.items():
            self.seen['missed' if each.has_missed else 'in time'] += 1
            self.seen['128 or more'] += bounds[name] >= 128

    def end(self) -> None:
        wanted = [*ABOVE.values(), *(COMPARED if self.checker else ())]
        print('tasks: ' + ', '.join(f'{what} {self.seen[what]}' for what in wanted))
        for what in wanted:
            self.count.expect(f'no set shows a task: {what}', self.seen[what] > 0)
        if not self.checker:
            self.count.skip('the table of mcscheck, which is not there')


def main() -> None:
    words = common.asking_random(__doc__, 300, 'sets').parse_args()
    program = common.built_program(words.program)
    trial = Trial(program, common.checker_of(program))
    for number in range(words.sets):
        trial.try_set(number, words.seed)
    trial.end()
    handlers = handler_bounds.Trial(program, trial.count)
    for number in range(words.sets * SYSTEMS // 3):
        handlers.try_system(number, words.seed)
    handlers.end()
    trial.count.end()


if __name__ == '__main__':
    main()
