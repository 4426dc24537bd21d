#!/usr/bin/env python3
"""Checks that tools/worst finds what is known to be the worst response, in random systems.

There are three kinds of systems:

- Sets of periodic tasks by UUniFast with all offsets but one left open, half of them with a timer
  each. The search has to find the exact worst case of response-time analysis in at least 95 % of
  the sets, in at most 500 runs each. The bound that the tool reports has to be that of the tasks.
- Small sets of tasks, of which all combinations are tried. Each has to show the worst case.
- Systems with passive servers, sporadic and bandwidth contexts, and jitter. The search has to find
  at least what a plain random search of ten times as many runs finds in four of five of them. It
  does in 105 of 115 systems of another seed with 500 runs, and in 109 with 2,000. Chance decides in
  the others: a second random search of as many runs as the first finds less in more of the systems.
  So the search has to find less in no more systems than the second random search does.

A plain random search asks the library for C, in this process; in some runs mcscheck has to say the
same. Without the library or a compiler it asks mcscheck.

The script also writes in how many sets a search finds the worst case that does not begin at the
critical instant, which is no failure."""
from __future__ import annotations

import contextlib
import functools
import random
import pathlib
import sys
import tempfile
from collections.abc import Callable, Iterator
from typing import Any, NamedTuple, Optional, TypeVar

sys.dont_write_bytecode = True
sys.path[0] = str(pathlib.Path(__file__).resolve().parents[2])
from checks import common
from checks.common import TOP, Count
from checks.program import called
from checks.program.called import Called

sys.path.insert(0, str(TOP / 'tools'))
from mcsim_tools import climbing, guiding, ranges, tasks, workers, worst
from mcsim_tools.climbing import Climb, Point
from mcsim_tools.guiding import Guide
from mcsim_tools.ranges import Space
from mcsim_tools.tasks import Form
from mcsim_tools.trying import Responses

RUNS = 500
WANTED = 0.95
# runs in a system with servers, unless --runs gives more
FEW = 200
# a plain random search makes so many times the runs; in which part of the systems the search finds
# at least as much
TIMES, MOSTLY = 10, 0.8
# systems with servers, at least
SERVERS = 10
# runs of a system with servers in which the library and mcscheck are compared
ALIKE = 20
# combinations of a small set
SMALL = 1500
BLIND = 'found from random points alone'
Done = TypeVar('Done')


class Tried(NamedTuple):
    """The programs: mcscheck, and mcsim; and the call of the library, if there is one."""

    checker: str
    program: str
    call: Any = None


class Trial(NamedTuple):
    """A space with the thread that is looked at, the last moment, and the worst case if it is known."""

    space: Space
    thread: str
    horizon: int
    bound: Optional[int] = None


class Found(NamedTuple):
    """What a search found, and in how many runs."""

    value: int
    runs: int


def climb(tried: Tried, trial: Trial, runs: int, seed: int) -> climbing.Batches:
    """The search of the tool."""
    question = Responses(tried.checker, trial.thread, trial.horizon)
    guide = Guide(trial.space, trial.horizon, guiding.runs_of(trial.space, question, tried.program))
    return worst.climb(trial.space, runs, seed, guide).run()


def plainly(tried: Tried, trial: Trial) -> Responses:
    """What a plain search asks: the library, or else mcscheck."""
    asked = tried.checker, trial.thread, trial.horizon
    return Called(*asked, call=tried.call) if tried.call else Responses(*asked)


def searched(tried: Tried, trial: Trial, batches: climbing.Batches, asked: Optional[Responses] = None) -> Found:
    """Runs a search until it finds the bound, if there is one, or to its end; mcscheck is asked, or what is given."""
    question = asked or Responses(tried.checker, trial.thread, trial.horizon)
    best = runs = 0

    def values(batch: list[Point]) -> list[climbing.Value]:
        nonlocal best, runs
        found = [question.seen(trial.space.tables_of(point)).value for point in batch]
        for value in found:
            runs += 1
            best = max(best, climbing.order(value))
            if trial.bound is not None and best >= trial.bound:
                raise worst.Reached
        return found

    with contextlib.suppress(worst.Reached):
        climbing.drive(batches, values)
    return Found(best, runs)


# ---- sets of tasks


def opened(form: Form) -> Space:
    """The system of tasks, with all offsets left open but that of the first task."""
    tables = form.tables()
    texts = ranges.phases_of(tables)[1:]
    return Space(tables, [ranges.choice_of(text, tables, 0) for text in texts])


def set_of(rng: random.Random, has_clocks: bool, many: tuple[int, int], periods: tuple[int, int]) -> Trial:
    """Tasks of which one has a bound, with the horizon that a run needs to show it."""
    while True:
        made = tasks.with_priorities(tasks.random_tasks(rng.randint(*many), rng.uniform(0.5, 0.95), rng.randrange(2**30), periods), 'rate')
        if has_clocks and any(task.work + tasks.CALL >= task.period for task in made):
            continue
        form = Form(made, has_clocks)
        bounds = form.bounds()
        if not all(bound and bound + tasks.CALL < 2 * task.period for bound, task in zip(bounds, form.tasks)):
            continue
        places = [place for place, task in enumerate(form.tasks) if place and (has_clocks or (bounds[place] or 0) <= task.period)]
        if not places or form.horizon() > 20_000:
            continue
        # the one of lowest priority has most above it
        place = max(places, key=lambda place: -tasks.priority_of(form.tasks[place]))
        horizon = form.horizon() + 2 * max(task.period for task in form.tasks)
        return Trial(opened(form), form.tasks[place].name, horizon, bounds[place])


def try_tasks(tried: Tried, seed: str, number: int) -> tuple[Found, Found, Optional[int], Optional[int]]:
    """What the search finds, and that which begins at random points; the bound, and that of the tool."""
    rng = random.Random(f'{seed} tasks {number}')
    trial = set_of(rng, number % 2 == 1, (3, 7), (10, 300))
    found = searched(tried, trial, climb(tried, trial, RUNS, number))
    drawn = tuple(rng.randrange(size) for size in trial.space.sizes)
    blind = searched(tried, trial, Climb(trial.space.sizes, [drawn], RUNS, number).run(), plainly(tried, trial))
    return found, blind, trial.bound, worst.bound_of(trial.space, trial.thread)[0]


def try_small(tried: Tried, seed: str, number: int) -> tuple[int, Optional[int], str]:
    """The worst of all combinations, and the bound."""
    rng = random.Random(f'{seed} small {number}')
    while True:
        trial = set_of(rng, number % 2 == 1, (2, 3), (4, 30))
        if trial.space.count <= SMALL:
            break
    found = searched(tried, trial._replace(bound=None), climbing.exhaust(trial.space.all()))
    return found.value, trial.bound, f'{found.runs} runs'


# ---- systems with servers


def system_with_servers(rng: random.Random) -> dict[str, Any]:
    """Threads that wait for sources and call servers, on contexts of all kinds."""
    many = rng.randint(2, 4)
    tables: dict[str, Any] = {'version': 3, 'cores': 1, 'delay': 1, 'context': [], 'note': [], 'server': [], 'thread': [], 'source': []}
    for number in range(rng.randint(1, 2)):
        tables['server'].append({'name': f's{number}', 'core': 0, 'priority': rng.choice([20 + number, 3]), 'script': [f'compute {rng.randint(1, 9)}']})
    for number in range(many):
        name, period = f't{number}', rng.randint(30, 150)
        script = [f'wait {name}', f'compute {rng.randint(2, 12)}']
        if rng.random() < 0.7:
            script += [f'call {rng.choice(tables["server"])["name"]} 1', f'compute {rng.randint(1, 6)}']
        budget = rng.choice([period // 5, period // 3, period // 2, period])
        context: dict[str, Any] = {'name': name, 'core': 0, 'budget': max(2, budget), 'period': period}
        if context['budget'] < period:
            context |= {'mode': rng.choice(['sporadic', 'sporadic', 'bandwidth']), 'extra_refills': rng.choice([0, 4])}
        tables['context'].append(context)
        tables['note'].append({'name': name, 'core': 0})
        tables['thread'].append({'name': name, 'context': name, 'priority': number + 5, 'script': script})
        tables['source'].append({'name': name, 'note': name, 'badge': 1, 'period': period + rng.randint(0, 9), 'start': 200})
    return tables


def drawn_from(rng: random.Random, space: Space, many: int) -> Iterator[Point]:
    """Points at random."""
    return (tuple(rng.randrange(size) for size in space.sizes) for _ in range(many))


def are_alike(tried: Tried, trial: Trial) -> bool:
    """Whether the library and mcscheck see the same in some runs."""
    rng = random.Random(trial.horizon)
    points = [trial.space.tables_of(point) for point in drawn_from(rng, trial.space, ALIKE)]
    program = Responses(tried.checker, trial.thread, trial.horizon)
    return all(plainly(tried, trial).seen(tables) == program.seen(tables) for tables in points)


def try_servers(runs: int, tried: Tried, seed: str, number: int) -> tuple[Found, Found, Found, bool]:
    """What the search finds, what two plain random searches of ten times as many runs find, and whether these see what mcscheck sees."""
    rng = random.Random(f'{seed} servers {number}')
    tables = system_with_servers(rng)
    texts = [*ranges.phases_of(tables), *ranges.times_of(tables, 50)]
    if rng.random() < 0.3:
        texts.append('source.t0.at=jitter 9')
    space = Space(tables, [ranges.choice_of(text, tables, 1000) for text in texts])
    trial = Trial(space, 't0', 1000)
    found = searched(tried, trial, climb(tried, trial, runs, number))

    def at_random() -> Found:
        return searched(tried, trial, climbing.exhaust(drawn_from(rng, space, TIMES * runs)), plainly(tried, trial))

    return found, at_random(), at_random(), are_alike(tried, trial)


# ---- all of them


def on_all(work: Callable[[Tried, str, int], Done], tried: Tried, seed: str, many: int) -> Iterator[Done]:
    with workers.in_order(lambda number: work(tried, seed, number), range(many), min(workers.processors(), max(1, many))) as results:
        yield from results


def look_at_tasks(tried: Tried, seed: str, many: int, count: Count) -> None:
    reached = blind = 0
    runs = []
    for number, (found, other, bound, told) in enumerate(on_all(try_tasks, tried, seed, many)):
        reached += found.value == bound
        blind += other.value == bound
        runs.append(found.runs)
        count.expect(f'set {number} of seed {seed}: found {found.value}, bound {bound}', bound is not None and found.value <= bound)
        count.expect(f'set {number} of seed {seed}: the tool tells the bound {told}, the analysis {bound}', told == bound)
    print(f'tasks: {reached} of {many} worst cases found, in {max(runs)} runs at most and {sum(runs) / many:.1f} on average; {blind} {BLIND}')
    count.expect(f'{reached} of {many} is less than {WANTED:.0%}', reached >= WANTED * many)


def look_at_small(tried: Tried, seed: str, many: int, count: Count) -> None:
    for number, (value, bound, runs) in enumerate(on_all(try_small, tried, seed, many)):
        count.expect(f'small set {number} of seed {seed}: worst {value} of {runs}, bound {bound}', value == bound)
    print(f'small sets: {many}')


def look_at_servers(tried: Tried, seed: str, many: int, runs: int, count: Count) -> None:
    more = same = worse = 0
    for number, (found, other, second, is_alike) in enumerate(on_all(functools.partial(try_servers, runs), tried, seed, many)):
        more += found.value > other.value
        same += found.value == other.value
        worse += second.value < other.value
        count.expect(f'servers {number} of seed {seed}: the library sees something else than mcscheck', is_alike)
        if found.value < other.value:
            print(f'servers {number} of seed {seed}: {found.value} in {found.runs} runs, {other.value} by {other.runs} random ones')
    print(f'servers: {more} of {many} above {TIMES} times as many random runs, {same} the same; as many random runs again are below in {worse}')
    count.expect(f'servers: {more + same} of {many} is less than {MOSTLY:.0%}', more + same >= MOSTLY * many)
    count.expect(f'servers: {many - more - same} of {many} below, and as many random runs again in {worse}', many - more - same <= worse)


def main() -> None:
    parser = common.asking_random(__doc__, 30, 'sets')
    parser.add_argument('--small', type=int, help='how many small sets (default: a tenth of --sets)')
    parser.add_argument('--servers', type=int, help=f'how many systems with servers (default: a tenth of --sets, and {SERVERS} at least)')
    parser.add_argument('--runs', type=int, default=FEW, help='runs of a search in them (default: %(default)s)')
    words = parser.parse_args()
    program = common.built_program(words.program)
    checker = common.checker_of(program)
    count = Count()
    if checker is None:
        count.skip('mcscheck, which is not there')
        count.end()
    tenth = max(1, words.sets // 10)
    with tempfile.TemporaryDirectory() as folder:
        shared = called.linked(program, pathlib.Path(folder))
        tried = Tried(str(checker), str(program), shared and called.library(shared))
        look_at_tasks(tried, str(words.seed), words.sets, count)
        look_at_small(tried, str(words.seed), tenth if words.small is None else words.small, count)
        look_at_servers(tried, str(words.seed), max(SERVERS, tenth) if words.servers is None else words.servers, words.runs, count)
    count.end()


if __name__ == '__main__':
    main()
