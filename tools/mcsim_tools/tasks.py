"""tasks TASKS.csv [-o FILE] [--analyse]
tasks --random N --utilisation U --seed S [-o FILE] [--analyse]
tasks --handlers SYSTEM [--horizon N] [--format csv|text|json]

Makes a system's file for mcsim of a list of periodic tasks: a CSV whose first line names its columns, `name`, `work` and `period`, and, if they are
wanted, `deadline` (default: the period), `offset` (0), `priority` (the maximum runs first) and `core` (0). Times are ticks. If no task has a priority,
the shortest period gets the maximum (rate monotonic); `--priorities deadline` takes the shortest deadline.

A task is a thread with a budget of its work in its period, in mode sporadic. The context lets it run once in each period, and its script computes the
work. With --clocks each waits for a timer of its own, a source, as on a board; each wait costs a call. Both forms agree with the analysis to the tick.

--analyse runs the system and writes a CSV: for each task the bound of response-time analysis (none if more than the core has is asked of it), the
maximum response seen, counted from its release, and their ratio. A job that had not ended at the horizon counts with its age. Without --horizon the
run is as long as the answer needs: one busy period if all tasks of a core begin together, else until the schedule repeats.

--random makes a list by UUniFast; the same options give the same list, and --list writes it as CSV.

--handlers reads a system's file instead, of version 3, and writes a row for each source: the bound on the time from its interrupt to the end of the job that
handles it, with what other threads, servers and earlier jobs delay, and the maximum that a run shows. A row for each chain has the same of its latency. If
the analysis does not hold, the last column says why, and there is no bound."""
from __future__ import annotations

import argparse
import csv
import io
import math
import pathlib
import random
from collections.abc import Callable, Iterable, Sequence
from dataclasses import dataclass, replace
from typing import Any, Optional

from . import analysis, digits, handling, named, options, output, source, system, writing
from .analysis import Demand, Effort, TooLong
from .faults import Fault
from .options import Options
from .reading import Listener, Reading, Round

COLUMNS = ('name', 'work', 'period', 'deadline', 'offset', 'priority', 'core')
REQUIRED = COLUMNS[:3]
LONGEST = 2**40
MOST_PRIORITY = 255
MOST_CORES = 64
MOST_TASKS = 4096
# the farthest horizon that is taken unasked
FAR = 10**7
CALL = DELAY = 1
ANALYSED = ('name', 'core', 'priority', 'work', 'period', 'deadline', 'bound', 'seen', 'ratio')


@dataclass(frozen=True)
class Task:
    """A periodic task, in ticks."""

    name: str
    work: int
    period: int
    deadline: int
    offset: int = 0
    priority: Optional[int] = None
    core: int = 0


# ---- lists of tasks


class List:
    """The text of a list; faults name a line of it."""

    def __init__(self, path: pathlib.Path) -> None:
        self.path = path
        try:
            text = system.read_bytes(path).decode('utf-8-sig')
        except UnicodeDecodeError:
            raise Fault(f'{path}: not UTF-8') from None
        self.rows = csv.reader(io.StringIO(text, newline=''), skipinitialspace=True)
        self.columns: list[str] = []

    def fault(self, text: str) -> Fault:
        return Fault(f'{self.path}:{max(1, self.rows.line_num)}: {text}')

    def tasks(self) -> list[Task]:
        found: dict[str, Task] = {}
        try:
            self.take_columns(next(self.rows, []))
            for row in self.rows:
                if not any(cell.strip() for cell in row):
                    continue
                task = self.task(row)
                if task.name in found:
                    raise self.fault(f'the name {task.name} is used twice')
                found[task.name] = task
        except csv.Error as error:
            raise self.fault(f'not CSV: {error}') from None
        if not found:
            raise Fault(f'{self.path}: there is no task')
        return list(found.values())

    def take_columns(self, row: Sequence[str]) -> None:
        self.columns = [cell.strip() for cell in row]
        for column in self.columns:
            if column not in COLUMNS:
                raise self.fault(f'the column {column!r} is none of {", ".join(COLUMNS)}')
        if missing := [column for column in REQUIRED if column not in self.columns]:
            raise self.fault(f'the column {missing[0]} is missing: the first line names the columns')
        if len(set(self.columns)) < len(self.columns):
            raise self.fault('a column is there twice')

    def task(self, row: Sequence[str]) -> Task:
        if len(row) != len(self.columns):
            raise self.fault(f'{len(row)} cells for {len(self.columns)} columns')
        cells = {column: cell.strip() for column, cell in zip(self.columns, row)}
        name = cells['name']
        if not named.NAME.fullmatch(name):
            raise self.fault(f'the name {name!r} is none of mcsim, which has {named.NAMES}')

        def number(column: str, least: int, most: int, default: int) -> int:
            text = cells.get(column, '')
            if not text and column not in REQUIRED:
                return default
            found = digits.number(text, least, most)
            if found is None:
                raise self.fault(f'{column} {text!r} of {name} is no number of {least} to {most}')
            return found

        period = number('period', 1, LONGEST, 0)
        work = number('work', 1, LONGEST, 0)
        if work > period:
            raise self.fault(f'work {work} of {name} is above its period {period}')
        priority = number('priority', 0, MOST_PRIORITY, -1)
        return Task(name, work, period, number('deadline', 1, LONGEST, period), number('offset', 0, LONGEST, 0),
                    None if priority < 0 else priority, number('core', 0, MOST_CORES - 1, 0))


def uunifast(count: int, total: float, rng: random.Random) -> Iterable[float]:
    """Shares that sum to the total, all such lists alike likely (Bini and Buttazzo)."""
    for left in range(count - 1, 0, -1):
        rest = total * rng.random() ** (1 / left)
        yield total - rest
        total = rest
    yield total


def random_tasks(count: int, total: float, seed: int, periods: tuple[int, int]) -> list[Task]:
    """Tasks with periods that are alike likely by their logarithm. Work is rounded down, to one tick at least."""
    rng = random.Random(seed)
    least, most = periods
    tasks = []
    for place, share in enumerate(uunifast(count, total, rng), 1):
        period = min(most, int(math.exp(rng.uniform(math.log(least), math.log(most + 1)))))
        tasks.append(Task(f't{place}', max(1, int(share * period)), period, period))
    return tasks


def with_priorities(tasks: Sequence[Task], order: Optional[str]) -> list[Task]:
    """Each with a priority: that of the list, or by an order, those of a core apart from each other."""
    given = [task for task in tasks if task.priority is not None]
    if order == 'given' or order is None and given:
        without = next((task for task in tasks if task.priority is None), None)
        if without:
            raise Fault(f'{without.name} has no priority: give one to each task, or --priorities rate or deadline')
        return list(tasks)
    key: Callable[[Task], int] = (lambda task: task.deadline) if order == 'deadline' else (lambda task: task.period)
    ranked: dict[str, int] = {}
    for core in {task.core for task in tasks}:
        own = sorted((task for task in tasks if task.core == core), key=key, reverse=True)
        if len(own) > MOST_PRIORITY:
            raise Fault(f'{len(own)} tasks of core {core} want a priority each, of 1 to {MOST_PRIORITY}')
        # of two alike the first of the list is the greater
        own.sort(key=lambda task: (-key(task), -tasks.index(task)))
        ranked |= {task.name: rank for rank, task in enumerate(own, 1)}
    return [replace(task, priority=ranked[task.name]) for task in tasks]


def list_text(tasks: Sequence[Task]) -> str:
    text = io.StringIO()
    table = csv.writer(text, lineterminator='\n')
    table.writerow(COLUMNS)
    for task in tasks:
        table.writerow([task.name, task.work, task.period, task.deadline, task.offset, '' if task.priority is None else task.priority, task.core])
    return text.getvalue()


# ---- systems of tasks


def priority_of(task: Task) -> int:
    """The priority of a task that has one by now."""
    assert task.priority is not None
    return task.priority


@dataclass(frozen=True)
class Form:
    """How tasks become threads: with a timer each, or with their contexts as clocks."""

    tasks: Sequence[Task]
    has_clocks: bool

    def __post_init__(self) -> None:
        for task in self.tasks:
            if self.has_clocks and task.work + CALL > task.period:
                raise Fault(f'work {task.work} of {task.name} and a call are above its period {task.period}')

    @property
    def board(self) -> int:
        return max(task.core for task in self.tasks) + 1

    @property
    def first(self) -> int:
        """When a task of offset 0 is first released: once all threads wait for their timers, and what that cost is replenished."""
        return max(task.period for task in self.tasks) + len(self.tasks) * CALL if self.has_clocks else 0

    def demand(self, task: Task) -> Demand:
        return Demand(task.work, task.work + CALL if self.has_clocks else task.work, task.period)

    def above(self, task: Task) -> list[Demand]:
        own = priority_of(task)
        return [self.demand(other) for other in self.tasks if other is not task and other.core == task.core and priority_of(other) >= own]

    def bound(self, task: Task, effort: Optional[Effort] = None) -> Optional[int]:
        return analysis.bound(self.demand(task), self.above(task), effort)

    def bounds(self) -> list[Optional[int]]:
        """The bound of each task."""
        effort = Effort()
        return [self.bound(task, effort) for task in self.tasks]

    def tables(self) -> dict[str, Any]:
        """The system, in version 3."""
        tables: dict[str, Any] = {'version': 3, 'cores': self.board, 'delay': DELAY, 'call': CALL, 'context': [self.context(task) for task in self.tasks]}
        if self.has_clocks:
            tables['note'] = [{'name': task.name, 'core': task.core} for task in self.tasks]
            tables['source'] = [self.timer(task) for task in self.tasks]
        tables['thread'] = [self.thread(task) for task in self.tasks]
        return tables

    def context(self, task: Task) -> dict[str, Any]:
        """A budget of just the work, which agrees with the analysis in mode sporadic alone."""
        cost = self.demand(task).cost
        context: dict[str, Any] = {'name': task.name, 'core': task.core, 'budget': cost, 'period': task.period}
        return {**context, 'mode': 'sporadic'} if cost < task.period else context

    def timer(self, task: Task) -> dict[str, Any]:
        return {'name': task.name, 'note': task.name, 'badge': 1, 'period': task.period, 'start': self.first + task.offset}

    def thread(self, task: Task) -> dict[str, Any]:
        thread: dict[str, Any] = {'name': task.name, 'context': task.name, 'priority': task.priority, 'deadline': task.deadline}
        if self.has_clocks:
            return {**thread, 'script': [f'wait {task.name}', f'compute {task.work}']}
        if task.offset:
            thread['start'] = task.offset
        return {**thread, 'script': [f'compute {task.work}']}

    def horizon(self) -> int:
        """How long a run tells the greatest responses."""
        longest = max(self.first + task.offset for task in self.tasks)
        effort = Effort()
        needed = longest + max(self.of_core(core, effort) for core in sorted({task.core for task in self.tasks}))
        if needed > FAR:
            many = f'{needed} ticks' if needed <= LONGEST else 'more than 2^40 ticks'
            raise Fault(f'the answer needs {many}: --horizon N says how long the run is to be')
        return needed

    def of_core(self, core: int, effort: Effort) -> int:
        own = [task for task in self.tasks if task.core == core]
        stretch = analysis.busy_stretch([self.demand(task) for task in own], effort)
        longest = max(task.period for task in own)
        if stretch is None:
            return 10 * longest
        if len({task.offset for task in own}) == 1:
            return stretch + 1 + CALL
        return longest + 2 * math.lcm(*(task.period for task in own))


class Seen(Listener):
    """The greatest response of each task, from its release on."""

    def __init__(self, form: Form) -> None:
        self.form = form
        self.tasks = {task.name: task for task in form.tasks}
        self.greatest = dict.fromkeys(self.tasks, 0)
        self.ended = dict.fromkeys(self.tasks, 0)

    def saw(self, name: str, response: int) -> None:
        self.greatest[name] = max(self.greatest[name], response)

    def round_ended(self, ended: Round) -> None:
        task = self.tasks.get(ended.thread.name)
        if task is None:
            return
        self.ended[task.name] = ended.number
        self.saw(task.name, ended.response if self.form.has_clocks else ended.end - task.offset - (ended.number - 1) * task.period)

    def round_open(self, open_round: Round) -> None:
        if self.form.has_clocks and open_round.thread.name in self.tasks:
            self.saw(open_round.thread.name, open_round.response)

    def close(self, horizon: int) -> None:
        """Jobs that had not ended: where a context is the clock, rows tell of no release while the thread is late."""
        for name, task in self.tasks.items():
            if not self.form.has_clocks:
                self.saw(name, horizon - task.offset - self.ended[name] * task.period)


def seen(form: Form, program: str, horizon: int) -> dict[str, int]:
    """The greatest responses of a run."""
    text = writing.system_text(form.tables()).encode()
    path = pathlib.Path('the system of the tasks')
    listener = Seen(form)
    running = source.Run(program, path, text, ['--horizon', str(horizon)])
    try:
        lines = running.lines()
        Reading(system.parse(path, text), listener).read(lines, horizon)
    finally:
        running.end()
    listener.close(horizon)
    return listener.greatest


def analysed(form: Form, bounds: Sequence[Optional[int]], found: dict[str, int]) -> list[list[object]]:
    """For each task the bound, what was seen, and their ratio."""
    rows: list[list[object]] = []
    for task, most in zip(form.tasks, bounds):
        greatest = found[task.name]
        ratio = None if most is None else greatest / most
        rows.append([task.name, task.core, task.priority, task.work, task.period, task.deadline, most, greatest, ratio])
    return rows


def analysis_of(form: Form, program: str, horizon: Optional[int]) -> list[list[object]]:
    """The rows of the analysis, with what is seen up to a horizon, or as far as the answer needs."""
    try:
        bounds = form.bounds()
        return analysed(form, bounds, seen(form, program, form.horizon() if horizon is None else horizon))
    except TooLong:
        raise Fault(f'the analysis of these tasks adds up more than {analysis.MOST_TERMS:,} terms: shorter busy stretches have fewer') from None


# ---- words


def share(text: str) -> float:
    try:
        number = float(text)
    except ValueError:
        number = 0.0
    if not 0 < number <= 1:
        raise argparse.ArgumentTypeError(f'{text!r} is no utilisation above 0, of at most 1')
    return number


count = options.number(f'no number of tasks, of 1 to {MOST_PRIORITY}', 1, MOST_PRIORITY)


def periods(text: str) -> tuple[int, int]:
    first, _, last = text.partition(':')
    most = digits.number(last, 1, LONGEST)
    least = None if most is None else digits.number(first, 1, most)
    if least is None or most is None:
        raise argparse.ArgumentTypeError(f'{text!r} is no range A:B of periods')
    return least, most


def tasks_of(asked: argparse.Namespace) -> list[Task]:
    if (asked.tasks is None) == (asked.random is None):
        raise Fault('one of TASKS.csv and --random N is wanted')
    if asked.tasks:
        return with_priorities(List(asked.tasks).tasks(), asked.priorities)
    return with_priorities(random_tasks(asked.random, asked.utilisation, asked.seed, asked.periods), asked.priorities)


def handlers(asked: argparse.Namespace) -> int:
    """Writes the analysis of a system's handlers. The exit code is 1 if a run shows more than a bound."""
    others = {'--random': asked.random, 'TASKS.csv': asked.tasks, '--clocks': asked.clocks, '--list': asked.list, '--priorities': asked.priorities, '-o': asked.output}
    if given := [name for name, value in others.items() if value]:
        raise Fault(f'--handlers analyses a system, and takes no {given[0]}')
    found = handling.found_of(asked.program, asked.handlers, asked.horizon)
    output.write(None, handling.table_of(found, asked.format))
    if defects := found.defects():
        raise Fault(defects[0], 1)
    return 0


def main() -> Optional[int]:
    words = Options(__doc__)
    words.reads('tasks', nargs='?', metavar='TASKS.csv', help='the list of tasks')
    words.add_argument('--priorities', choices=('given', 'rate', 'deadline'), help='those of the list, or by the shortest period or deadline')
    words.add_argument('--clocks', action='store_true', help='gives each task a timer for which it waits')
    words.add_argument('--random', type=count, metavar='N', help='makes a list of N tasks')
    words.add_argument('--utilisation', type=share, default=0.7, metavar='U', help='what they ask of a core together (default: %(default)s)')
    words.add_argument('--seed', type=int, default=1, metavar='S', help='the seed of the list (default: %(default)s)')
    words.add_argument('--periods', type=periods, default=(10, 1000), metavar='A:B', help='their periods (default: 10:1000)')
    words.add_argument('--list', action='store_true', help='writes the list of tasks, and no system')
    words.add_argument('--analyse', action='store_true', help='writes the analysis beside what is seen; the system goes to -o FILE alone')
    words.reads('--handlers', metavar='SYSTEM', help='analyses the handlers of interrupts of a system, - for standard input')
    words.add_argument('--format', choices=handling.FORMATS, default='csv', help='of the analysis: csv, aligned text, or a JSON object in each line')
    words.add_argument('-n', '--horizon', type=source.moment, metavar='N', help='the last moment of the run of --analyse and --handlers')
    words.add_argument('--program', default=source.default_program(), metavar='PATH', help='the program to run (default: %(default)s)')
    words.writes('-o', '--output', metavar='FILE', help='where the system goes (default: standard output)')
    asked = words.asked()
    if asked.handlers:
        return handlers(asked)
    if asked.analyse and (asked.list or asked.output == output.STANDARD):
        raise Fault('--list and --analyse write to the same place' if asked.list else '-o - and --analyse write to the same place')
    tasks = tasks_of(asked)
    if asked.list:
        output.write(asked.output, list_text(tasks))
        return None
    form = Form(tasks, asked.clocks)
    rows = analysis_of(form, asked.program, asked.horizon) if asked.analyse else []
    comments = {('thread', place): [f'response at most {handling.shown(row[6])}, seen {row[7]}'] for place, row in enumerate(rows)}
    if asked.output or not asked.analyse:
        output.write(asked.output, writing.system_text(form.tables(), [f'{len(tasks)} periodic tasks.'], comments))
    if asked.analyse:
        output.write(None, handling.table(asked.format, ANALYSED, rows))
    return None
