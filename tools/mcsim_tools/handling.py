"""The table of `tasks --handlers`: for each source of a system the bound of the analysis for the job that handles its interrupts, and for each chain that of
its latency, beside what a run shows."""
from __future__ import annotations

import csv
import io
import json
import math
import pathlib
from collections.abc import Iterable, Mapping, Sequence
from typing import NamedTuple, Optional

from . import analysis, source, system
from .analysis import TooLong
from .faults import Fault
from .handlers import Bound, Handlers
from .jobs import Job, Servers, jobs_of
from .latency import Latencies
from .reactions import Reactions
from .rows import no_row, rows_of
from .settings import Tables

COLUMNS = ('source', 'thread', 'badge', 'core', 'priority', 'work', 'blocking', 'bound', 'seen', 'ratio', 'deadline', 'margin', 'why')
FORMATS = ('csv', 'text', 'json')
# the last moment of a run that is taken unasked: some seconds of reading its rows
FAR = 10**6
CHAIN = 'chain.'
Cell = object


class Handled:
    """The greatest time from an interrupt of each source to the end of the job that takes it, as rows tell it. An interrupt that has no such job at the horizon
    counts with its age."""

    def __init__(self, jobs: Mapping[str, Job], sources: Iterable[Tables]) -> None:
        self.jobs = jobs
        self.by_note = {job.note: job for job in jobs.values() if job.note}
        self.badges: dict[str, int] = {row['name']: row['badge'] for row in sources}
        self.pending: dict[str, dict[str, int]] = {row['note']: {} for row in sources}
        self.taken: dict[str, dict[str, int]] = {}
        self.greatest: dict[str, int] = {}
        # the source whose interrupt the next row is about
        self.arriving = ''

    def read(self, lines: Iterable[str], horizon: int) -> dict[str, int]:
        """Returns what is seen of each source that interrupts."""
        for number, moment, _, kind, words in rows_of(lines):
            try:
                self.row(moment, kind, words)
            except KeyError:
                raise no_row(number, words) from None
        for held in [*self.pending.values(), *self.taken.values()]:
            self.saw(held, horizon)
        return self.greatest

    def row(self, moment: int, kind: str, words: Sequence[str]) -> None:
        if kind in ('interrupt', 'signal', 'arrive'):
            self.arriving = words[3] if kind == 'interrupt' else ''
        elif kind == 'hold' and self.arriving:
            self.pending[words[3]].setdefault(self.arriving, moment)
        elif kind == 'wake':
            self.take(words[3], words[4], int(words[5]), {self.arriving: moment} if self.arriving else {})
        elif kind == 'got':
            self.take(words[3], words[4], int(words[5]), self.pending.get(words[4], {}))
            self.pending[words[4]] = {}
        elif kind == 'round':
            self.saw(self.taken.pop(words[3], {}), moment)

    def take(self, thread: str, note: str, word: int, held: dict[str, int]) -> None:
        """A wait takes what is held. It begins a job if it is the script's first, and leaves something to do."""
        job = self.jobs[thread]
        if job.note == note and thread not in self.taken and job.has_steps_for(word):
            self.taken[thread] = {name: moment for name, moment in held.items() if job.has_steps_for(self.badges[name])}

    def saw(self, held: Mapping[str, int], end: int) -> None:
        for name, moment in held.items():
            self.greatest[name] = max(self.greatest.get(name, 0), end - moment)


class Found(NamedTuple):
    """What is found of a system: a bound for each source, and what is seen."""

    bounds: list[Bound]
    seen: dict[str, int]

    def defects(self) -> list[str]:
        """Where a run shows more than a bound."""
        return [
            f'{each.source}: {self.seen[each.source]} was seen, and the bound is {each.most}: please report this as a defect'
            for each in self.bounds if each.most is not None and self.seen.get(each.source, 0) > each.most
        ]


def horizon_of(tables: Tables) -> int:
    """How long a run is unasked: all phases of sources and budgets twice, if that is not too far."""
    rows = [*tables.get('source', []), *tables.get('context', [])]
    starts = [row.get('start', 0) for section in ('source', 'thread') for row in tables.get(section, [])]
    periods: list[int] = [row['period'] for row in rows] or [1]
    return min(FAR, int(max(starts, default=0)) + max(periods) + 2 * math.lcm(*periods))


def bounds_of(tables: Tables) -> list[Bound]:
    """The bounds of the sources and the chains, in the order of the file."""
    try:
        handlers = Handlers(tables)
        bounds = handlers.run()
        reactions = Reactions(tables, handlers)
        return [*bounds, *(reactions.of(chain) for chain in tables.get('chain', []))]
    except TooLong:
        raise Fault(f'the analysis of this system adds up more than {analysis.MOST_TERMS:,} terms: shorter busy periods have fewer') from None


def seen_in(program: str, path: pathlib.Path, text: bytes, tables: Tables, horizon: int) -> dict[str, int]:
    """What a run shows."""
    running = source.Run(program, path, text, ['--horizon', str(horizon)])
    try:
        seen = Handled(jobs_of(tables, Servers(tables)), tables.get('source', [])).read(running.lines(), horizon)
    finally:
        running.end()
    for chain in system.parse(path, text).chains.values():
        worst = Latencies(program, chain, horizon).seen(dict(tables)).value
        if worst is not None:
            seen[f'{CHAIN}{chain.name}'] = int(worst)
    return seen


def found_of(program: str, path: pathlib.Path, horizon: Optional[int]) -> Found:
    """Analyses a system and runs it. The program tests the file first, since its faults have places."""
    text = system.read_bytes(path)
    source.check(program, path, text)
    tables = system.tables_of(path, text)
    if not tables.get('source'):
        raise Fault(f'{path}: there is no source, so there is no handler of an interrupt')
    bounds = bounds_of(tables)
    return Found(bounds, seen_in(program, path, text, tables, horizon_of(tables) if horizon is None else horizon))


# ---- the table


def cells(bound: Bound, seen: Optional[int]) -> list[Cell]:
    job, most, deadline = bound.job, bound.most, bound.deadline or None
    ratio = None if most is None or seen is None else seen / most
    margin = None if most is None or deadline is None else deadline - most
    # the work of a chain is that of several threads
    work = None if job is None or bound.source.startswith(CHAIN) else job.work(bound.badge)
    own: list[Cell] = [None] * 3 if job is None else [job.name, job.core, job.priority]
    return [bound.source, own[0], bound.badge, *own[1:], work, bound.blocking, most, seen, ratio, deadline, margin, bound.why or None]


def shown(cell: Cell) -> str:
    if cell is None:
        return 'none'
    return f'{cell:.3f}' if isinstance(cell, float) else str(cell)


def in_text(head: Sequence[str], rows: Sequence[Sequence[Cell]]) -> str:
    """Columns below each other; words begin at the left, and numbers end at the right."""
    columns = [[name, *(shown(row[place]) for row in rows)] for place, name in enumerate(head)]
    is_word = [any(isinstance(row[place], str) for row in rows) for place in range(len(head))]
    padded = []
    for column, word in zip(columns, is_word):
        width = max(map(len, column))
        padded.append([cell.ljust(width) if word else cell.rjust(width) for cell in column])
    return ''.join(f'{"  ".join(line).rstrip()}\n' for line in zip(*padded))


def in_json(head: Sequence[str], rows: Sequence[Sequence[Cell]]) -> str:
    rounded = ([round(cell, 3) if isinstance(cell, float) else cell for cell in row] for row in rows)
    return ''.join(json.dumps(dict(zip(head, row))) + '\n' for row in rounded)


def in_csv(head: Sequence[str], rows: Sequence[Sequence[Cell]]) -> str:
    text = io.StringIO()
    csv.writer(text, lineterminator='\n').writerows([head, *(map(shown, row) for row in rows)])
    return text.getvalue()


def table(form: str, head: Sequence[str], rows: Sequence[Sequence[Cell]]) -> str:
    """A table as CSV, as text, or as JSON with an object in each line."""
    return {'csv': in_csv, 'text': in_text, 'json': in_json}[form](head, rows)


def table_of(found: Found, form: str) -> str:
    return table(form, COLUMNS, [cells(bound, found.seen.get(bound.source)) for bound in found.bounds])
