"""compare SYSTEM TRACE.csv --horizon N [--unit U] [--offset T] [--take FILE]

Lays a measured trace beside the schedule of a system. It reports the unit and the offset of the
trace's times; for each thread its jobs, run times and worst job in both; and the first time at
which both part, with the runs before it.

TRACE.csv has a line for each switch: a time, a core, and the thread that runs from then on. The
first line names the columns: time, core, thread and event, or what --time, --core, --thread and
--event say. Without a column of events each line is a switch; else events are run, stop, wake and
interrupt, or what --events says. Threads have the names of SYSTEM, or those of --name. An empty
name, idle, swapper and a thread that SYSTEM does not have are an idle core.

Times are decimal numbers that never fall. --unit says how many of them a tick is, and --offset the
time of tick 0. The tool fits what you don't give to the times at which threads begin to run. Two
times are the same within --tolerance ticks (default: by the spread of the fit, and 1 at least).

A job begins with the wake of its thread if the trace has wakes, else with its first tick. It ends
when the thread stops without a preemption: the core is then idle, or runs a lower priority. Run
times of a thread differ if the median of the differences is above --percent and above chance.

--take writes what the trace saw as a table of ranges for tools/worst: the execution times of each
script with one `compute`, and the arrivals of interrupts as comments.

The exit code is 0 if both agree, and 5 if they part or run times differ."""
from __future__ import annotations

import argparse
import decimal
import math
import statistics
from collections.abc import Sequence
from dataclasses import dataclass
from typing import Optional

from . import comparing, frame, measured, output, source, system, tables
from .comparing import Compared, Fit, Fitting, Job, Parting, Side, Spell
from .faults import Fault
from .measured import Columns, Trace
from .options import Options
from .reading import read
from .settings import Tables
from .system import System
from .verdict import FOUND

# runs before the parting that are shown, and columns of each side
SHOWN, WIDTH = 6, 36
PERCENT = 1.0
# a fit with less than this share of the runs is no fit
POOR = 0.5
HEAD = ('thread', 'jobs', 'in trace', 'run time', 'in trace', 'differs', 'worst', 'in trace')


@dataclass(frozen=True)
class Beside:
    """A schedule and a trace beside each other, in ticks."""

    system: System
    fit: Fit
    ours: Side
    theirs: Side
    # from when to when both have something
    begin: float
    until: float
    parting: Optional[Parting]
    compared: Sequence[Compared]
    has_wakes: bool

    @property
    def is_same(self) -> bool:
        return self.parting is None and all(one.longer is None for one in self.compared)


def beside(known: System, ours: Side, trace: Trace, given: tuple[Optional[float], Optional[float], Optional[float]], share: float) -> Beside:
    """Fits a trace to a schedule and compares both where both have something."""
    raw = comparing.side_of(trace)
    fit = Fitting(ours.begins(), raw.begins()).fit(*given)
    theirs = raw.scaled(fit.unit, fit.offset)
    begin = max(ours.ends[0], theirs.ends[0]) - fit.tolerance
    until = min(ours.ends[1], theirs.ends[1])
    ours, theirs = comparing.cut(ours, begin, math.inf), comparing.cut(theirs, begin, math.inf)
    has_wakes = any(row.kind == measured.WAKE for row in trace.rows)
    both = [comparing.jobs_of(known, comparing.cut(side, begin, until), has_wakes) for side in (ours, theirs)]
    names = [name for name in known.threads if any(name in jobs for jobs in both)]
    compared = [comparing.compared(name, both[0].get(name, []), both[1].get(name, []), fit.tolerance, share) for name in names]
    parting = comparing.first_parting(known, ours, theirs, fit.tolerance, until - fit.tolerance)
    return Beside(known, fit, ours, theirs, begin, until, parting, compared, has_wakes)


# ---- what is told


def lines_of(found: Beside, trace: Trace) -> list[str]:
    lines = [fit_said(found, trace)]
    if found.fit.matched < POOR:
        lines.append('few runs agree, so this fit may be wrong: --unit and --offset give another one')
    lines += ['', *table_of(found), '']
    return [*lines, *parting_of(found)]


def fit_said(found: Beside, trace: Trace) -> str:
    """How the trace's times become ticks."""
    zero, near = trace.first + decimal.Decimal(found.fit.offset), f'within {comparing.LEAST_TOLERANCE:g} tick of the schedule\'s'
    return f'a tick is {found.fit.unit:.6g} units of the trace, and tick 0 is at {zero:.1f}; {found.fit.matched:.1%} of its runs begin {near}'


def number(value: Optional[float]) -> str:
    # what is rounded to 0 has no sign
    return '-' if value is None else f'{round(value, 1) + 0.0:.1f}'.removesuffix('.0')


def cells_of(one: Compared) -> list[str]:
    ours, theirs = one.means
    differs = '' if one.longer is None else f'{one.longer:+.1%}'
    worst = [max((job.span for job in jobs), default=None) for jobs in (one.ours, one.theirs)]
    return [one.name, str(len(one.ours)), str(len(one.theirs)), number(ours), number(theirs), differs, *map(number, worst)]


def table_of(found: Beside) -> list[str]:
    """The threads, in columns. The run time is the mean of jobs; the worst one is from the wake on
    if the trace has wakes, else from the first tick."""
    rows = [list(HEAD), *map(cells_of, found.compared)]
    widths = [max(len(row[place]) for row in rows) for place in range(len(HEAD))]
    lines = ['  '.join(cell.ljust(width) if place == 0 else cell.rjust(width) for place, (cell, width) in enumerate(zip(row, widths))) for row in rows]
    return [*lines, f'worst: from the {"wake" if found.has_wakes else "first tick"} of a job to its end, in ticks']


def parting_of(found: Beside) -> list[str]:
    """The first time at which both part, with the runs before it."""
    parting = found.parting
    differ = [one.name for one in found.compared if one.longer is not None]
    if parting is None:
        whom = f'; run times differ: {", ".join(differ)}' if differ else ''
        return [f'up to {found.until:.1f} both run the same threads at the same times, within {found.fit.tolerance:.1f} ticks{whom}']
    lines = [f'both part at {parting.time:.1f} on core {parting.core}: {parting.why}', f'{"schedule":<{WIDTH}}trace']
    ours, theirs = (side.spells.get(parting.core, []) for side in (found.ours, found.theirs))
    for back in range(SHOWN, -2, -1):
        pair = [line_of(spells, place - back) for spells, place in ((ours, parting.ours), (theirs, parting.theirs))]
        if any(pair):
            lines.append(f'{pair[0]:<{WIDTH}}{pair[1]}{"  <" if back == 0 else ""}'.rstrip())
    return lines


def line_of(spells: Sequence[Spell], place: int) -> str:
    if not 0 <= place < len(spells):
        return ''
    spell = spells[place]
    return f'{number(spell.begin):>9} {number(spell.end):>9}  {spell.name}'


# ---- what the trace is worth as numbers


def taken(found: Beside, trace: Trace, made: Tables) -> str:
    """The execution times that the trace saw, as a table of ranges, and the arrivals of interrupts."""
    lines = ['# Execution times in ticks, from the least to the greatest that the trace saw, as ranges for tools/worst --ranges.']
    call = made.get('call', 1)
    jobs = {one.name: one.theirs for one in found.compared}
    for row in made['thread']:
        place, cost = computed(row['script'], call)
        if place and jobs.get(row['name']):
            lines.append(f'thread.{row["name"]}.script.{place} = "{range_of(jobs[row["name"]], cost)}"')
        elif jobs.get(row['name']):
            lines.append(f'# thread {row["name"]} does not have one compute: {range_of(jobs[row["name"]], 0)} for all of its script')
    for name in found.system.sources:
        ticks = [round((row.time - found.fit.offset) / found.fit.unit) for row in trace.rows if row.kind == measured.INTERRUPT and row.name == name]
        if ticks:
            rising = sorted(set(ticks))
            lines.append(f'# source {name}: period = {rising[-1] - rising[0] + 1}, start = {rising[0]}, at = {[tick - rising[0] for tick in rising]}')
    return ''.join(f'{line}\n' for line in lines)


def computed(script: Sequence[str], call: int) -> tuple[int, int]:
    """The number of a script's one `compute`, 0 if it has none or several, and what the other items cost."""
    words = [item.split()[0] for item in script]
    places = [place for place, word in enumerate(words, 1) if word == 'compute']
    if len(places) != 1 or set(words) - {'compute', 'wait', 'signal', 'yield'}:
        return 0, 0
    return places[0], call * (len(words) - 1)


def range_of(jobs: Sequence[Job], cost: int) -> str:
    """The least and the greatest time. Jobs below half of the median are left out: a thread that
    only reaches its first wait runs for a call."""
    least = statistics.median(job.ran for job in jobs) / 2
    times = [max(1, round(job.ran - cost)) for job in jobs if job.ran >= least]
    return f'{min(times)}..{max(times)}'


# ---- options


def exact(text: str) -> decimal.Decimal:
    found = measured.decimal_of(text)
    if found is None:
        raise argparse.ArgumentTypeError(f'{text!r} is no decimal number')
    return found


def positive(text: str) -> float:
    found = float(exact(text))
    if found <= 0:
        raise argparse.ArgumentTypeError(f'{text!r} is no decimal number above 0')
    return found


def add_trace(words: Options) -> None:
    """The options that say how a trace is read and fitted."""
    for column in Columns._fields:
        words.add_argument(f'--{column}', default=column, metavar='COLUMN', help=f'the column of the {column} (default: {column})')
    words.add_argument('--events', action='append', default=[], metavar='KIND=WORD', help=f'the word of the trace for an event: {", ".join(measured.KINDS)}')
    words.add_argument('--name', action='append', default=[], metavar='TRACE=THREAD', help='the thread or source of SYSTEM that has another name in the trace')
    words.add_argument('--idle', action='append', default=[], metavar='NAME', help='a name of the trace for a core that runs nothing')
    words.add_argument('--unit', type=positive, metavar='U', help='how many units of the trace a tick is (default: fitted)')
    words.add_argument('--offset', type=exact, metavar='T', help='the time of tick 0 in the trace (default: fitted)')
    words.add_argument('--tolerance', type=positive, metavar='TICKS', help='times as far apart are the same (default: fitted, and 1 at least)')


def found_beside(words: argparse.Namespace, known: System, ours: Side, share: float) -> tuple[Beside, Trace]:
    """The trace of the options, fitted to a schedule."""
    if not ours.spells:
        raise Fault(f'{words.system}: no thread runs up to the horizon')
    columns = Columns(*(getattr(words, column) for column in Columns._fields))
    trace = measured.Reader(words.trace, known, measured.words_of(columns, words.events, words.name, words.idle, known)).read()
    offset = None if words.offset is None else float(words.offset - trace.first)
    if not ours.begins().keys() & comparing.side_of(trace).begins().keys():
        raise Fault(f'{words.trace}: no thread runs for some time both in it and in the schedule')
    found = beside(known, ours, trace, (words.unit, offset, words.tolerance), share)
    for what, many in trace.passed_over.items():
        frame.say(f'{words.trace}: {what or "an empty one"} is not of the system, {many} rows')
    return found, trace


def asked() -> argparse.Namespace:
    words = Options(__doc__)
    words.reads('system', metavar='SYSTEM', help='the file of the system')
    words.reads('trace', metavar='TRACE.csv', help='the measured trace, - for standard input')
    words.add_argument('-n', '--horizon', type=source.moment, default=source.HORIZON, metavar='N', help='the last time of the schedule (default: %(default)s)')
    add_trace(words)
    words.add_argument('--percent', type=positive, default=PERCENT, metavar='P', help='run times whose means are as close are the same (default: %(default)s)')
    words.add_argument('--program', default=source.default_program(), metavar='PATH', help='the program to run (default: %(default)s)')
    words.writes('--take', metavar='FILE', help='where the times that the trace saw go')
    return words.asked()


def main() -> int:
    words = asked()
    text = system.read_bytes(words.system)
    with source.run(words.program, words.system, text, words.horizon) as told:
        listener = comparing.Ran()
        read(told, listener)
    found, trace = found_beside(words, told.system, listener.side, words.percent / 100)
    print('\n'.join(lines_of(found, trace)))
    if words.take:
        output.write(words.take, taken(found, trace, tables.read(text)))
    return 0 if found.is_same else FOUND
