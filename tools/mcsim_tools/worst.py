"""worst SYSTEM --of THREAD|CHAIN --vary PLACE=RANGE .. --horizon N [--runs N] [-o FILE]
worst SYSTEM --of THREAD|CHAIN --ranges FILE --horizon N [--all]
worst SYSTEM --of THREAD|CHAIN --phases [--times PERCENT] --horizon N

Searches for the worst response time of a thread, or the worst latency of a chain, over what you
leave open in a system: offsets and phases, execution times, bursts and jitter of interrupts. The
search begins with the critical instant and the ends of all ranges. Then it climbs several times,
from random points: it changes one value or a few of the best ones, or puts an interrupt where
something happens in the worst job. It reports the worst value found, what gives it, and the command
that shows why; -o writes the system with these values. The value is that of a run: the worst case
is this or more. Only --all covers every combination, and then none up to N is more.

The latency of a chain is the greatest of an answer: from an interrupt of its source to the end of
the first job that answers it. An interrupt without an answer at N counts with its age, if that is
more.

A PLACE is one of `tools/sweep`, such as thread.NAME.script.K, source.NAME.start or
thread.NAME.start. A RANGE is A..B, A..B:STEP, or a list with commas. source.NAME.at takes
`jitter J`, each interrupt comes up to J ticks late, and `burst N in W`, N interrupts come anywhere
in the first W ticks of each period. FILE is TOML with a line PLACE = "RANGE" each. --phases leaves
open the start of each source, and of each thread that waits for nothing first, over a period;
--times each `compute`, from PERCENT of its number to all of it.

Equal options give equal answers, and --jobs changes nothing. If a search with -o was interrupted,
the same command continues it: FILE.part keeps the runs until all are done.

The exit code is 5 if the worst value is above the deadline of the thread or the chain, or if no job
was activated or no interrupt came."""
from __future__ import annotations

import argparse
import contextlib
import hashlib
import pathlib
from collections.abc import Iterator
from dataclasses import dataclass, replace
from typing import Any, Optional

from . import bounding, climbing, frame, guiding, options, output, ranges, source, system, workers
from .bounding import NoBound
from .climbing import Climb, Point
from .faults import Fault
from .guiding import Guide
from .journal import Journal
from .latency import Latencies
from .options import Options
from .ranges import Space
from .settings import Tables
from .trying import Case, Question, Responses, Seeking, Seen, Trials, program_of, team
from .verdict import FOUND, Programs

RUNS = 2000
MOST_RUNS = 10**6


def climb(space: Space, runs: int, seed: int, guide: Optional[Guide]) -> Climb:
    """The search through a space."""
    search = Climb(space.sizes, space.corners(), runs, seed, space.longest())
    search.join(space.places())
    search.guide = guide.step if guide and guide.starts else None
    return search


class Reached(Exception):
    """The bound of the analysis was reached: no run can give more."""


@dataclass(frozen=True)
class Search:
    """What is searched for, and how long."""

    space: Space
    question: Question
    base: Seen
    bound: Optional[int]
    why_no_bound: str
    runs: int
    seed: int
    is_all: bool
    # mcsim, which shows the rows of a run
    program: str

    @property
    def is_whole(self) -> bool:
        """Whether all points are tried."""
        return self.is_all or self.space.count <= self.runs

    @property
    def count(self) -> int:
        """How many runs there are at most."""
        return self.space.count if self.is_whole else self.runs

    def batches(self) -> climbing.Batches:
        if self.is_whole:
            return climbing.exhaust(self.space.all())
        guide = Guide(self.space, self.question.horizon, guiding.runs_of(self.space, self.question, self.program))
        return climb(self.space, self.runs, self.seed, guide).run()

    def seen(self, point: Point) -> Seen:
        return self.question.seen(self.space.tables_of(point))

    def run(self, jobs: int, journal: Optional[Journal]) -> Trials:
        """Makes the runs."""
        progress = Seeking(self.count)
        with team(self.seen, min(jobs, self.count)) as run, progress:
            trials = Trials(self.question.name, run, journal, progress)

            def values(batch: list[Point]) -> list[climbing.Value]:
                found = trials.values(batch)
                if not self.is_whole and self.bound is not None and trials.best.value == self.bound and not trials.best.is_open:
                    raise Reached
                return found

            try:
                climbing.drive(self.batches(), values)
            except Reached:
                pass
            except (KeyboardInterrupt, SystemExit):
                progress.end()
                frame.say(self.broken_off(trials, journal))
                raise
        return trials

    def broken_off(self, trials: Trials, journal: Optional[Journal]) -> str:
        """What an interrupted search has found."""
        best = 'nothing is found' if trials.point is None else f'worst {trials.best.value} with {" ".join(self.space.said(trials.point))}'
        goes_on = '; the same command goes on' if journal else ''
        return f'interrupted after {trials.done:,} of {self.count:,} runs: {best}{goes_on}'


# ---- the answer


class Answer:
    """What a search found, in lines."""

    def __init__(self, search: Search, trials: Trials, deadline: int, path: Optional[pathlib.Path]) -> None:
        self.search, self.trials, self.deadline, self.path = search, trials, deadline, path
        self.question, self.name = search.question, search.question.name
        self.text, self.case = '', Case('')
        if trials.point is not None:
            self.text = search.space.text_of(trials.point, self.head())
            self.case = self.question.case(search.space.tables_of(trials.point), trials.best)

    @property
    def is_late(self) -> bool:
        """Whether the deadline is missed, or overdue at the horizon; or nothing happened."""
        value = self.trials.best.value
        if value is None:
            return True
        return 0 < self.deadline and (value > self.deadline or self.trials.best.is_open and value >= self.deadline)

    def value_text(self) -> str:
        best = self.trials.best
        return f'{best.value} or more' if best.is_open else str(best.value)

    def head(self) -> list[str]:
        """The comments of the file."""
        assert self.trials.point is not None
        found = f'The worst {self.question.what} of {self.name} that tools/worst found up to {self.question.horizon}: {self.value_text()}. {self.tried()}.'
        return [found, *self.search.space.said(self.trials.point)]

    def tried(self) -> str:
        search, done = self.search, self.trials.done
        if search.is_whole and done == search.count:
            return f'All {done:,} combinations were tried'
        return f'{done:,} of {search.space.count:,} combinations were tried, seed {search.seed}'

    def lines(self) -> list[str]:
        best = self.trials.best
        if self.trials.point is None:
            return [f'{self.name}: {self.question.nothing()}', f'{self.tried()}{self.refused()}']
        late = f', deadline {self.deadline}, slack {self.deadline - (best.value or 0)}' if self.deadline else ''
        lines = [f'{self.name}: worst {self.question.what} found {self.value_text()}{late} (as the file stands: {self.as_in_file()})']
        lines.append(f'with {" ".join(self.search.space.said(self.trials.point))}')
        lines.append(f'{self.tried()}{self.refused()}: {self.worth()}')
        return [*lines, self.analysed(), *self.question.notes(), *self.shown()]

    def as_in_file(self) -> str:
        base = self.search.base
        return 'none' if base.value is None else f'{base.value}{" or more" * base.is_open}'

    def refused(self) -> str:
        first = self.trials.first_refused
        if first is None:
            return ''
        return f', {self.trials.refused:,} of them refused, the first {" ".join(self.search.space.said(first[0]))}: {first[1]}'

    def worth(self) -> str:
        """What the answer is worth."""
        search = self.search
        if search.is_whole and self.trials.done == search.count:
            return f'exhaustive, so no {self.question.what} of these systems up to {self.question.horizon} is longer'
        return 'no bound, so the worst case is this or more'

    def analysed(self) -> str:
        bound, value = self.search.bound, self.trials.best.value or 0
        if bound is None:
            return f'response-time analysis: none, since {self.search.why_no_bound}'
        if value == bound:
            return f'response-time analysis: at most {bound}, and that is reached'
        if value > bound:
            return f'response-time analysis: at most {bound}, which is less: please report this as a defect'
        return f'response-time analysis: at most {bound}, so {bound - value} more may exist'

    def shown(self) -> list[str]:
        """How to see why."""
        case, path = self.case, self.path
        if path is None:
            return [f'{case.said}; -o FILE writes this system']
        asked = f'{path} --horizon {self.question.horizon}'
        span = f' --from {case.span[0]} --to {case.span[1]}' if case.span else ''
        why = '' if case.asked is None else f': mcscheck {asked}{case.asked}'
        return [f'{case.said}{why}', f'picture: tools/view {asked}{span} -o {path.with_suffix(".html")}']


# ---- options


def asked() -> argparse.Namespace:
    words = Options(__doc__)
    words.reads('system', metavar='SYSTEM', help='the file of the system')
    words.add_argument('--of', required=True, metavar='THREAD|CHAIN', help='whose response or latency is to be the worst; chain.NAME if a thread has the same name')
    words.add_argument('--vary', action='append', default=[], metavar='PLACE=RANGE', help='what is left open; may be given several times')
    words.reads('--ranges', metavar='FILE', help='what is left open, as a table')
    words.add_argument('--phases', action='store_true', help='leaves open when each source and each thread begins')
    percent = options.number('no share of 1 to 100 percent', 1, 100)
    words.add_argument('--times', type=percent, metavar='PERCENT', help='leaves open each execution time, from this share of it on')
    words.add_argument('-n', '--horizon', type=source.moment, default=source.HORIZON, metavar='N', help='the last time of each run (default: %(default)s)')
    runs = options.number(f'no number of runs, of 1 to {MOST_RUNS}', 1, MOST_RUNS)
    words.add_argument('--runs', type=runs, default=RUNS, metavar='N', help='how many runs there are at most (default: %(default)s)')
    words.add_argument('--all', action='store_true', help=f'tries all combinations, at most {MOST_RUNS}')
    words.add_argument('--seed', type=options.number('no seed', 0, 2**63 - 1), default=1, metavar='S', help='the seed of the search (default: %(default)s)')
    jobs = options.number(f'no number of jobs, of 1 to {workers.MOST_JOBS}', 1, workers.MOST_JOBS)
    words.add_argument('--jobs', type=jobs, default=workers.processors(), metavar='N', help='how many runs at once (default: all processors, here %(default)s)')
    words.add_argument('--program', default=source.default_program(), metavar='PATH', help='mcsim (default: %(default)s)')
    words.add_argument('--checker', metavar='PATH', help='mcscheck (default: what MCSCHECK names, or that beside mcsim, or on PATH)')
    words.writes('-o', '--output', metavar='FILE', help='where the worst system goes (default: nowhere)')
    return words.asked()


def opened(words: argparse.Namespace, tables: Tables) -> list[str]:
    """What is left open, as PLACE=RANGE; what is given by name goes before what is not."""
    given = [*words.vary, *(ranges.texts_of_file(words.ranges) if words.ranges else [])]
    named = {ranges.place_and_range(text)[0] for text in given}
    implied = [*(ranges.phases_of(tables) if words.phases else []), *(ranges.times_of(tables, words.times) if words.times else [])]
    texts = [*given, *(text for text in implied if ranges.place_and_range(text)[0] not in named)]
    if not texts:
        raise Fault('nothing is left open: give --vary PLACE=RANGE, --ranges FILE, --phases or --times PERCENT')
    return texts


def longest(space: Space) -> Point:
    """The point with the longest times and the earliest starts."""
    return tuple(own for choice in space.choices for own in (choice.greatest if choice.is_time else choice.least))


def bound_of(space: Space, thread: str) -> tuple[Optional[int], str]:
    """The bound of the analysis for all points, or why there is none."""
    for choice in space.choices:
        is_start = isinstance(choice, ranges.Numbers) and choice.period > 0
        if not choice.is_time and not is_start:
            return None, f'{choice.text} is left open'
    try:
        return bounding.bound(space.tables_of(longest(space)), thread), ''
    except NoBound as reason:
        return None, str(reason)


def question_of(words: argparse.Namespace, tables: Tables, programs: Programs) -> Question:
    """What is to be the worst: the response of a thread, or the latency of a chain."""
    name = ranges.known_chain(words.of, tables)
    if name is None:
        return Responses(program_of(programs.checker), words.of, words.horizon)
    chain = system.system_of(tables).chains[name]
    return Latencies(program_of(programs.program), chain, words.horizon)


def search_of(words: argparse.Namespace, text: bytes, programs: Programs) -> Search:
    """The search that is asked for."""
    tables = system.tables_of(words.system, text)
    question = question_of(words, tables, programs)
    space = Space(tables, [ranges.choice_of(each, tables, words.horizon) for each in opened(words, tables)])
    if words.all and space.count > MOST_RUNS:
        raise Fault(f'--all: {space.count:,} combinations, of at most {MOST_RUNS:,}')
    base = question.seen(tables)
    if isinstance(question, Responses):
        question = replace(question, least=base.value or 1)
        bound, why = bound_of(space, words.of)
    else:
        bound, why = None, f'{question.name} is a chain'
    return Search(space, question, base, bound, why, words.runs, words.seed, words.all, program_of(programs.program))


@contextlib.contextmanager
def journal_of(words: argparse.Namespace, text: bytes, search: Search, programs: Programs) -> Iterator[Optional[Journal]]:
    """The journal beside a file that is to be written."""
    target: output.Target = words.output
    if target is None or not output.is_replaced(target):
        yield None
        return
    opened = [f'{choice.text} {choice!r}' for choice in search.space.choices]
    head: dict[str, Any] = {
        'system': hashlib.sha256(text).hexdigest(), 'worst of': search.question.key, 'open': hashlib.sha256('\n'.join(opened).encode()).hexdigest(),
        'horizon': words.horizon, 'seed': words.seed, 'all': search.is_whole, 'runs': search.count, 'programs': programs.digests(),
    }
    with Journal(target, head) as journal:
        yield journal


def main() -> int:
    words = asked()
    text = system.read_bytes(words.system)
    programs = Programs.found(words.program, words.checker)
    source.check(words.program, words.system, text)
    search = search_of(words, text, programs)
    with journal_of(words, text, search, programs) as journal:
        trials = search.run(words.jobs, journal)
        section = 'chain' if isinstance(search.question, Latencies) else 'thread'
        deadline = next(row.get('deadline', 0) for row in search.space.tables[section] if row['name'] == search.question.name)
        answer = Answer(search, trials, deadline, words.output)
        if words.output and answer.text:
            output.write(words.output, answer.text)
        print('\n'.join(answer.lines()))
        if journal:
            journal.remove()
    return FOUND if answer.is_late else 0
