"""sweep SYSTEM --set PLACE=VALUES .. --horizon N [--jobs N] [-o FILE.csv]
sweep SYSTEM --least PLACE=A:B --horizon N [--of NAME ..]
sweep SYSTEM --greatest PLACE=A:B --horizon N [--of NAME ..]
sweep SYSTEM --set PLACE=VALUES .. --horizon N --emit DIR; sweep --run FILE ..; sweep --collect DIR

Runs a system with each combination of settings, and writes one CSV: the settings, the exit code of mcscheck and its fault, what was missed, lost,
overdue, untaken and never activated, with chains also what was slow and unanswered, and the greatest response of each thread with a deadline, empty where it ended no round. A combination that is refused is
a line with the exit code 1 and the fault; one with the exit code 6 judged no deadline, so it says nothing. A run that fails in another way ends the sweep: it is no answer about the system.

A PLACE is context.NAME.KEY, thread.NAME.KEY, note.NAME.KEY, thread.NAME.script.K (the number of item K, from 1), order.K.KEY (the K-th order),
link.MAKER-HOME.delay, or delay, call or min_budget, and in version 3 server.NAME.KEY, server.NAME.script.K, source.NAME.KEY, source.NAME.at.K (number K of its list) and chain.NAME.KEY. VALUES are
A:B:STEP with B in it, A:B, or a list with commas. --of looks at these threads and chains alone: at the findings of a thread, at signals lost where it
waits and at chains that end with it, and at what is slow or unanswered of a chain. If both have a name, it means both. A sweep with -o that was interrupted goes on where it was, by the same words and the same programs:
what is done stands in FILE.csv.part.

--least tells the least value of a range under which a deadline is judged and nothing is found, and --greatest the greatest. Each value is tried, from that
end on, since more is not always better. The exit code is 5 if there is none.

On many machines: --emit writes a file for each combination, their names in DIR/jobs, and sweep.pyz, which is all of this tool. An engine runs
`python3 sweep.pyz --run FILE ..` where DIR is seen or copied, which leaves each result beside its file, and --collect makes the CSV of them."""
from __future__ import annotations

import argparse
import contextlib
import itertools
import pathlib
from collections.abc import Iterator
from typing import Optional

from . import farm, frame, options, output, searching, source, system, workers
from .faults import Fault
from .farm import Head
from .journal import Journal
from .options import Options
from .searching import End, Progress
from .sweeping import Sweep, csv_text, line_of
from .verdict import FOUND, Programs, Result


@contextlib.contextmanager
def journal_of(target: output.Target, sweep: Sweep, programs: Programs) -> Iterator[Optional[Journal]]:
    """The journal beside a file that is to be written; a device, a pipe and standard output have none."""
    if target is None or not output.is_replaced(target):
        yield None
        return
    with Journal(target, sweep.head(programs)) as journal:
        yield journal


def run_here(sweep: Sweep, programs: Programs, jobs: int, target: output.Target) -> None:
    """Runs all combinations, and writes their table."""
    with journal_of(target, sweep, programs) as journal:
        results: list[Result] = list(journal.results) if journal else []
        if journal and len(results) > sweep.count:
            raise Fault(f'{journal.path}: {len(results)} results of {sweep.count} combinations: remove it')
        rest = itertools.islice(sweep.combinations(), len(results), None)
        jobs = min(jobs, max(1, sweep.count - len(results)))
        with sweep.results(programs, rest, jobs) as coming, Progress(sweep.count) as progress:
            for result in coming:
                results.append(result)
                if journal:
                    journal.add(result)
                progress.at(len(results))
        rows = (line_of(sweep.columns, values, result) for values, result in zip(sweep.combinations(), results))
        output.write(target, csv_text([sweep.columns, *rows]))
        if journal:
            journal.remove()


def search(sweep: Sweep, programs: Programs, end: End, jobs: int) -> int:
    """Tells the least value or the greatest; returns the exit code."""
    if sweep.settings[0][0].takes_words:
        raise Fault(f'{sweep.places[0]}: --{end.value} wants numbers')
    found = searching.search(sweep, programs, end, jobs)
    print(searching.answer(sweep, end, found))
    return FOUND if found.value is None else 0


def emit(sweep: Sweep, programs: Programs, folder: pathlib.Path) -> None:
    head = Head(sweep.horizon, sweep.of, sweep.columns, programs.digests())
    count = farm.emit(folder, head, ((values, sweep.trial(values).text) for values in sweep.combinations()))
    frame.say(f'{count} systems')


def collect(folder: pathlib.Path, target: output.Target) -> None:
    output.check([target], [folder / farm.HEAD, folder / farm.KEPT])
    head, rows = farm.collected(folder)
    output.write(target, csv_text([head.columns, *(line_of(head.columns, values, result) for values, result in rows)]))


# ---- words


def asked() -> argparse.Namespace:
    words = Options(__doc__)
    words.reads('system', nargs='?', metavar='SYSTEM', help='the file of the system')
    words.add_argument('--set', action='append', default=[], metavar='PLACE=VALUES', help='what is set to which values; may be given several times')
    words.add_argument('--least', metavar='PLACE=A:B', help='tells the least value under which nothing is found')
    words.add_argument('--greatest', metavar='PLACE=A:B', help='tells the greatest value under which nothing is found')
    words.add_argument('--of', nargs='+', default=[], metavar='NAME', help='looks at the findings of these threads and chains alone')
    words.add_argument('-n', '--horizon', type=source.moment, default=source.HORIZON, metavar='N', help='the last moment of each run (default: %(default)s)')
    jobs = options.number(f'no number of jobs, of 1 to {workers.MOST_JOBS}', 1, workers.MOST_JOBS)
    words.add_argument('--jobs', type=jobs, default=workers.processors(), metavar='N', help='how many runs at once (default: all processors, here %(default)s)')
    words.add_argument('--emit', type=pathlib.Path, metavar='DIR', help='writes the systems for an engine, and runs none of them')
    words.reads('--run', nargs='+', metavar='FILE', help='runs systems of --emit, but for those that have a result')
    words.add_argument('--again', action='store_true', help='runs those too that have a result')
    words.add_argument('--collect', type=pathlib.Path, metavar='DIR', help='makes the CSV of the results')
    words.add_argument('--program', default=source.default_program(), metavar='PATH', help='mcsim (default: %(default)s)')
    words.add_argument('--checker', metavar='PATH', help='mcscheck (default: what MCSCHECK names, or that beside mcsim, or on PATH)')
    words.writes('-o', '--output', metavar='FILE', help='where the CSV goes (default: standard output)')
    return words.asked()


def sweep_of(words: argparse.Namespace, sets: list[str]) -> Sweep:
    """The sweep that was asked for, of a system that the program takes."""
    text = system.read_bytes(words.system)
    source.check(words.program, words.system, text)
    return Sweep(words.system, text, sets, words.horizon, words.of)


def main() -> int:
    words = asked()
    if sum([words.system is not None, words.run is not None, words.collect is not None]) != 1:
        raise Fault('one of SYSTEM, --run FILE .. and --collect DIR is wanted')
    if words.run:
        farm.run(words.run, Programs.found(words.program, words.checker), words.again)
        return 0
    if words.collect:
        collect(words.collect, words.output)
        return 0
    ends = [(end, place) for end, place in ((End.LEAST, words.least), (End.GREATEST, words.greatest)) if place]
    if bool(words.set) + len(ends) != 1:
        raise Fault('one of --set PLACE=VALUES, --least PLACE=A:B and --greatest PLACE=A:B is wanted')
    programs = Programs.found(words.program, words.checker)
    sweep = sweep_of(words, words.set or [ends[0][1]])
    if ends:
        return search(sweep, programs, ends[0][0], words.jobs)
    if words.emit:
        emit(sweep, programs, words.emit)
    else:
        run_here(sweep, programs, words.jobs, words.output)
    return 0
