#!/usr/bin/env python3
"""Runs the gate (rt ci), and reports its CPU seconds by crate, in Markdown; with --write it keeps them as the table of the gate's cost.

After the table: the longest chain of tasks of which each waits for the one before, the wall time on 2 and on 4 processors by a model
(gate_tasks.py), and the dearest edits. All this goes to TIMES, or else it is shown. The columns are a crate's own proof; its tests' proof; and its edits
(timed_rt.py). The last line is that of rt ci. If rt cannot be timed, it runs without clocks and tries edits in its own way, and a line says so.

A task that an earlier gate on this machine kept takes next to nothing, so a whole table needs --anew. --from FILE takes a run already made, of its
report or of the .json beside it, and runs nothing. --write keeps a run from nothing as checks/proofs/gate.csv, and writes the section of
checks/README.md that has it. It refuses a crate that cost half as much again as in the table before, unless --why says why.

./test says at its end, by --compare, which five parts took longest, and how each compares with the table. The whole fails if it costs more than 1.3
times what the table gives for what was done, times the median ratio (gate_beside.py)."""
from __future__ import annotations

import argparse
import collections
import json
import os
import pathlib
import shutil
import sys
import tempfile
from collections.abc import Iterable, Sequence
from typing import Any

sys.dont_write_bytecode = True
sys.path[0] = str(pathlib.Path(__file__).resolve().parents[2])
from checks import common
from checks.common import Tally
from checks.proofs import gate_cost
from checks.proofs.gate_beside import compare
from checks.proofs.gate_cost import COLUMNS, PAGE, TABLE, Cost, cells
from checks.proofs.gate_tasks import Measured, Task, edits_in, longest_chain, measured, wall

HERE = pathlib.Path(__file__).resolve().parent
DEAREST = 25
# the numbers of processors of the model
LANES = (2, 4)


def sums_of(tasks: Sequence[Task]) -> dict[str, float]:
    """The seconds of each column."""
    return {column: sum(task.seconds for task in tasks if task.part in parts) for column, parts in COLUMNS.items()}


def above(tasks: Sequence[Task], crate: str) -> set[str]:
    """The crate and those whose proof waits for its proof: a change of the crate has all these proved and tried again."""
    waiting = {task.crate for task in tasks if task.part == 'proof' and any(tasks[place].crate == crate for place in task.waits)}
    return {crate, *waiting}


def row(name: str, tasks: Sequence[Task], of_change: float) -> str:
    """A row of the table; a dash is what a crate has not."""
    shown = [f'{spent:.0f}' if spent >= 0.5 else '-' for spent in sums_of(tasks).values()]
    return cells([name, *shown, edits_in(tasks) or '-', f'{minutes_of(tasks):.1f}', f'{of_change:.0f}'])


def minutes_of(tasks: Iterable[Task]) -> float:
    return sum(task.seconds for task in tasks) / 60


def table(tasks: Sequence[Task]) -> list[str]:
    """The table, with a row for each crate, lowest first, and one for all; its last column has what a change of the crate costs."""
    rows = []
    for crate in dict.fromkeys(task.crate for task in tasks):
        again = above(tasks, crate)
        own = [task for task in tasks if task.crate == crate]
        rows.append(row(f'`{crate}`', own, minutes_of(task for task in tasks if task.crate in again)))
    head = ['Crate', *COLUMNS, 'Number of edits', 'Minutes', 'Minutes of a change']
    return [cells(head), '|' + '---|' * len(head), *rows, row('in all', tasks, minutes_of(tasks))]


def chain_line(found: Measured) -> str:
    chain = longest_chain(found.tasks)
    steps = ', '.join(f'{task.name} {task.seconds:.0f}' for task in chain if task.seconds >= 0.5)
    minutes = (sum(task.seconds for task in chain) + found.runs) / 60
    return f'Longest chain: {minutes:.1f} minutes: {steps}; runs of tests and programs {found.runs:.0f}.'


def dearest(tasks: Sequence[Task]) -> list[str]:
    """The dearest edits; one that was tried again counts once."""
    spent: dict[str, float] = collections.defaultdict(float)
    for task in tasks:
        if task.part in ('edits', 'again'):
            spent[task.name] += task.seconds
    first = sorted(spent.items(), key=lambda it: -it[1])[:DEAREST]
    return [f'{seconds:6.1f} s  {name}' for name, seconds in first if seconds >= 0.5]


def report(found: Measured) -> str:
    """All that is told of a run."""
    parts = ', '.join(f'{column.lower()} {spent / 60:.1f}' for column, spent in sums_of(found.tasks).items())
    walls = ', '.join(f'{(wall(found.tasks, lanes) + found.runs) / 60:.1f} on {lanes}' for lanes in LANES)
    return '\n'.join([
        f'The gate on {found.date}: {found.tally}. In CPU seconds:', '',
        *table(found.tasks), '',
        f'Processor minutes: {found.seconds / 60:.1f}: {parts}, runs of tests and programs {found.runs / 60:.1f}.',
        f'Minutes: {found.minutes:.1f} on {found.processors} processors. By the model: {walls}.',
        chain_line(found),
        *([f'Kit: {found.kit}'] if found.kit else []),
        f'What rt says of it: {found.said}', '', 'The dearest edits:', '', *dearest(found.tasks), '',
    ])


def run_gate(words: Sequence[str], times: str) -> tuple[Tally | None, str, int]:
    """Runs the gate and shows what it writes: its count, its last line before that, and its status."""
    count, said = None, ''
    with common.started([sys.executable, str(HERE / 'timed_rt.py'), times, *words]) as running:
        assert running.stdout
        for line in running.stdout:
            told = common.tally_of(line)
            if told is None:
                said = line.strip()
                print(line, end='', flush=True)
            else:
                count = told
    return count, said, running.returncode


def read_times(file: pathlib.Path) -> dict[str, Any] | None:
    """What timed_rt.py wrote of a run; None if it wrote nothing, or nothing that can be read."""
    try:
        told: dict[str, Any] = json.loads(file.read_text())
        measured(told)
        return told
    except (OSError, ValueError, TypeError, KeyError):
        return None


def keep_times(told: dict[str, Any], times: pathlib.Path | None) -> str:
    """Writes the report of a run and what it is made of, or shows the report; a run whose times cannot be kept is a run still."""
    try:
        text = report(measured(told))
        if times:
            times.write_text(text)
            times.with_suffix('.json').write_text(json.dumps(told))
        else:
            print(f'\n{text}')
        return text
    except Exception as why:
        print(f'gate.py: no report: {type(why).__name__}: {why}', flush=True)
        return ''


def gate(words: argparse.Namespace) -> tuple[str, int]:
    """Runs the gate and keeps what its tasks took: the report, and the status."""
    if words.times:
        words.times.with_suffix('.json').unlink(missing_ok=True)
    with tempfile.TemporaryDirectory() as folder:
        file = pathlib.Path(folder, 'times.json')
        count, said, status = run_gate([*(['--anew'] if words.anew else []), *words.crate], str(file))
        told = read_times(file)
    text = keep_times({**told, 'tally': str(count or 'no count'), 'said': said}, words.times) if told else ''
    print(count or Tally(failed=1))
    return text, status


def kit_here() -> str:
    """The line by which the kit of the command rt names itself."""
    file = pathlib.Path(os.path.realpath(shutil.which('rt') or 'rt')).parent.parent / 'KIT-ID'
    return file.read_text().strip() if file.is_file() else ''


def report_of(file: pathlib.Path) -> str:
    """The report of a run that was made already, of its report or of what was kept beside that."""
    if file.suffix != '.json':
        return file.read_text()
    return report(measured(json.loads(file.read_text())))


def keep(cost: Cost, reasons: dict[str, str]) -> list[str]:
    """Writes the cost of a run as the table and on its page, or says why not."""
    if not cost.rows:
        return ['there are no crates in this run']
    if crates := gate_cost.kept(cost):
        return [f'not from nothing: an earlier gate on this machine had kept something of {", ".join(crates)}; use --anew']
    grew = gate_cost.grown(cost, gate_cost.read(TABLE))
    if lacking := gate_cost.without_reason(grew, reasons):
        return [*lacking, 'give --why CRATE=TEXT for each of them, or --why all=TEXT; --from FILE takes a run already made']
    TABLE.write_text(gate_cost.text_of(gate_cost.with_reasons(cost, grew, reasons)), encoding='utf-8')
    return write_page()


def write_page() -> list[str]:
    """Puts the table on its page, or says why not."""
    cost = gate_cost.read(TABLE)
    if cost is None:
        return [f'there is no {TABLE.name}']
    PAGE.write_text(gate_cost.with_section(PAGE.read_text(encoding='utf-8'), cost), encoding='utf-8')
    return [wrong] if (wrong := gate_cost.page_differs()) else []


def reason(word: str) -> tuple[str, str]:
    crate, is_given, text = word.partition('=')
    if not crate or not is_given or not text.strip():
        raise argparse.ArgumentTypeError('a reason is CRATE=TEXT')
    return crate, text.strip()


def asked() -> argparse.Namespace:
    parser = common.asking(__doc__)
    parser.add_argument('times', nargs='?', type=pathlib.Path, metavar='TIMES', help='a file for the report, which is else shown; what it is made of goes to the same name with .json')
    parser.add_argument('--anew', action='store_true', help='takes nothing of what earlier gates kept on this machine')
    parser.add_argument('--crate', action='append', default=[], metavar='NAME', help='only this crate and those below it, which is not the gate; may be given several times')
    parser.add_argument('--from', dest='made', type=pathlib.Path, metavar='FILE', help='runs no gate: takes a run already made, of its report or its .json')
    parser.add_argument('--write', action='store_true', help='keeps the run, which was from nothing, as checks/proofs/gate.csv and on checks/README.md')
    parser.add_argument('--why', action='append', default=[], type=reason, metavar='CRATE=TEXT', help='with --write: why a crate costs half as much again as before; `all` is each without a reason')
    parser.add_argument('--compare', action='store_true', help='with --from and a .json: says what took longest, beside the table')
    parser.add_argument('--page', action='store_true', help='puts checks/proofs/gate.csv on checks/README.md')
    words = parser.parse_args()
    if words.times and words.times.suffix == '.json':
        parser.error('TIMES is the report; the .json is written beside it')
    if words.compare and not (words.made and words.made.suffix == '.json'):
        parser.error('--compare is for --from with a .json')
    if words.write and words.crate:
        parser.error('--write is for the whole gate')
    return words


def said_why(why: Sequence[str]) -> int:
    """The status of a script that wrote what it should, or says why not."""
    for line in why:
        print(f'gate.py: {line}', file=sys.stderr)
    return 1 if why else 0


def main() -> int:
    words = asked()
    if words.page:
        return said_why(write_page())
    if words.compare:
        count = compare(measured(json.loads(words.made.read_text())), gate_cost.read(TABLE))
        print(count.tally)
        return 1 if count.tally.failed else 0
    text, status = (report_of(words.made), 0) if words.made else gate(words)
    if words.write and status == 0:
        return said_why(keep(gate_cost.of_report(text, kit_here()), dict(words.why)))
    if words.made:
        print(text)
    return status


if __name__ == '__main__':
    sys.exit(main())
