"""The cost of the gate as data, for gate.py: checks/proofs/gate.csv, and the section of checks/README.md that is made of it.

The file begins with lines `# name: value` of the run from nothing in which it was measured: its date, the kit, processors and minutes, the CPU seconds
of the runs of tests and programs, the minutes on other numbers of processors by a model, and the longest chain. Then it is CSV, with a row for each
crate, lowest first: its CPU seconds in whole numbers (an empty field is nothing), the number of its edits, the CPU minutes after a change of the crate,
and why it grew, if it cost at least half as much again as in the table before."""
from __future__ import annotations

import csv
import io
import pathlib
import re
import textwrap
from collections.abc import Mapping, Sequence
from typing import NamedTuple

from checks.common import TOP

TABLE = TOP / 'checks' / 'proofs' / 'gate.csv'
PAGE = TOP / 'checks' / 'README.md'
BEGINS, ENDS = '<!-- cost of gate.py -->', '<!-- end of cost -->'
# the columns, each with the parts of the gate's tasks that it sums
COLUMNS = {'Proof': ('proof',), 'Tests': ('tests',), 'Edits': ('edits', 'again', 'seed', 'sound')}
# CPU seconds below which a task did nothing: an earlier gate had kept it
LEAST = 0.5
# a crate grew if it costs this often what it did, and at least so many CPU seconds more: less is noise
GREW, GREW_SECONDS = 1.5, 10
# the crate's name that stands for all others in a reason
ALL = 'all'
WIDTH = 100


class Row(NamedTuple):
    """What a crate costs: CPU seconds, the number of its edits if it is known, and the CPU minutes of a change of the crate."""

    crate: str
    proof: str = ''
    tests: str = ''
    edits: str = ''
    number_of_edits: str = ''
    minutes_of_a_change: str = ''
    why_it_grew: str = ''

    def of(self, column: str) -> float:
        """The CPU seconds of a column."""
        return float(getattr(self, column.lower().replace(' ', '_')) or 0)

    @property
    def seconds(self) -> float:
        return sum(map(self.of, COLUMNS))


class Cost(NamedTuple):
    """What the gate cost in a run from nothing."""

    head: Mapping[str, str]
    rows: Sequence[Row]

    def row(self, crate: str) -> Row | None:
        return next((row for row in self.rows if row.crate == crate), None)

    @property
    def runs(self) -> float:
        """The CPU seconds of the runs of tests and programs."""
        return float(self.head.get('runs') or 0)


# ---- the file


def read(table: pathlib.Path) -> Cost | None:
    """What a file has, or None if there is no file."""
    if not table.is_file():
        return None
    lines = table.read_text(encoding='utf-8').splitlines(keepends=True)
    head = [line[1:].strip().partition(': ') for line in lines if line.startswith('#')]
    rows = csv.DictReader([line for line in lines if not line.startswith('#')])
    return Cost({name: value for name, _, value in head}, [Row(**row) for row in rows])


def text_of(cost: Cost) -> str:
    """The text of the file."""
    out = io.StringIO(newline='')
    out.writelines(f'# {name}: {value}\n' for name, value in cost.head.items())
    writer = csv.writer(out, lineterminator='\n')
    writer.writerow(Row._fields)
    writer.writerows(cost.rows)
    return out.getvalue()


# ---- from the report of gate.py


def number(pattern: str, report: str) -> str:
    """What the group of a pattern is in a report; nothing if it is not there."""
    found = re.search(pattern, report, re.M)
    return found[1] if found else ''


def of_report(report: str, kit: str) -> Cost:
    """What a report of gate.py says in Markdown; `kit` is that of the run, if the report does not name it."""
    runs = number(r'; runs of tests and programs (\d+)\.$', report)
    head = {
        'date': number(r'^The gate on (\S+):', report), 'kit': number(r'^Kit: (.+)$', report) or kit,
        'processors': number(r'^Minutes: \S+ on (\d+) processors', report), 'minutes': number(r'^Minutes: (\S+) on', report), 'runs': runs,
        'by the model': number(r'By the model: (.*)\.$', report), 'longest chain': number(r'^Longest chain: (.*)\.$', report),
    }
    rows = []
    for crate, *seconds, edits, _, change in re.findall(r'^\| `(\w+)` ' + r'\| (\S+) ' * 6 + r'\|$', report, re.M):
        known = ['' if cell == '-' else cell for cell in (*seconds, edits)]
        rows.append(Row(*[crate, *known, change]))
    return Cost(head, rows)


def kept(cost: Cost) -> list[str]:
    """The crates of which an earlier gate had kept something, so that the run was not from nothing."""
    return [row.crate for row in cost.rows if not row.proof or bool(row.number_of_edits) > bool(row.edits)]


def grown(cost: Cost, before: Cost | None) -> dict[str, str]:
    """The crates that cost half as much again as before, each with how much."""
    pairs = [(row, before.row(row.crate)) for row in cost.rows] if before else []
    return {
        row.crate: f'{old.seconds:.0f} to {row.seconds:.0f} CPU seconds' for row, old in pairs
        if old and row.seconds >= GREW * old.seconds and row.seconds - old.seconds >= GREW_SECONDS
    }


def with_reasons(cost: Cost, grew: Mapping[str, str], reasons: Mapping[str, str]) -> Cost:
    """The cost with the reason of each crate that grew."""
    said = {crate: f'{how}: {reasons.get(crate) or reasons.get(ALL, "")}' for crate, how in grew.items()}
    return cost._replace(rows=[row._replace(why_it_grew=said.get(row.crate, '')) for row in cost.rows])


def without_reason(grew: Mapping[str, str], reasons: Mapping[str, str]) -> list[str]:
    return [f'{crate} grew, {how}' for crate, how in grew.items() if not (reasons.get(crate) or reasons.get(ALL))]


# ---- the section of the page


def filled(text: str, indent: str = '') -> list[str]:
    return textwrap.wrap(text, WIDTH, subsequent_indent=indent, break_long_words=False, break_on_hyphens=False)


def minutes(cost: Cost) -> str:
    """The CPU minutes of all, and of each column."""
    spent = {what: sum(row.of(column) for row in cost.rows) for what, column in zip(('proofs', 'tests', 'edits'), COLUMNS)}
    if cost.runs:
        spent['runs of tests and programs'] = cost.runs
    *parts, last = (f'{seconds / 60:.0f} for {what}' for what, seconds in spent.items())
    return f'{sum(spent.values()) / 60:.0f} CPU minutes: {", ".join(parts)} and {last}'


def sentences(cost: Cost) -> list[str]:
    """What is said of the run above the table."""
    head = cost.head
    kit = f' with {head["kit"]}' if head.get('kit') else ''
    lines = filled(f'On {head["date"]} the gate{kit} took {minutes(cost)}.')
    if head.get('minutes'):
        lines += ['', *filled(f'It lasted {head["minutes"]} minutes on {head["processors"]} processors. A model gives these minutes: {head["by the model"]}.')]
    took, _, steps = head.get('longest chain', '').partition(': ')
    if steps:
        tasks, _, runs = steps.partition('; ')
        lines += ['', *filled(f'The longest chain of tasks takes {took}. Its steps, in CPU seconds:'), '']
        lines += [line for step in (*tasks.split(', '), runs) if step for line in filled(f'- {step}', '  ')]
    return lines


def cells(values: Sequence[object]) -> str:
    return '| ' + ' | '.join(map(str, values)) + ' |'


def section(cost: Cost) -> str:
    """The section of the page: sentences, the table, and why crates grew."""
    head = ['Crate', *COLUMNS, 'Number of edits', 'Minutes of a change']
    rows = [cells([f'`{row.crate}`', *(cell or '-' for cell in row[1:6])]) for row in cost.rows]
    lines = [*sentences(cost), '', cells(head), '|' + '---|' * len(head), *rows]
    grew = [line for row in cost.rows if row.why_it_grew for line in filled(f'- `{row.crate}`: {row.why_it_grew}', '  ')]
    if grew:
        lines += ['', 'Crates that cost half as much again as in the table before:', '', *grew]
    return '\n'.join(lines) + '\n'


def with_section(page: str, cost: Cost) -> str:
    """A page with the section of this cost between its marks."""
    return re.sub(f'(?<={BEGINS}\n\n).*?(?=\n{ENDS})', lambda _: section(cost), page, flags=re.S)


def page_differs() -> str:
    """What is wrong with the section of the page; nothing if it is that of the table."""
    cost, page = read(TABLE), PAGE.read_text(encoding='utf-8')
    if cost is None or with_section(page, cost) == page and section(cost) in page:
        return ''
    return 'checks/README.md does not have the cost of checks/proofs/gate.csv: checks/proofs/gate.py --page'
