"""pretty [FILE] [--color WHEN] [--tick-us N] [--rows]
pretty [--color WHEN] [--tick-us N] [--rows] --run mcscheck [OPTION ..] [FILE]

Shows what mcscheck writes as JSON in tables with heads, and last in one sentence. It reads FILE, or standard input; with --run it runs mcscheck, and its
exit code is that of mcscheck. `mcscheck --format pretty` does this.

There is a table for each kind of line, whose columns are the keys of the JSON. One that is wider than the terminal continues below. The first 20 rows
of a kind with times are shown, 100 of another kind, and 10,000 with --rows. Why a job took so long is answered first; the schedule follows with --rows."""
from __future__ import annotations

import argparse
import collections
import contextlib
import decimal
import json
import shutil
import subprocess
import sys
from collections.abc import Iterable, Iterator, Sequence
from typing import IO, Optional

from . import colours, concluding, scale, source, system, tabling
from .concluding import Facts
from .faults import Fault, why
from .frame import WRITE_FAILED, OutputLost
from .options import STANDARD_INPUT, Options
from .tabling import KIND, Look, Object
from .verdict import FOUND, NOTHING, UNJUDGED

# rows of a kind that are shown, those with a time, and with --rows
MOST, MOST_TIMES, MOST_ROWS = 100, 20, 10_000
# exit codes that are no fault
ANSWERS = (NOTHING, FOUND, UNJUDGED)
# kinds of lines that begin a group of lines about some cores
BEGIN_GROUP = ('repeats', 'open')
# what hints mean
MEANINGS = {
    'unsignalled': 'waited on, and never signalled', 'unbound': 'no thread is bound to it',
    'overcommitted': 'its contexts have more than it', 'unused': 'no thread runs on it', 'no_thread': 'the file has none',
    'no_deadline': 'no deadline can be judged', 'unawaited': 'interrupts, and nobody waits',
    'unhandled': 'no handler takes its badge', 'unheard': 'no handler takes the badge of its signal',
    'inverted': 'the server is no priority ceiling', 'unreached': 'no signal leads from its source to its thread',
}
ROWS = 'rows'
NARROWEST = 20


def microseconds(text: str) -> decimal.Decimal:
    try:
        found = decimal.Decimal(text)
    except decimal.InvalidOperation:
        found = decimal.Decimal(0)
    if not found.is_finite() or not 0 < found <= 10**12:
        raise argparse.ArgumentTypeError(f'{text!r} is no length of a tick in microseconds, above 0 and at most 10^12')
    return found


class Group:
    """The lines of a group, by kind: as many of each as are shown, and how many there were."""

    def __init__(self, wants_rows: bool, head: Optional[Object] = None) -> None:
        self.wants_rows, self.head = wants_rows, head
        self.kept: dict[str, list[Object]] = {}
        self.many: collections.Counter[str] = collections.Counter()

    def add(self, kind: str, line: Object) -> None:
        self.many[kind] += 1
        rows = self.kept.setdefault(kind, [])
        if len(rows) < (MOST_ROWS if self.wants_rows else MOST_TIMES if 'moment' in line else MOST):
            rows.append(line)


class Verdict:
    """What the lines of mcscheck come to, read one by one."""

    def __init__(self, wants_rows: bool, is_why: bool = False) -> None:
        self.wants_rows, self.is_why = wants_rows, is_why
        self.facts = Facts()
        self.groups = [Group(wants_rows)]
        self.rows = Group(wants_rows)
        self.others: list[str] = []

    def read(self, lines: Iterable[str]) -> None:
        for text in lines:
            line = object_of(text)
            if line is None:
                self.others.append(text.rstrip('\n'))
            else:
                self.add(line)

    def add(self, line: Object) -> None:
        kind = str(line[KIND])
        if self.is_why and 'moment' in line and kind != concluding.ANSWER:
            self.rows.add(ROWS, line)
            return
        self.facts.add(line)
        if kind in BEGIN_GROUP:
            self.groups.append(Group(self.wants_rows, line))
        elif kind != concluding.SETS:
            meaning = MEANINGS.get(str(line.get(kind))) if kind == concluding.HINT else None
            self.groups[-1].add(kind, line if meaning is None else {**line, 'meaning': meaning})


def object_of(text: str) -> Optional[Object]:
    """The object of a line, None if it is another line."""
    try:
        found = json.loads(text)
    except ValueError:
        return None
    return found if isinstance(found, dict) and KIND in found else None


class View:
    """Writes tables and the sentence."""

    def __init__(self, look: Look, stream: IO[str]) -> None:
        self.look, self.stream = look, stream
        self.is_first = True

    def say(self, text: str, colour: str = '') -> None:
        for line in tabling.folded(text, self.look.width):
            print(self.look.paint(line, colour), file=self.stream)

    def part(self) -> None:
        """An empty line between two parts."""
        if not self.is_first:
            print(file=self.stream)
        self.is_first = False

    def title(self, kind: str, many: int) -> None:
        self.part()
        self.say(f'{kind} ({many})' if many > 1 else kind, concluding.severity(kind) or colours.TITLE)

    def group(self, group: Group) -> None:
        if group.head is not None:
            self.part()
            self.say(f'{group.head[KIND]}  {tabling.labelled(group.head, self.look.unit)}', colours.TITLE)
        for kind, rows in group.kept.items():
            self.title(kind, group.many[kind])
            for line in tabling.Table(rows, self.look).lines():
                print(line, file=self.stream)
            self.more(group.many[kind] - len(rows))

    def more(self, many: int) -> None:
        if many:
            self.say(f'and {many} more: --rows shows {MOST_ROWS}, and --format text, csv or json all of them')

    def schedule(self, rows: Sequence[Object], many: int, title: str = 'rows') -> None:
        """Rows of a schedule, or legs of a way, in their order: the time, the core, what happens, and the rest with its keys."""
        self.title(title, many)
        unit = self.look.unit
        cells = [(tabling.text_of('moment', row['moment'], unit), str(row.get('core', '')), str(row[KIND]), rest_of(row, unit)) for row in rows]
        widths = [max(map(len, column)) for column in zip(*cells)]
        for time, core, kind, rest in cells:
            head = f'{time.rjust(widths[0])}  {core.rjust(widths[1])}  {kind.ljust(widths[2])}  '
            for line in tabling.folded((head + rest).rstrip(), self.look.width, ' ' * len(head)):
                print(line, file=self.stream)
        self.more(many - len(rows))


def without_zeros(leg: Object) -> Object:
    """A leg of a way without the numbers that are 0."""
    return {key: value for key, value in leg.items() if value != 0 or key in ('moment', 'core', 'home')}


def rest_of(row: Object, unit: scale.Unit) -> str:
    """What a row of a schedule says beside its time, core and kind. Its `from` is a core."""
    return tabling.labelled({key: str(value) if key == 'from' else value for key, value in row.items() if key not in ('moment', 'core')}, unit)


# What is shown

def horizon_of(words: Sequence[str]) -> Optional[int]:
    """The last time of a verdict, by the options of the program."""
    horizon = option_of(words, '--horizon') or str(source.HORIZON)
    return int(horizon) if horizon.isdigit() else None


def option_of(words: Sequence[str], name: str) -> Optional[str]:
    """The value of an option among words, if it is there."""
    for place, word in enumerate(words):
        if word == name and place + 1 < len(words):
            return words[place + 1]
        if word.startswith(f'{name}='):
            return word.partition('=')[2]
    return None


def last_time(verdict: Verdict, horizon: Optional[int]) -> int:
    """The last time of a verdict, by which the unit is chosen."""
    return max([horizon or 0, *(value for line in verdict.facts.last.values() for key, value in line.items() if tabling.is_time(key) and isinstance(value, int))])


def show(verdict: Verdict, view: View, horizon: Optional[int], status: int) -> None:
    """Writes what was read."""
    for line in verdict.others:
        print(line, file=view.stream)
    sentence = concluding.conclusion(verdict.facts, horizon, status, view.look.unit) if status in ANSWERS else None
    if sentence and verdict.is_why:
        view.part()
        view.say(sentence.text, sentence.colour)
    for group in verdict.groups:
        view.group(group)
    if many := verdict.rows.many[ROWS]:
        if concluding.ANSWER in verdict.facts.last:
            view.schedule([without_zeros(row) for row in verdict.rows.kept[ROWS]], many, 'way')
        elif verdict.wants_rows:
            view.schedule(verdict.rows.kept[ROWS], many)
        else:
            view.part()
            view.say(f'--rows shows the {many} rows of its core, too')
    if sentence and not verdict.is_why:
        view.part()
        view.say(sentence.text, sentence.colour)


@contextlib.contextmanager
def running(words: Sequence[str]) -> Iterator[subprocess.Popen[bytes]]:
    """A program with these words, whose standard output is read; its standard error is that of the tool."""
    try:
        child = subprocess.Popen(words, stdout=subprocess.PIPE)
    except OSError as error:
        raise why(words[0], error) from None
    try:
        yield child
    finally:
        if child.poll() is None:
            child.kill()
        child.wait()


def options() -> Options:
    words = Options(__doc__)
    words.reads('file', nargs='?', metavar='FILE', help='lines of JSON that mcscheck wrote (default: standard input)')
    words.add_argument('--color', choices=colours.WHEN, default=colours.AUTO,
        help='colours; auto: on a terminal, unless NO_COLOR is set (default: %(default)s)')
    words.add_argument('--tick-us', type=microseconds, metavar='N', help='a tick is N microseconds: times are in real units')
    words.add_argument('--rows', action='store_true', help='shows 10,000 rows of a kind, and with --why those of the schedule')
    words.add_argument('--run', nargs=argparse.REMAINDER, metavar='WORD ..', help='runs mcscheck: its path, its options and its FILE')
    return words


def view_of(asked: argparse.Namespace, verdict: Verdict, horizon: Optional[int]) -> View:
    unit = scale.Clock(asked.tick_us).unit(last_time(verdict, horizon))
    width = max(NARROWEST, shutil.get_terminal_size().columns)
    return View(Look(width, unit, colours.Paint(colours.are_wanted(asked.color, sys.stdout))), sys.stdout)


def read_file(asked: argparse.Namespace) -> int:
    """Shows the lines of a file."""
    path = asked.file or STANDARD_INPUT
    verdict = Verdict(asked.rows)
    try:
        with system.opened(path) as file:
            verdict.read(source.text_lines(file))
    except OSError as error:
        raise why(path, error) from None
    show(verdict, view_of(asked, verdict, None), None, verdict.facts.status())
    return 0


def run(asked: argparse.Namespace) -> int:
    """Runs mcscheck, and shows what it writes; its exit code. What goes wrong is told as mcscheck tells it."""
    sys.argv[0] = asked.run[0]
    words = [*asked.run[:1], '--format', 'json', *asked.run[1:]]
    is_why = any(word == '--why' or word.startswith('--why=') for word in words)
    verdict = Verdict(asked.rows, is_why)
    with running(words) as child:
        verdict.read(source.text_lines(source.pipe_of(child.stdout)))
        status = child.wait()
    horizon = horizon_of(words)
    try:
        show(verdict, view_of(asked, verdict, horizon), horizon, status)
        sys.stdout.flush()
    except OutputLost:
        raise Fault('write failed', WRITE_FAILED) from None
    return status if status >= 0 else 128 - status


def main() -> int:
    asked = options().asked()
    return run(asked) if asked.run else read_file(asked)
