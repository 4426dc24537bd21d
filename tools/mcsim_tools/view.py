"""view SYSTEM [--horizon N] [--from A --to B] -o FILE.svg|FILE.html|FILE.png|FILE.pdf

Draws a schedule: for each core a lane, below it one for each of its threads, with how the thread stands, its activations, deadlines and
responses, what was missed, held and lost, signals from lane to lane, orders, and what its context holds. It runs the program to the horizon, or
reads the rows of a schedule of SYSTEM (--rows).

An SVG is a picture by itself; a browser of this machine, if there is one, makes a PNG or a PDF of it. An HTML page is one file that needs no network: it holds the schedule, shows lanes for the threads that are chosen on
it, zooms to single events, and has the table of the threads and the findings. A window with more than --most things is drawn by columns, which show
shares of time: nothing that was missed or lost is left out."""
from __future__ import annotations

import argparse
import decimal
import shlex
from collections.abc import Callable, Iterable, Iterator
from dataclasses import dataclass
from typing import NamedTuple, Optional

from . import compare, lanes, options, output, packing, rendering, source
from .changes import Verdict, verdict_of
from .comparing import Ran
from .drawing import Frame, Picture
from .faults import Fault
from .packing import Packed
from .page import chains_of, page
from .printable import printable
from .reading import Reading, read
from .scale import Clock, Unit
from .scene import Shown
from .source import Told, Words, moment
from .style import Theme
from .tally import Tally
from .traced import Both, Traced

# takes marks along the lines that a reading reads
Marker = Callable[[Iterable[str], Reading, Packed], Iterator[str]]
MOST = 20_000
WIDTH = 1200
LANES = 150
# threads that have lanes on a page at first, where there are more than it shows at once
FIRST_LANES = 40


def microseconds(text: str) -> decimal.Decimal:
    try:
        value = decimal.Decimal(text)
    except decimal.InvalidOperation:
        value = decimal.Decimal(0)
    if not value.is_finite() or not 0 < value <= 10**9 or value != round(value, 9):
        raise argparse.ArgumentTypeError(f'{text!r} is no length of a tick in microseconds')
    return value


count = options.number('no number of 1 to 1000000', 1, 10**6)
thing_count = options.number('no number of 1 to 100000000', 1, 10**8)


def add_looks(words: Words) -> None:
    """The words that say how a picture looks."""
    words.add_argument('--from', dest='begin', type=moment, default=0, metavar='A', help='where the picture begins (default: 0)')
    words.add_argument('--to', dest='end', type=moment, metavar='B', help='where it ends (default: the horizon)')
    words.add_argument('--tick-us', type=microseconds, metavar='N', help='a tick is N microseconds: moments along the edge are in real units')
    budgets = 'threads whose budgets are drawn: all, none, names with commas, or auto: all, where they are few (default)'
    words.add_argument('--budgets', default='auto', metavar='WHOSE', help=budgets)
    words.add_argument('--threads', metavar='NAMES', help='lanes for these threads alone, with commas')
    words.add_argument('--cores', metavar='NUMBERS', help='lanes for these cores alone, with commas')
    lanes_said = f'threads that have lanes at most, those with findings first (default: {LANES}; a page of more threads begins with {FIRST_LANES})'
    words.add_argument('--lanes', type=count, metavar='N', help=lanes_said)
    most = f'things that a picture draws singly at most, or that a page holds; more are shown by columns (default: {MOST}, {packing.MOST})'
    words.add_argument('--most', type=thing_count, metavar='N', help=most)
    words.add_argument('--width', type=count, default=WIDTH, metavar='PIXELS', help='how wide the window of time is at most (default: %(default)s)')
    looks = [look.value for look in Theme]
    words.add_argument('--theme', choices=looks, default=Theme.AUTO.value, help='which colours (default: auto, as the reader has it)')


@dataclass(frozen=True)
class Window:
    """From where to where is drawn, and to which horizon the schedule is read; None: as far as the rows go."""

    begin: int
    end: Optional[int]
    horizon: Optional[int]


def window_of(words: argparse.Namespace, reads_rows: bool) -> Window:
    horizon = words.horizon if words.horizon is not None else words.end if words.end is not None else None if reads_rows else source.HORIZON
    end = words.end if words.end is not None else horizon
    if end is not None and end > horizon:
        raise Fault(f'--to {end} is beyond the horizon {horizon}')
    if end is not None and words.begin >= max(end, 1):
        raise Fault(f'--from {words.begin} is not before the end, {end}')
    return Window(words.begin, end, horizon)


def draw(told: Told, words: argparse.Namespace, window: Window, is_page: bool) -> str:
    """The text of a picture, or of a page."""
    return draw_page(told, words, window).text if is_page else draw_picture(told, words, window)


def draw_picture(told: Told, words: argparse.Namespace, window: Window) -> str:
    system, plotted = told.system, lanes.choose_budgets(told.system, words.budgets)
    asked = lanes.asked(system, words.threads, words.cores)
    has_trace = getattr(words, 'trace', None) is not None
    shown = (Both if has_trace else Shown)(system, frozenset(asked), window.begin, window.end, words.most or MOST, plotted)
    if isinstance(shown, Both):
        shown.ran = Ran()
    reading = read(told, shown)
    shown.close(reading, window.end)
    traced = Traced(*compare.found_beside(words, system, shown.ran.side, compare.PERCENT / 100)) if isinstance(shown, Both) else None
    choice, unit = lanes.Choice.of(asked, shown.findings, words.lanes or LANES), Clock(words.tick_us).unit(reading.end)
    begin, end = shown.scene.begin, shown.scene.last
    under = said_of(shown, reading, unit, begin, end)
    under += f' (no lanes for {choice.left_out:,} threads: --threads, --cores, --lanes)' if choice.left_out else ''
    own = lanes.lanes_of(system, choice.threads, plotted if shown.is_single else (), {stay.server: stay.thread.core for stay in shown.scene.stays}, has_trace)
    picture = Picture(system, own, begin, end, Frame(words.width, Theme(words.theme), unit), printable(words.system.stem), under)
    if shown.is_single:
        picture.draw_scene(shown.scene, shown.findings)
    else:
        picture.draw_columns(shown.columns, shown.overdue, shown.findings)
    if traced:
        traced.draw(picture)
    return picture.svg()


def said_of(tally: Tally, reading: Reading, unit: Unit, begin: int, end: int) -> str:
    """What stands below the name of a system."""
    under = f'{unit.text(reading.end)}{" ticks" * (unit.tick is None)}, {reading.count:,} rows: {tally.summary()}'
    return under if (begin, end) == (0, reading.end) else f'{unit.text(begin)} to {unit.text(end)} of a run of {under}'


class Page(NamedTuple):
    """The text of a page, and what it says of the system."""

    text: str
    verdict: Verdict


def draw_page(told: Told, words: argparse.Namespace, window: Window, live: Optional[int] = None, marks: Optional[Marker] = None) -> Page:
    """Draws a page; a live one has a number, and marks from which parts of it can be read."""
    asked = lanes.asked(told.system, words.threads, words.cores)
    plotted = lanes.choose_budgets(told.system, words.budgets)
    packed = Packed(told.system, window.begin, window.end, words.most or packing.MOST, lanes.budgets_asked(told.system, words.budgets))
    reading = Reading(told.system, packed)
    reading.read(marks(told.lines, reading, packed) if marks else told.lines, told.horizon)
    packed.close(reading, window.end)
    most = words.lanes or (LANES if len(asked) <= LANES else FIRST_LANES)
    choice, unit = lanes.Choice.of(asked, packed.findings, most), Clock(words.tick_us).unit(reading.end)
    name, under = printable(words.system.stem), said_of(packed, reading, unit, packed.begin, packed.end)
    ticks = '' if words.tick_us is None else f' --tick-us {words.tick_us}'
    heading = {
        'name': name, 'under': under, 'title': f'{name}: {under}', 'end': reading.end, 'plotted': sorted(packed.place[name] for name in plotted),
        'chosen': sorted(packed.place[name] for name in choice.threads), 'chains': chains_of(packed, reading.chains, reading.end),
        'command': f'tools/view {printable(shlex.quote(str(words.system)))} --horizon {reading.end}{ticks}',
    }
    return Page(page(packed, unit, heading, Theme(words.theme), live), verdict_of(packed, unit))


def main() -> None:
    words = Words(__doc__).takes_rows()
    add_looks(words)
    words.reads('--trace', metavar='TRACE.csv', help='draws a measured trace below the schedule, in a picture; the other options of a trace are those of tools/compare')
    compare.add_trace(words)
    words.writes('-o', '--output', required=True, metavar='FILE', help='a .svg or a .html, or a .png or a .pdf where there is a browser')
    asked = words.asked()
    kind = asked.output.suffix
    if kind not in ('.svg', '.html', *rendering.KINDS):
        raise Fault(f'{asked.output} is no .svg, .html, .png or .pdf')
    if asked.trace and kind == '.html':
        raise Fault(f'{asked.output}: --trace draws a picture, a .svg, .png or .pdf, and no page')
    window = window_of(asked, asked.rows is not None)
    with source.told(asked, window.horizon) as told:
        text = draw(told, asked, window, kind == '.html')
    if kind in rendering.KINDS:
        output.write_bytes(asked.output, rendering.rendered(text, asked.output))
    else:
        output.write(asked.output, text)
