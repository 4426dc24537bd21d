"""waves SYSTEM [--horizon N] [-o FILE.vcd] [--save FILE.gtkw]

Turns a schedule into a value change dump, which GTKWave and other viewers of waves open, and writes for GTKWave a view that shows all of it. It
writes while it reads. For each core there is a scope, in which stand

    runs        the thread that runs, - where none does
    threads.T   how thread T stands: pending, ready, running, throttled, blocked, done
    until.T     the date from which its context has budget again, z where T is not throttled
    rounds.T    an event at the end of each round of T
    misses.T    an event at the end of each round that missed the deadline of T, where it has one
    words.N     the word of notification N
    arrivals.N  an event at each moment at which a signal of another core, or an interrupt, arrives for N
    losses.N    an event at each moment at which a signal or an interrupt for N is lost

A wave has one value at a moment: that after all rows of the moment. It ends at the horizon, or with the rows."""
from __future__ import annotations

import math
from collections.abc import Iterator
from typing import IO, NamedTuple, Optional

from . import options, output, source
from .reading import LOST, RUNNING, STANDINGS, Listener, Post, Reading, Round
from .source import Told, Words
from .system import System, Thread

WORD, DATE = 32, 64
TEXT, NUMBER, EVENT = 'string', 'reg', 'event'
NONE = '-'
# codes are made of printable characters
FIRST_CODE, CODES = 33, 94

# the view of GTKWave: formats of waves, and its measures in pixels
BINARY, DECIMAL, COMMENT = '@28', '@24', '@200'
ROW, EDGES, WIDE, NAMES, FRAME = 20, 150, 1100, 200, 200
ROOM = WIDE - NAMES - 200


class Wave(NamedTuple):
    """A wave: its core, its scope within it, its name, what it shows, how wide, and its first value."""

    core: int
    scope: str
    name: str
    kind: str
    width: int
    first: Optional[str]
    label: str

    @property
    def path(self) -> str:
        """Its name for GTKWave."""
        range_ = f'[{self.width - 1}:0]' if self.kind == NUMBER else ''
        return '.'.join(part for part in (f'core{self.core}', self.scope, self.name) if part) + range_


def text(word: str) -> str:
    return f's{word}'


def number(value: Optional[int]) -> str:
    return 'bz' if value is None else f'b{value:b}'


def waves_of(system: System, core: int) -> Iterator[Wave]:
    """The waves of a core, scope by scope."""
    threads = [thread for thread in system.threads.values() if thread.core == core]
    notes = [note for note, home in system.home_of.items() if home == core]
    yield Wave(core, '', 'runs', TEXT, 1, text(NONE), f'core {core}')
    yield from (Wave(core, 'threads', thread.name, TEXT, 1, text('pending'), thread.name) for thread in threads)
    yield from (Wave(core, 'until', thread.name, NUMBER, DATE, number(None), f'{thread.name} until') for thread in threads)
    yield from (Wave(core, 'rounds', thread.name, EVENT, 1, None, f'{thread.name} rounds') for thread in threads)
    yield from (Wave(core, 'misses', thread.name, EVENT, 1, None, f'{thread.name} misses') for thread in threads if thread.deadline)
    yield from (Wave(core, 'words', note, NUMBER, WORD, number(system.words[note]), f'{note} word') for note in notes)
    yield from (Wave(core, 'arrivals', note, EVENT, 1, None, f'{note} arrives') for note in notes)
    yield from (Wave(core, 'losses', note, EVENT, 1, None, f'{note} lost') for note in notes)


def code_of(place: int) -> str:
    code = ''
    while not code or place:
        code, place = code + chr(FIRST_CODE + place % CODES), place // CODES
    return code


class Dump(Listener):
    """Writes the waves of what it hears."""

    def __init__(self, system: System, out: IO[str], tick: int) -> None:
        self.system, self.out, self.tick = system, out, tick
        self.waves = [wave for core in range(system.cores) for wave in waves_of(system, core)]
        self.codes = {(wave.core, wave.scope, wave.name): code_of(place) for place, wave in enumerate(self.waves)}
        self.values = {self.codes[wave.core, wave.scope, wave.name]: wave.first for wave in self.waves}
        self.changed: dict[str, str] = {}
        self.events: dict[str, None] = {}
        self.moment = 0
        self.runs: dict[int, str] = {}

    def write(self, told: Told) -> Reading:
        self.head()
        reading = Reading(self.system, self)
        reading.read(told.lines, told.horizon)
        self.tell()
        self.out.write(f'#{reading.end * self.tick}\n')
        return reading

    def head(self) -> None:
        out = self.out
        out.write('$timescale 1 ns $end\n')
        for core in range(self.system.cores):
            out.write(f'$scope module core{core} $end\n')
            scope = ''
            for wave in (wave for wave in self.waves if wave.core == core):
                if wave.scope != scope:
                    out.write('$upscope $end\n' * bool(scope) + f'$scope module {wave.scope} $end\n')
                    scope = wave.scope
                out.write(f'$var {wave.kind} {wave.width} {self.codes[core, wave.scope, wave.name]} {wave.name} $end\n')
            out.write('$upscope $end\n' * (1 + bool(scope)))
        out.write('$enddefinitions $end\n$dumpvars\n')
        out.writelines(f'{first} {code}\n' for code, first in self.values.items() if first is not None)
        out.write('$end\n')

    def at(self, moment: int) -> None:
        """Begins a moment: what was told of the one before is final."""
        if moment != self.moment:
            self.tell()
            self.moment = moment

    def tell(self) -> None:
        """Writes what has another value than before, and each event."""
        lines = [f'1{code}' for code in self.events]
        for code, value in self.changed.items():
            if value != self.values[code]:
                self.values[code] = value
                lines.append(f'{value} {code}')
        self.changed.clear()
        self.events.clear()
        if lines:
            self.out.write('\n'.join([f'#{self.moment * self.tick}', *lines, '']))

    def set(self, moment: int, core: int, scope: str, name: str, value: str) -> None:
        self.at(moment)
        self.changed[self.codes[core, scope, name]] = value

    def happen(self, moment: int, core: int, scope: str, name: str) -> None:
        self.at(moment)
        self.events[self.codes[core, scope, name]] = None

    # ---- what is heard

    def entered(self, thread: Thread, moment: int, standing: int, date: Optional[int]) -> None:
        core = thread.core
        self.set(moment, core, 'threads', thread.name, text(STANDINGS[standing]))
        self.set(moment, core, 'until', thread.name, number(date))
        if standing == RUNNING:
            self.runs[core] = thread.name
            self.set(moment, core, '', 'runs', text(thread.name))
        elif self.runs.get(core) == thread.name:
            self.runs[core] = NONE
            self.set(moment, core, '', 'runs', text(NONE))

    def round_ended(self, ended: Round) -> None:
        thread = ended.thread
        self.happen(ended.end, thread.core, 'rounds', thread.name)
        if ended.is_missed:
            self.happen(ended.end, thread.core, 'misses', thread.name)

    def posted(self, post: Post) -> None:
        home = self.system.home_of[post.note]
        if post.core != home or post.source:
            self.happen(post.arrived, home, 'arrivals', post.note)
        if post.outcome == LOST:
            self.happen(post.arrived, home, 'losses', post.note)

    def word(self, note: str, moment: int, word: int) -> None:
        self.set(moment, self.system.home_of[note], 'words', note, number(word))


def saved_view(system: System, end: int) -> str:
    """A view of GTKWave that shows all of a dump whose last time this is: core by core, each thread with its own waves."""
    lines = []
    for core in range(system.cores):
        waves = list(waves_of(system, core))
        names = dict.fromkeys(wave.name for wave in waves)
        lines += [COMMENT, f'-core {core}']
        for wave in (wave for name in names for wave in waves if wave.name == name):
            lines += [DECIMAL if wave.kind == NUMBER else BINARY, f'+{{{wave.label}}} {wave.path}']
    rows = sum(not line.startswith('@') for line in lines)
    zoom = -math.log2(max(1, end) * FRAME / ROOM)
    size = f'[size] {WIDE} {min(1000, EDGES + ROW * rows)}'
    head = ['[timestart] 0', size, '[pos] -1 -1', f'*{zoom:.6f} -1', '[sst_expanded] 0', f'[signals_width] {NAMES}', '[sst_width] 0']
    return '\n'.join([*head, *lines, ''])


nanoseconds = options.number('no length of a tick, of 1 to 1000000 nanoseconds', 1, 10**6)


def main() -> None:
    words = Words(__doc__).takes_rows()
    words.add_argument('--tick-ns', type=nanoseconds, default=1, metavar='N', help='a tick is N nanoseconds (default: %(default)s)')
    words.writes('-o', '--output', metavar='FILE', help='where the waves go (default: standard output)')
    words.writes('--save', metavar='FILE', help='writes to FILE a view of GTKWave of all waves')
    asked = words.asked()
    with source.told(asked, asked.horizon) as told, output.written(asked.output) as out:
        reading = Dump(told.system, out, asked.tick_ns).write(told)
        if asked.save:
            output.write(asked.save, saved_view(told.system, reading.end * asked.tick_ns))
