"""Parts of a long run, for a page whose single things end before it.

While the page is drawn, the state of the reading is kept now and then. A part is read from the last such mark before it: the program runs again, and the
lines up to the mark are passed over. A part has a limit of things and of seconds."""
from __future__ import annotations

import bisect
import itertools
import json
import pathlib
import threading
import time
from collections.abc import Collection, Iterable, Iterator
from typing import NamedTuple, Optional

from .faults import Fault
from .packing import Packed
from .page import data_of_part
from .reading import Listener, Reading
from .source import Run
from .system import System

# lines from one mark to the next at least, and for each thread; marks at most, and for how many threads together. If they are more, every other one goes
STEP, STEP_OF_THREAD, MARKS, THREADS = 5_000, 20, 256, 64_000
# marks that are kept of what the page has itself
BEFORE = 3
# things of a part, and seconds that it may take
MOST, SECONDS = 200_000, 3.5
# lines after which the time is looked at
LOOK = 5_000


class Mark(NamedTuple):
    """A reading as it was before a line of the schedule."""

    moment: int
    lines: int
    reading: Reading


class Marks:
    """The marks of a run, from before the end of the page's detail on."""

    def __init__(self) -> None:
        self.list: list[Mark] = []

    def of(self, lines: Iterable[str], reading: Reading, packed: Packed) -> Iterator[str]:
        """The lines, with marks on the way."""
        threads = len(packed.threads)
        step, most = max(STEP, STEP_OF_THREAD * threads), min(MARKS, THREADS // max(1, threads))
        left, many = iter(lines), 0
        while piece := list(itertools.islice(left, step)):
            self.list.append(Mark(reading.end, many, reading.copy(Listener())))
            if packed.detail is None:
                del self.list[:-BEFORE]
            elif len(self.list) > most:
                del self.list[1::2]
                step *= 2
            many += len(piece)
            yield from piece


class Kept(NamedTuple):
    """A run of which parts may be asked for: that of the picture with this number."""

    number: int
    program: str
    path: pathlib.Path
    text: bytes
    system: System
    horizon: int
    budgets: Collection[str]
    marks: list[Mark]

    def part(self, begin: int, end: int) -> Optional[bytes]:
        """What a page shows of a part of the run. None if there is no such part, or if it takes too long."""
        # a round that ended before the part may have its deadline in it
        longest = max((thread.deadline for thread in self.system.threads.values()), default=0)
        place = bisect.bisect_right([mark.moment for mark in self.marks], max(0, begin - longest)) - 1
        if place < 0 or not begin < end <= self.horizon:
            return None
        packed = Packed(self.system, begin, end, MOST, self.budgets)
        running = Run(self.program, self.path, self.text, ['--horizon', str(end)])
        limit = threading.Timer(SECONDS, running.child.kill)
        limit.start()
        try:
            mark = self.marks[place]
            reading = mark.reading.copy(packed)
            for _ in itertools.islice(running.output, mark.lines):
                pass
            reading.read(in_time(running.lines()), end)
            packed.close(reading, end)
        except Fault:
            return None
        finally:
            limit.cancel()
            running.end()
        return json.dumps(data_of_part(packed), separators=(',', ':')).encode()


def in_time(lines: Iterable[str]) -> Iterator[str]:
    """The lines, unless reading them takes too long."""
    until = time.monotonic() + SECONDS
    for number, line in enumerate(lines):
        if number % LOOK == 0 and time.monotonic() > until:
            raise Fault('it takes too long')
        yield line
