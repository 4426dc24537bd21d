"""The least value of a place under which nothing is found, or the greatest.

Each value is tried in turn, from the least on or from the greatest down, since what is found need not change once alone: more budget of one thread is
less for another, and a signal that comes later may find its waiter. So the first good value is the answer, and no value is passed over."""
from __future__ import annotations

import contextlib
import enum
import sys
import time
from collections.abc import Iterator, Sequence
from dataclasses import dataclass, field
from typing import Optional

from . import frame
from .settings import Value
from .sweeping import Sweep
from .verdict import UNJUDGED, Programs, Result


class End(enum.Enum):
    """From which end values are tried."""

    LEAST = 'least'
    GREATEST = 'greatest'

    def ordered(self, values: Sequence[Value]) -> list[Value]:
        """Each value once, in the order in which it is tried."""
        return sorted(set(values), key=int, reverse=self is End.GREATEST)


@dataclass
class Found:
    """What a search came to: the value, if there is one, and before it those that were refused, and those under which nothing was judged."""

    value: Optional[Value] = None
    refused: list[tuple[Value, str]] = field(default_factory=list)
    unjudged: list[Value] = field(default_factory=list)


def seconds_text(seconds: float) -> str:
    """A time in the unit in which it is a small number."""
    if seconds < 1:
        return 'less than 1 s'
    return f'about {seconds:.0f} s' if seconds < 120 else f'about {seconds / 60:.0f} min'


class Progress:
    """How far it is, on standard error where that is a terminal."""

    def __init__(self, count: int) -> None:
        self.count, self.is_shown = count, sys.stderr.isatty()
        self.is_open = False

    def __enter__(self) -> Progress:
        return self

    def __exit__(self, *_: object) -> None:
        self.end()

    def end(self) -> None:
        """Ends the line that is open."""
        if self.is_open:
            self.write('\n')
        self.is_open = False

    def at(self, done: int) -> None:
        if self.is_shown:
            self.write(f'\r{done} of {self.count}')
            self.is_open = True

    def write(self, text: str) -> None:
        with contextlib.suppress(OSError):
            sys.stderr.write(text)
            sys.stderr.flush()


def timed(results: Iterator[Result]) -> Iterator[tuple[Result, float]]:
    """Each result with the seconds since the first was asked for."""
    began = time.monotonic()
    for result in results:
        yield result, time.monotonic() - began


def search(sweep: Sweep, programs: Programs, end: End, jobs: int) -> Found:
    """Tries the values of a sweep's one place from an end on, until nothing is found under one."""
    values = end.ordered(sweep.settings[0][1])
    found, jobs = Found(), min(jobs, len(values))
    with sweep.results(programs, [(value,) for value in values], jobs, wants_responses=False) as results, Progress(len(values)) as progress:
        for done, (value, (result, seconds)) in enumerate(zip(values, timed(results)), 1):
            if result.is_clean:
                found.value = value
                break
            if result.is_refused:
                found.refused.append((value, result.fault))
            if result.status == UNJUDGED:
                found.unjudged.append(value)
            if done == 1 and len(values) > 1:
                left = len(values) - 1
                frame.say(f'{left} value{"s are" if left > 1 else " is"} left at most, {seconds_text(seconds * left / jobs)}')
            progress.at(done)
    return found


def answer(sweep: Sweep, end: End, found: Found) -> str:
    """What a search came to, in one line."""
    place, values = sweep.settings[0]
    numbers = End.LEAST.ordered(values)
    whom = f' of {", ".join(sweep.of)}' if sweep.of else ''
    if found.value is not None:
        return f'{place.text} {found.value}: the {end.value} of {numbers[0]} to {numbers[-1]} under which nothing{whom} is found'
    line = f'{place.text}: under none of {numbers[0]} to {numbers[-1]} nothing{whom} is found'
    if found.unjudged:
        line += f'; under {len(found.unjudged)} of {len(numbers)} no deadline{whom} is judged, the first {found.unjudged[0]}'
    if found.refused:
        line += f'; {len(found.refused)} of {len(numbers)} are refused, the first {found.refused[0][0]}: {found.refused[0][1]}'
    return line
