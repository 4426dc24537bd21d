"""A sweep: a system, what is set in it, and the lines of its table."""
from __future__ import annotations

import contextlib
import copy
import csv
import functools
import hashlib
import io
import itertools
import math
import pathlib
from collections.abc import Iterable, Iterator, Sequence
from dataclasses import dataclass
from typing import Any

from . import settings, system, workers, writing
from .faults import Fault
from .settings import Value
from .system import System
from .verdict import Programs, Result, check_names, kinds_of

MOST = 10**6
GREATEST = 'greatest '

Values = tuple[Value, ...]


@dataclass(frozen=True)
class Trial:
    """A combination: its values and its system."""

    values: Values
    text: bytes


def run_of(places: Sequence[str], programs: Programs, horizon: int, of: Sequence[str], wants_responses: bool, trial: Trial) -> Result:
    """The run of one combination; a failure names it."""
    try:
        return programs.result(trial.text, horizon, of, wants_responses)
    except Fault as fault:
        what = ' '.join(f'{place}={value}' for place, value in zip(places, trial.values))
        raise Fault(f'{what}: {fault}', fault.status) from None


class Sweep:
    """A system, the settings of its combinations, and how each is looked at."""

    def __init__(self, path: pathlib.Path, text: bytes, sets: Sequence[str], horizon: int, of: Sequence[str]) -> None:
        self.text = text
        known = system.parse(path, text)
        self.tables = system.tables_of(path, text)
        check_names(of, known)
        self.sets, self.horizon, self.of = list(sets), horizon, list(of)
        self.settings = [settings.setting(text, self.tables) for text in sets]
        self.places = [place.text for place, _ in self.settings]
        twice = next((text for text in self.places if self.places.count(text) > 1), None)
        if twice:
            raise Fault(f'{twice}: it is set twice')
        self.check_deadlines(known)
        self.count = math.prod(len(values) for _, values in self.settings)
        if self.count > MOST:
            raise Fault(f'{self.count} combinations, of at most {MOST}')
        self.columns = columns(self.places, kinds_of(known), [name for name, thread in known.threads.items() if thread.deadline])

    def check_deadlines(self, known: System) -> None:
        """Refuses a chain without a deadline, of which nothing is ever found."""
        for name in self.of:
            place = f'chain.{name}.deadline'
            if name not in known.threads and not known.chains[name].deadline and place not in self.places:
                raise Fault(f'--of {name}: the chain has no deadline, so nothing is found of it: set {place}')

    def head(self, programs: Programs) -> dict[str, Any]:
        """What a journal of this sweep begins with."""
        digest = hashlib.sha256(self.text).hexdigest()
        return {'system': digest, 'sets': self.sets, 'horizon': self.horizon, 'of': self.of, 'programs': programs.digests()}

    def combinations(self) -> Iterator[Values]:
        """The values of each combination."""
        return itertools.product(*(values for _, values in self.settings))

    def trial(self, values: Values) -> Trial:
        """The combination of these values."""
        edited = copy.deepcopy(self.tables)
        for (place, _), value in zip(self.settings, values):
            place.put(edited, value)
        return Trial(values, writing.system_text(edited).encode())

    def results(
        self, programs: Programs, combinations: Iterable[Values], jobs: int, wants_responses: bool = True,
    ) -> contextlib.AbstractContextManager[Iterator[Result]]:
        """What the runs of combinations come to, in their order."""
        work = functools.partial(run_of, self.places, programs, self.horizon, self.of, wants_responses)
        return workers.in_order(work, map(self.trial, combinations), jobs)


def columns(places: Sequence[str], kinds: Sequence[str], threads: Sequence[str]) -> list[str]:
    return [*places, 'status', 'fault', *kinds, *(f'{GREATEST}{name}' for name in threads)]


def line_of(columns: Sequence[str], values: Sequence[object], result: Result) -> list[object]:
    """A line of the table. What a run does not tell, as the response of a thread that never ended a round, is empty."""
    told = {**result.counts, **{f'{GREATEST}{name}': greatest for name, greatest in result.greatest.items()}}
    return [*values, result.status, result.fault, *(told.get(column, '') for column in columns[len(values) + 2:])]


def csv_text(rows: Iterable[Sequence[object]]) -> str:
    text = io.StringIO()
    csv.writer(text, lineterminator='\n').writerows(rows)
    return text.getvalue()
