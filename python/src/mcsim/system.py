"""A system: its parts, its file, and what the simulator says of it."""
from __future__ import annotations

import dataclasses
import json
import os
import pathlib
import tomllib
from collections.abc import Iterator, Mapping, Sequence
from dataclasses import dataclass
from typing import Any, Optional, TypeVar, Union

from . import explained, forever, library, rows, verdict, views
from .parts import Chain, Context, Link, Named, Note, Order, Part, Server, Source, Thread

# the last time of a run, where none is given
HORIZON = 1000
# the last time of a search for a repetition, where none is given
SEARCH = 10_000_000
# the field of a system for each list of a file, in the order of a file, and what its rows are
LISTS: Mapping[str, tuple[str, type[Part]]] = {
    'context': ('contexts', Context), 'note': ('notes', Note), 'server': ('servers', Server), 'thread': ('threads', Thread), 'source': ('sources', Source),
    'order': ('orders', Order), 'link': ('links', Link), 'chain': ('chains', Chain),
}
# the keys of the rows of each kind, with their defaults
KEYS = {kind: tuple((field.name, field.default) for field in dataclasses.fields(kind)) for _, kind in LISTS.values()}
NUMBERS = ('version', 'cores', 'delay', 'call', 'min_budget')
N = TypeVar('N', bound=Named)


def value_of(value: object) -> str:
    """A value as TOML has it: what JSON writes of numbers, texts and lists is TOML, but for one character."""
    return json.dumps(value, ensure_ascii=False).replace('\x7f', '\\u007f')


def row_of(part: Part) -> str:
    """The row of a part: an inline table without what is a default."""
    own = ((key, getattr(part, key), default) for key, default in KEYS[type(part)])
    return '{ ' + ', '.join(f'{key} = {value_of(value)}' for key, value, default in own if value != default) + ' }'


@dataclass(frozen=True)
class System:
    """A system, with the names, ranges and defaults of a file (docs/FORMAT.md). Times are in ticks.

    It is tested when it runs: a method raises `Fault` with the line of the first fault."""

    cores: int = 1
    delay: int = 1
    contexts: Sequence[Context] = ()
    threads: Sequence[Thread] = ()
    notes: Sequence[Note] = ()
    servers: Sequence[Server] = ()
    sources: Sequence[Source] = ()
    orders: Sequence[Order] = ()
    links: Sequence[Link] = ()
    chains: Sequence[Chain] = ()
    call: int = 1
    min_budget: int = 1
    version: int = 3
    # the title of pictures
    name: str = 'system'

    @staticmethod
    def read(path: Union[str, os.PathLike[str]]) -> System:
        """Reads the file of a system. Raises `Fault` with the line of its first fault."""
        file = pathlib.Path(path)
        return System.of(file.read_bytes(), file.stem)

    @staticmethod
    def of(text: Union[str, bytes], name: str = 'system') -> System:
        """Reads the text of a system."""
        data = text.encode() if isinstance(text, str) else text
        # the simulator tests the text, so that each table has the keys of its part and no others
        library.run(data, 0, library.REPORTS)
        tables: dict[str, Any] = tomllib.loads(data.decode())
        values: dict[str, Any] = {key: tables[key] for key in NUMBERS if key in tables}
        values |= {field: tuple(kind(**row) for row in tables.get(key, ())) for key, (field, kind) in LISTS.items()}
        return System(name=name, **values)

    def text(self) -> str:
        """The text of its file."""
        lines = [f'{key} = {value_of(getattr(self, key))}' for key in NUMBERS]
        for key, (field, _) in LISTS.items():
            if parts := getattr(self, field):
                lines += [f'{key} = [', *(f'  {row_of(part)},' for part in parts), ']']
        return ''.join(f'{line}\n' for line in lines)

    def write(self, path: Union[str, os.PathLike[str]]) -> None:
        """Writes the file of a system."""
        pathlib.Path(path).write_text(self.text(), encoding='utf-8')

    def context(self, name: str) -> Context:
        return named(self.contexts, name)

    def thread(self, name: str) -> Thread:
        return named(self.threads, name)

    def source(self, name: str) -> Source:
        return named(self.sources, name)

    def put(self, part: Named) -> System:
        """The system with this part in place of the one of its kind and name, or after the last one."""
        field = next(field for field, kind in LISTS.values() if kind is type(part))
        parts: list[Named] = list(getattr(self, field))
        place = next((place for place, other in enumerate(parts) if other.name == part.name), len(parts))
        parts[place:place + 1] = [part]
        changed: dict[str, Any] = {field: tuple(parts)}
        return dataclasses.replace(self, **changed)

    def simulate(self, horizon: int = HORIZON) -> Iterator[rows.Row]:
        """The rows of the schedule up to a horizon. All are made before the first one is given."""
        return rows.rows_of(library.run(self.data(), horizon, library.SCHEDULE))

    def check(self, horizon: int = HORIZON, allow_lost: Sequence[str] = ()) -> verdict.Verdict:
        """What is wrong with the schedule up to a horizon; at the notifications of allow_lost a lost signal is no finding."""
        return verdict.verdict_of(library.check(self.data(), horizon, 'findings', allow_lost))

    def table(self, horizon: int = HORIZON) -> list[verdict.Figures]:
        """The figures of each thread up to a horizon; pandas.DataFrame takes them as they are."""
        return verdict.table_of(library.check(self.data(), horizon, 'table'))

    def unused(self, horizon: int = HORIZON) -> dict[str, Optional[int]]:
        """The ticks that each context could have let run and did not; None if an order names the context."""
        return verdict.unused_of(library.check(self.data(), horizon, 'table'))

    def jobs(self, horizon: int = HORIZON) -> Iterator[verdict.Job]:
        """The jobs that ended up to a horizon, by their ends."""
        return verdict.jobs_of(library.check(self.data(), horizon, 'jobs'))

    def answers(self, horizon: int = HORIZON) -> Iterator[verdict.Answer]:
        """The answers of all chains up to a horizon, each with its latency, by their times."""
        return verdict.answers_of(library.check(self.data(), horizon, 'jobs'))

    def why(self, thread: str, round: int, horizon: int = HORIZON) -> explained.Explanation:
        """Why the job of this number, from 1, of a thread took so long in the schedule up to a horizon. A thread or a job that is not there is a ValueError."""
        if all(part.name != thread for part in self.threads) and any(part.name == thread for part in self.chains):
            raise ValueError(f'{thread!r} is a chain: way() has its answers')
        return explained.explanation_of(library.why(self.data(), horizon, thread, round))

    def way(self, chain: str, number: int, horizon: int = HORIZON) -> explained.Way:
        """The way of the answer of this number, from 1, of a chain in the schedule up to a horizon. A chain or an answer that is not there is a ValueError."""
        if any(part.name == chain for part in self.threads):
            raise ValueError(f'{chain!r} is a thread: why() has its jobs')
        return explained.way_of(library.why(self.data(), horizon, chain, number))

    def forever(self, horizon: int = SEARCH, allow_lost: Sequence[str] = ()) -> forever.Outlook:
        """What is wrong with the schedule for all time: a repetition is searched for up to a horizon."""
        return forever.outlook_of(library.forever(self.data(), horizon, allow_lost))

    def view(self, horizon: int = HORIZON, begin: int = 0, end: Optional[int] = None, width: int = 1000) -> views.View:
        """A picture of the schedule up to a horizon, from begin to end."""
        data, last = self.data(), horizon if end is None else end
        options = ['--horizon', str(horizon), '--from', str(begin), '--to', str(last), '--width', str(width)]
        return views.view_of(self.name, data, library.run(data, horizon, library.SCHEDULE), options)

    def data(self) -> bytes:
        """The bytes of its file."""
        return self.text().encode()


def named(parts: Sequence[N], name: str) -> N:
    """The part of this name."""
    for part in parts:
        if part.name == name:
            return part
    raise KeyError(f'there is no {name!r}: there are {", ".join(part.name for part in parts) or "none"}')
