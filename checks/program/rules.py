#!/usr/bin/env python3
"""Checks each row of the program against a plain model of the rules (checks/program/model.py), on 1,000 random systems.

Each random system is of version 2 or 3, and some have orders, calls of several ticks and a least budget. A file that the program refuses counts for
nothing. The text of a system whose rows differ is kept, and its file named with the first row that differs. A kind of row or of stop that was seen
nowhere is a failure: a test that sees nothing of it tells nothing."""
from __future__ import annotations

import collections
import itertools
import pathlib
import random
import sys
import tempfile
import tomllib

sys.dont_write_bytecode = True
sys.path[0] = str(pathlib.Path(__file__).resolve().parents[2])
from checks import common, random_systems
from checks.common import Count
from checks.program import model, verdicts
from checks.random_systems import text_of

KINDS = ('release', 'run', 'stop', 'signal', 'arrive', 'wake', 'hold', 'got', 'round', 'order', 'interrupt', 'enter', 'leave')
REASONS = ('spent', 'yield', 'wait', 'call', 'done', 'preempt', 'order')
SEEN = (*KINDS, *(f'stop {why}' for why in REASONS), 'version 2', 'version 3', 'let in', 'nobody takes it')
HORIZONS = (0, 30, 100, 100, 300)


def random_text(rng: random.Random) -> str:
    """The text of a system that may have all that there is."""
    tables = verdicts.tables_of(rng) if rng.random() < 0.5 else tomllib.loads(random_systems.random_text(rng))
    if rng.random() < 0.3:
        tables['call'] = rng.randint(1, 3)
    if rng.random() < 0.3:
        tables['min_budget'] = rng.randint(1, 3)
    return text_of(tables)


def rows_of(system: model.System, horizon: int) -> list[model.Row]:
    """The rows of a system's schedule by the model."""
    world = model.World(system)
    return [row for _ in range(horizon + 1) for row in world.turn()]


def difference(wanted: list[str], got: list[str]) -> str:
    """The first row that differs; one of the two may have ended."""
    return next((f'{two!r}, and not {one!r}' for one, two in itertools.zip_longest(wanted, got) if one != two), '')


class Trial:
    """A program, and what the systems have shown."""

    def __init__(self, program: pathlib.Path) -> None:
        self.program, self.count = program, Count()
        self.seen: collections.Counter[str] = collections.Counter()

    def look(self, name: str, text: str, horizon: int) -> None:
        ran = common.run([self.program, '--horizon', str(horizon)], text.encode())
        if ran.status == 1:
            return
        tables = tomllib.loads(text)
        system = model.System(tables)
        rows = rows_of(system, horizon)
        differs = difference([model.text_of(row, system) for row in rows], ran.stdout.decode().splitlines())
        if differs or ran.status:
            file = pathlib.Path(tempfile.gettempdir(), f'rules-{name}.toml')
            file.write_text(text)
            name = str(file)
        self.count.expect(f'{name} --horizon {horizon}: {differs or ran.stderr!r}', not differs and not ran.status)
        self.tell(tables, rows)

    def tell(self, tables: random_systems.Tables, rows: list[model.Row]) -> None:
        """Counts what was seen."""
        self.seen[f'version {tables["version"]}'] += 1
        self.seen.update(row.kind for row in rows)
        self.seen.update(f'stop {row.what[1]}' for row in rows if row.kind == 'stop')
        for row, after in zip(rows, rows[1:]):
            self.seen['let in'] += row.kind == 'leave' and after.kind == 'enter' and row.what[0] != after.what[0] and row.moment == after.moment
        self.seen['nobody takes it'] += self.unheard(model.System(tables), rows)

    def unheard(self, system: model.System, rows: list[model.Row]) -> int:
        """How often a first wait gives a word for which the thread has nothing to do, where its script has no other wait for that notification."""
        given = [row.what[:3] for row in rows if row.kind in ('wake', 'got')]
        scripts = system.scripts
        words = [(thread, word) for thread, note, word in given if scripts[thread][0] == ('wait', note) and scripts[thread].count(('wait', note)) == 1]
        return sum(system.next_item(thread, 0, system.heard(thread, word)) == 0 for thread, word in words)


def main() -> None:
    words = common.asking_random(__doc__, 1000).parse_args()
    trial = Trial(common.built_program(words.program))
    for number in range(words.systems):
        rng = random.Random(f'rules {words.seed} {number}')
        trial.look(f'{words.seed}-{number}', random_text(rng), rng.choice(HORIZONS))
    trial.count.expect_all(trial.seen, SEEN)
    trial.count.end()


if __name__ == '__main__':
    main()
