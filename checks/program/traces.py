#!/usr/bin/env python3
"""Checks that tools/trace keeps the rules of the trace event format, and shows the ticks that the reports have.

Over the examples and random systems of versions 2 and 3, some with orders and a least budget: each event has the keys of its phase; slices of a track have a length and never overlap; a track has a name; a
flow has one beginning and one end, in this order and each inside a slice. The ticks of the running slices of a thread are those that the reports
give, and moments are told in the ticks that were asked for. With --file a trace that is there is tried alone."""
from __future__ import annotations

import bisect
import collections
import json
import os
import pathlib
import random
import sys
import tempfile
from collections.abc import Iterable, Mapping
from typing import Any

sys.dont_write_bytecode = True
sys.path[0] = str(pathlib.Path(__file__).resolve().parents[2])
from checks import common, random_systems, tool
from checks.common import DATA, Count

NEEDED = {
    'X': {'name', 'cat', 'pid', 'tid', 'ts', 'dur'}, 'M': {'name', 'pid', 'tid', 'args'}, 's': {'name', 'cat', 'id', 'pid', 'tid', 'ts'},
    'f': {'name', 'cat', 'id', 'pid', 'tid', 'ts', 'bp'}, 'i': {'name', 'pid', 'tid', 'ts', 's'}, 'C': {'name', 'pid', 'ts', 'args'},
}
HORIZONS = (0, 10, 60, 300)
SYSTEMS = 40
TICK_NS = 250

Event = Mapping[str, Any]
Track = tuple[int, int]


class Slices:
    """The slices of each track, in order."""

    def __init__(self, events: Iterable[Event]) -> None:
        self.of: dict[Track, list[tuple[float, float, str]]] = collections.defaultdict(list)
        for event in events:
            if event['ph'] == 'X':
                self.of[event['pid'], event['tid']].append((event['ts'], event['ts'] + event['dur'], event['name']))
        for slices in self.of.values():
            slices.sort()

    def faults(self, named: set[Track]) -> list[str]:
        found = [f'a track without a name: {track}' for track in self.of if track not in named]
        for track, slices in self.of.items():
            found += [f'a slice of no length: {one}' for one in slices if not one[1] > one[0]]
            found += [f'slices of {track} overlap: {one} {two}' for one, two in zip(slices, slices[1:]) if two[0] < one[1] - 1e-6]
        return found

    def has(self, event: Event) -> bool:
        """Whether an event lies inside a slice of its track."""
        slices = self.of[event['pid'], event['tid']]
        place = bisect.bisect(slices, (event['ts'], float('inf'), '')) - 1
        return place >= 0 and slices[place][0] <= event['ts'] < slices[place][1]


def flow_faults(events: Iterable[Event], slices: Slices) -> list[str]:
    ends: dict[int, dict[str, Event]] = collections.defaultdict(dict)
    found = []
    for event in events:
        if event['ph'] in 'sf':
            if event['ph'] in ends[event['id']]:
                found.append(f'flow {event["id"]} has {event["ph"]} twice')
            ends[event['id']][event['ph']] = event
    for number, both in ends.items():
        if set(both) != {'s', 'f'} or both['s']['ts'] > both['f']['ts'] or any(both['s'][key] != both['f'][key] for key in ('name', 'cat')):
            found.append(f'flow {number} is not whole')
        else:
            found += [f'flow {number} lies in no slice: {event}' for event in both.values() if not slices.has(event)]
    return found


def faults(text: bytes) -> list[str]:
    """What is wrong with a trace."""
    try:
        events = json.loads(text)['traceEvents']
    except (ValueError, KeyError) as error:
        return [f'no trace: {error}']
    found = [f'keys are missing: {event}' for event in events if event.get('ph') not in NEEDED or NEEDED[event['ph']] - set(event)]
    if found:
        return found
    slices = Slices(events)
    named = {(event['pid'], event['tid']) for event in events if event['ph'] == 'M' and event['name'] == 'thread_name'}
    return slices.faults(named) + flow_faults(events, slices)


def ran_in(text: bytes) -> dict[str, float]:
    """For each thread the ticks of its running slices."""
    events = json.loads(text)['traceEvents']
    name_of = {(event['pid'], event['tid']): event['args']['name'] for event in events if event['ph'] == 'M' and event['name'] == 'thread_name'}
    found: dict[str, float] = collections.defaultdict(float)
    for event in events:
        if event['ph'] == 'X' and event['name'] == 'running':
            found[name_of[event['pid'], event['tid']]] += event['dur'] * 1000 / TICK_NS
    return found


def ran_by_reports(program: pathlib.Path, system: bytes, horizon: int) -> dict[str, int]:
    lines = common.run([program, '--horizon', str(horizon), '--show', 'reports'], system).stdout.decode().splitlines()
    return {words[1]: int(words[3]) for words in map(str.split, lines) if words[0] == 'thread' and int(words[3])}


def with_orders(rng: random.Random, system: random_systems.System) -> str:
    """The text of a system, of version 2 or 3, with orders: what contexts hold can no longer be read off their configurations."""
    text = random_systems.text_in_some_version(rng, system)
    for _ in range(rng.randint(0, 6) if system.contexts else 0):
        context = rng.choice(system.contexts)
        period = rng.randint(2, 20)
        budget = period if context.budget == context.period else rng.randint(1, period - 1)
        extra = rng.choice([0, 0, 1, 4]) if budget < period else 0
        keys = {'at': rng.randint(0, 80), 'core': context.core, 'budget': budget, 'period': period, 'extra_refills': extra}
        text += ''.join(['[[order]]\n', f'context = "{context.name}"\n', *(f'{key} = {value}\n' for key, value in keys.items())])
    return (f'min_budget = {rng.choice([2, 3])}\n' if rng.random() < 0.4 else '') + text


def try_system(program: pathlib.Path, file: pathlib.Path, horizon: int, count: Count) -> None:
    ran = tool.run('trace', file, '--horizon', str(horizon), '--tick-ns', str(TICK_NS), '--budgets', env={**os.environ, 'MCSIM': str(program)})
    if ran.status:
        if common.run([program, '--horizon', '0'], file.read_bytes()).status == 1:
            # the program refuses this system, and so the tool does
            return
        count.expect(f'{file.name} to {horizon}: {ran.stderr.decode().strip()}', False)
        return
    found = faults(ran.stdout)
    count.expect(f'{file.name} to {horizon}: {found[:3]}\n{file.read_text() if found else ""}', not found)
    if not found:
        sums = {name: round(ticks, 3) for name, ticks in ran_in(ran.stdout).items()}
        count.expect(f'{file.name} to {horizon}: ran {sums}', sums == ran_by_reports(program, file.read_bytes(), horizon))


def main() -> None:
    parser = common.asking_random(__doc__, SYSTEMS)
    parser.add_argument('--file', type=pathlib.Path, metavar='TRACE', help='tries this trace alone')
    words = parser.parse_args()
    count = Count()
    if words.file:
        found = faults(words.file.read_bytes())
        count.expect('\n'.join(found[:20]), not found)
        count.end()
    program = common.built_program(words.program)
    for file in sorted((DATA / 'examples').glob('*.toml')):
        try_system(program, file, 60, count)
    rng = random.Random(words.seed)
    with tempfile.TemporaryDirectory() as folder:
        file = pathlib.Path(folder, 'system.toml')
        for _ in range(words.systems):
            file.write_text(with_orders(rng, random_systems.system_of(rng)))
            try_system(program, file, rng.choice(HORIZONS), count)
    count.end()


if __name__ == '__main__':
    main()
