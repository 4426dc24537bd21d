#!/usr/bin/env python3
"""Checks that tools/compare finds planted differences in traces with noise, and no others.

Each trace is made from the schedule of a random system of two cores with timers. Each switch gets
a random noise, and the tool is not told the unit and the offset. In a third of the traces one
thread computes for 5 % longer, in a third two threads of a core have swapped priorities, and in a
third one interrupt is lost. A trace of the system itself has to show no difference. If a thread
computes for longer, the tool has to name it and no other. If priorities are swapped or an interrupt
is lost, it has to report where both part, and not before both schedules do."""
from __future__ import annotations

import collections
import copy
import pathlib
import random
import sys
import tempfile
from collections.abc import Iterator, Sequence
from typing import Any, NamedTuple, Optional

sys.dont_write_bytecode = True
sys.path[0] = str(pathlib.Path(__file__).resolve().parents[2])
from checks import common
from checks.common import TOP, Count

sys.path.insert(0, str(TOP / 'tools'))
from mcsim_tools import compare, comparing, measured, source, workers, writing
from mcsim_tools.reading import read

Tables = dict[str, Any]
CORES = 2
HORIZON = 8000
# by how many ticks a switch may be early or late in a trace
NOISE = 0.3
LONGER, SWAPPED, LOST = 'times longer by 5 %', 'priorities swapped', 'an interrupt lost'
KINDS = (LONGER, SWAPPED, LOST)
PERCENT = 0.01


def system_of(rng: random.Random) -> Tables:
    """Two to four threads a core, each of which waits for a timer."""
    made: Tables = {'version': 3, 'cores': CORES, 'delay': 1, 'context': [], 'note': [], 'thread': [], 'source': []}
    for core in range(CORES):
        many = rng.randint(2, 4)
        for number in range(many):
            name, period = f't{core}{number}', rng.randint(100, 400)
            work = max(20, int(period * rng.uniform(0.4, 0.9) / many))
            made['context'].append({'name': name, 'core': core, 'budget': period, 'period': period})
            made['note'].append({'name': name, 'core': core})
            made['source'].append({'name': name, 'note': name, 'badge': 1, 'period': period, 'start': rng.randint(20, 20 + period)})
            made['thread'].append({'name': name, 'context': name, 'priority': 10 + number, 'script': [f'wait {name}', f'compute {work}']})
    return made


def planted(rng: random.Random, made: Tables, kind: str) -> tuple[Tables, str]:
    """Another system, and the thread whose times or interrupts are not those of the first."""
    other = copy.deepcopy(made)
    place = rng.randrange(len(made['thread']))
    thread = other['thread'][place]
    if kind == LONGER:
        work = int(thread['script'][1].split()[1])
        thread['script'][1] = f'compute {round(work * 1.05)}'
    elif kind == SWAPPED:
        same = [row for row in other['thread'] if row['name'][1] == thread['name'][1] and row is not thread]
        with_it = rng.choice(same)
        thread['priority'], with_it['priority'] = with_it['priority'], thread['priority']
    else:
        row = other['source'][place]
        many = HORIZON // row['period'] + 1
        dates = [number * row['period'] for number in range(many)]
        dates.pop(rng.randrange(1, many // 2))
        row |= {'period': many * row['period'], 'at': dates}
    return other, str(thread['name'])


class Schedule(NamedTuple):
    """What ran in a system, and what the tools know of it."""

    told: source.Told
    side: comparing.Side


def schedule_of(program: str, made: Tables) -> Schedule:
    text = writing.system_text(made).encode()
    listener = comparing.Ran()
    with source.run(program, pathlib.Path('system'), text, HORIZON) as told:
        read(told, listener)
    return Schedule(told, listener.side)


def trace_of(rng: random.Random, side: comparing.Side) -> str:
    """A trace of a schedule, with noise, a unit and an offset."""
    unit, offset = rng.choice([1, 24.0, 1000]) * rng.uniform(0.9, 1.1), rng.randint(0, 10**12)
    rows = []
    for core, spells in side.spells.items():
        for spell, after in zip(spells, [*spells[1:], None]):
            rows.append((spell.begin, core, spell.name))
            if after is None or after.begin > spell.end:
                rows.append((spell.end, core, 'idle'))
    # one noise a switch, so that what ends and what begins there do so together
    noise: dict[tuple[float, int], float] = collections.defaultdict(lambda: rng.uniform(-NOISE, NOISE))
    timed = sorted((offset + unit * (time + noise[time, core]), core, name) for time, core, name in rows)
    return ''.join(['time,core,thread\n', *(f'{time:.3f},{core},{name}\n' for time, core, name in timed)])


def first_apart(ours: comparing.Side, theirs: comparing.Side) -> Optional[float]:
    """The first time at which two schedules are not the same."""
    apart = []
    for core in range(CORES):
        for own, other in zip(ours.spells.get(core, []), theirs.spells.get(core, [])):
            if own != other:
                apart.append(min(own.end, other.end) if own.begin == other.begin and own.name == other.name else min(own.begin, other.begin))
                break
    return min(apart, default=None)


class Trial(NamedTuple):
    """What the tool finds: in a trace of the system itself, and in one with a difference."""

    kind: str
    thread: str
    apart: float
    same: compare.Beside
    other: compare.Beside


def laid(program: str, rng: random.Random, ours: Schedule, theirs: Schedule, folder: pathlib.Path) -> compare.Beside:
    path = folder / 'trace.csv'
    path.write_text(trace_of(rng, theirs.side))
    trace = measured.Reader(path, ours.told.system, measured.Words()).read()
    return compare.beside(ours.told.system, ours.side, trace, (None, None, None), PERCENT)


def tried(program: str, seed: str, number: int) -> Trial:
    rng = random.Random(f'{seed} {number}')
    kind = KINDS[number % len(KINDS)]
    while True:
        made = system_of(rng)
        other, thread = planted(rng, made, kind)
        ours, theirs = schedule_of(program, made), schedule_of(program, other)
        apart = first_apart(ours.side, theirs.side)
        # swapped priorities of threads that never meet change nothing
        if apart is not None:
            break
    with tempfile.TemporaryDirectory() as place:
        folder = pathlib.Path(place)
        return Trial(kind, thread, apart, laid(program, rng, ours, ours, folder), laid(program, rng, ours, theirs, folder))


def results(program: str, seed: str, many: int) -> Iterator[Trial]:
    with workers.in_order(lambda number: tried(program, seed, number), range(many), min(workers.processors(), max(1, many))) as found:
        yield from found


def longer(found: compare.Beside) -> Sequence[str]:
    return [one.name for one in found.compared if one.longer is not None]


def is_found(trial: Trial) -> bool:
    other = trial.other
    if trial.kind == LONGER:
        return longer(other) == [trial.thread]
    return other.parting is not None and other.parting.time >= trial.apart - other.fit.tolerance


def main() -> None:
    words = common.asking_random(__doc__, 15, 'traces').parse_args()
    program = common.built_program(words.program)
    count = Count()
    seen: collections.Counter[str] = collections.Counter()
    for number, trial in enumerate(results(str(program), str(words.seed), words.traces)):
        what = f'trace {number} of seed {words.seed}'
        same, other = trial.same, trial.other
        count.expect(f'{what}: a difference is found where there is none: {same.parting}, {longer(same)}, {same.fit}', same.is_same)
        count.expect(f'{what}: {trial.kind}, {trial.thread}, from {trial.apart} on: {other.parting}, {longer(other)}, {other.fit}', is_found(trial))
        seen[trial.kind] += is_found(trial)
    print(', '.join(f'{kind} {seen[kind]}' for kind in KINDS))
    count.end()


if __name__ == '__main__':
    main()
