#!/usr/bin/env python3
"""Compares what the tools read off rows of chains with a second reading, on random systems.

Behind the ways and latencies of a page is tools/mcsim_tools/chains.py, and the second reading is checks/program/chain_reading.py. Both say which
interrupts of a chain got a first answer, and when, which answers came too late, and which interrupt has none. The latency that tools/worst looks at is
the greatest one, or the age of an interrupt without an answer if that is more. The way of each answer is one: it begins
with the interrupt, each piece goes on where the one before ended, and it ends with the thread of the chain. What was seen nowhere is a failure: a test
that sees nothing of it tells nothing."""
from __future__ import annotations

import collections
import pathlib
import random
import sys
import tempfile
import tomllib
from collections.abc import Iterator
from typing import Any

sys.dont_write_bytecode = True
sys.path[0] = str(pathlib.Path(__file__).resolve().parents[2])
from checks import common
from checks.common import TOP, Count
from checks.program import chain_reading, verdicts
from checks.random_systems import Newer, text_of

sys.path.insert(1, str(TOP / 'tools'))
from mcsim_tools import chains as chain_ways
from mcsim_tools import system as systems
from mcsim_tools.chains import Answer
from mcsim_tools.latency import Latencies
from mcsim_tools.reading import Listener, Reading
from mcsim_tools.settings import Tables
from mcsim_tools.system import Chain, System
from mcsim_tools.trying import Seen

HORIZONS = (60, 200, 400, 400)
SEEN = ('answers', 'slow', 'unanswered', 'over two cores', 'many pieces', 'answered together', 'badges', 'two chains of one source', 'in a server',
        'the age is the latency')


class Heard(Listener):
    """Keeps each answer."""

    hears_chains = True

    def __init__(self) -> None:
        self.answers: list[Answer] = []

    def answered(self, answer: Answer) -> None:
        self.answers.append(answer)


def broken(answer: Answer) -> Iterator[str]:
    """What is wrong with a way."""
    maker, at = None, answer.origin
    for hop in answer.way:
        made, arrived = hop.brought.made, hop.brought.arrived
        if not at <= made <= arrived <= hop.taken or maker is None and made != answer.origin:
            yield f'{answer.chain.name} {answer.origin}: a piece from {made} by {arrived} to {hop.taken} after {at}'
        maker, at = hop.thread, hop.taken
    if not answer.way or maker is None or maker.name != answer.chain.thread or at > answer.moment:
        yield f'{answer.chain.name} {answer.origin}: the way ends with {maker and maker.name} at {at}'


class Trial:
    """A program, and what the systems have shown."""

    def __init__(self, program: pathlib.Path) -> None:
        self.program, self.count = program, Count()
        self.seen: collections.Counter[str] = collections.Counter()

    def look(self, name: str, text: str, horizon: int) -> None:
        ran = common.run([self.program, '--horizon', str(horizon)], text.encode())
        if ran.status == 1:
            return
        tables, rows = tomllib.loads(text), ran.stdout.decode()
        system, heard = systems.system_of(tables), Heard()
        reading = Reading(system, heard)
        reading.read(rows.splitlines(), horizon)
        wrong = [line for answer in heard.answers for line in broken(answer)]
        for chain in tables.get('chain', []):
            second = chain_reading.read_chain(tables, chain, rows)
            wrong += self.differing(reading, [answer for answer in heard.answers if answer.chain.name == chain['name']], second, horizon)
            wrong += self.worst(tables, system.chains[chain['name']], second, horizon)
        self.tell(system, heard.answers)
        if wrong:
            file = pathlib.Path(tempfile.gettempdir(), f'ways-{name}.toml')
            file.write_text(text)
            name = str(file)
        self.count.expect(f'{name} --horizon {horizon}: {wrong[:3]}', not wrong)

    def differing(self, reading: Reading, answers: list[Answer], second: chain_reading.ChainReading, horizon: int) -> Iterator[str]:
        """What the tools say otherwise of a chain."""
        assert reading.chains
        name = second.chain['name']
        figures = reading.chains.figures[name]
        moments = reading.chains.sources.moments[figures.chain.source]
        latencies = [answer.latency for answer in second.answers]
        ends = [(answer.moment, answer.origin) for answer in answers]
        pairs: list[tuple[str, Any, Any]] = [(f'{name} answers', ends, [(answer.moment, answer.origin) for answer in second.answers])]
        pairs += [(f'{name} interrupts', moments, second.interrupts)]
        slow = [f'{answer.moment} {answer.latency} {answer.origin}' for answer in answers if answer.is_first and answer.is_slow]
        lines = [line.split() for line in second.slow()]
        pairs += [(f'{name} slow', slow, [f'{line[0]} {line[5]} {line[9]}' for line in lines])]
        left, found = second.left(horizon), figures.unanswered(moments, horizon)
        pairs += [(f'{name} unanswered', found, int(left.split()[-1]) if left else None)]
        own = [figures.answered, figures.least, figures.greatest, figures.total, figures.slow]
        pairs += [(f'{name} figures', own, [len(latencies), min(latencies, default=0), max(latencies, default=0), sum(latencies), len(slow)])]
        self.seen.update({'slow': len(slow), 'unanswered': left is not None, 'badges': bool(latencies and figures.chain.badges)})
        for what, one, two in pairs:
            if one != two:
                yield f'{what}: {one}, and not {two}'

    def worst(self, tables: Tables, chain: Chain, second: chain_reading.ChainReading, horizon: int) -> Iterator[str]:
        """What tools/worst takes for the latency of a chain, if it is another one."""
        greatest = max((answer.latency for answer in second.answers), default=None)
        age = horizon - min(second.unanswered, default=horizon)
        expected = Seen(age, is_open=True) if age > (greatest or 0) else Seen(greatest)
        found = Latencies(str(self.program), chain, horizon).seen(tables)
        self.seen['the age is the latency'] += expected.is_open
        if found != expected:
            yield f'{chain.name} latency: {found}, and not {expected}'

    def tell(self, system: System, answers: list[Answer]) -> None:
        """Counts what was seen."""
        self.seen['answers'] += len(answers)
        self.seen['over two cores'] += sum(len({hop.thread.core for hop in answer.way}) > 1 for answer in answers)
        self.seen['many pieces'] += sum(len(answer.way) > 2 for answer in answers)
        self.seen['answered together'] += sum(not answer.is_first for answer in answers)
        sources = [chain.source for chain in system.chains.values()]
        self.seen['two chains of one source'] += bool(answers) and len(set(sources)) < len(sources)
        self.seen['in a server'] += sum(any(item[0] == 'call' for item in hop.thread.script) for answer in answers for hop in answer.way)


def stage(rng: random.Random, place: int, cores: list[int]) -> list[str]:
    """The script of a thread that waits for its notification and signals the next one, or one before, in handlers or in none."""
    nexts = [rng.choice([place + 1, place + 1, rng.randrange(len(cores))]) % len(cores) for _ in range(rng.choice([1, 1, 2]))]
    others = [f'signal n{note} {rng.choice([1, 1, 2, 3])}' for note in nexts]
    here = [number for number, core in enumerate(cores) if core == cores[place]]
    later = [f'wait n{rng.choice(here)}'] if rng.random() < 0.2 else []
    work = [f'compute {rng.randint(1, 4)}', *later, *others, 'compute 1']
    if rng.random() < 0.5:
        return [f'wait n{place}', *work]
    before = ['compute 1'] if rng.random() < 0.2 else []
    last = [f'on {rng.choice([2, 4])}', f'compute {rng.randint(1, 3)}', *others[:1]]
    return [f'wait n{place}', *before, f'on {rng.choice([1, 1, 3])}', *work, *last]


def pipeline(rng: random.Random) -> dict[str, Any]:
    """Threads that signal each other, over up to three cores."""
    cores = [rng.randrange(3) for _ in range(rng.randint(2, 5))]
    budgets = [rng.randint(6, 20) for _ in cores]
    contexts = [
        {'name': f'c{place}', 'core': core, 'budget': budget, 'period': rng.choice([20, 25, 30])} for place, (core, budget) in enumerate(zip(cores, budgets))
    ]
    threads = [{'name': f't{place}', 'context': f'c{place}', 'priority': rng.randint(1, 9), 'script': stage(rng, place, cores)} for place in range(len(cores))]
    notes = [{'name': f'n{place}', 'core': core} for place, core in enumerate(cores)]
    sources = [
        {'name': f's{number}', 'note': f'n{rng.choice([0, 0, 1])}', 'badge': rng.choice([1, 1, 2, 3]), 'period': rng.randint(9, 60), 'start': rng.randint(0, 20)}
        for number in range(rng.choice([1, 2]))
    ]
    return {'version': 3, 'cores': 3, 'delay': rng.choice([1, 2, 7]), 'context': contexts, 'note': notes, 'thread': threads, 'source': sources}


def with_chains(rng: random.Random) -> str:
    """The text of a random system of version 3, mostly with chains."""
    found = pipeline(rng) if rng.random() < 0.5 else Newer(rng, verdicts.tables_of(rng)).made()
    newer = Newer(rng, found)
    if found.get('source') and newer.waiting():
        found['chain'] = [newer.chain(f'e{number}', found['source']) for number in range(rng.randint(1, 4))]
    return text_of(found)


def main() -> None:
    words = common.asking_random(__doc__, 500).parse_args()
    # the whole way of each answer is looked at
    chain_ways.MOST_HOPS = chain_ways.MOST_WAYS = 10**9
    trial = Trial(common.built_program(words.program))
    for number in range(words.systems):
        rng = random.Random(f'ways {words.seed} {number}')
        trial.look(f'{words.seed}-{number}', with_chains(rng), rng.choice(HORIZONS))
    trial.count.expect_all(trial.seen, SEEN)
    trial.count.end()


if __name__ == '__main__':
    main()
