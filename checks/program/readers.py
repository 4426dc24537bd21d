#!/usr/bin/env python3
"""Checks that tools read off the rows what mcscheck finds, on 500 random systems of versions 2 and 3.

One pass over rows (tools/mcsim_tools/reading.py) is behind pictures, traces, waves and sweeps. Its rounds that missed their deadline, those that are overdue,
words that nobody took, threads that were never activated, lost and merged signals, and how many ticks each thread stood in each way are those that
`mcscheck --show both` tells. Of chains the slow answers, those that are unanswered and the figures are the same too; a third of the systems are made for
them, and a fifth of the rest for shared notifications. A kind of finding that was seen nowhere is a failure: a test that sees nothing of it tells nothing."""
from __future__ import annotations

import collections
import pathlib
import random
import sys
import tempfile
import tomllib
from collections.abc import Iterator

sys.dont_write_bytecode = True
sys.path[0] = str(pathlib.Path(__file__).resolve().parents[2])
from checks import common
from checks.common import TOP, Count
from checks.program import verdicts, ways
from checks.random_pools import pool_of
from checks.random_systems import text_of

sys.path.insert(1, str(TOP / 'tools'))
from mcsim_tools import system as systems
from mcsim_tools.chains import Answer, Chains
from mcsim_tools.reading import LOST, MERGED, STANDINGS, Listener, Post, Reading, Round, Stood, Untaken
from mcsim_tools.system import System, Thread

# of a line of a finding how many words are compared: those behind them are sums of standings
COMPARED = {'miss': 12, 'overdue': 12, 'untaken': 14, 'never': 6, 'lost': 4, 'slow': 10, 'unanswered': 8}
# of the line of a chain's figures how many words are compared: the tools have no percentiles
FIGURES = 12
HORIZONS = (0, 10, 60, 60, 200, 400)
SEEN = (*COMPARED, 'figures of a chain', 'merged', 'throttled', 'blocked', 'server', 'version 2', 'version 3')


class Found(Listener):
    """What the tools find, as the lines of mcscheck."""

    hears_chains = True

    def __init__(self, system: System, horizon: int) -> None:
        self.system, self.horizon = system, horizon
        self.lines: collections.Counter[str] = collections.Counter()
        self.merged = 0
        self.ticks: dict[str, collections.Counter[str]] = {name: collections.Counter() for name in system.threads}
        self.rounds: collections.Counter[str] = collections.Counter()

    def stood(self, stood: Stood) -> None:
        self.ticks[stood.thread.name][STANDINGS[stood.standing]] += stood.end - stood.begin

    def round_ended(self, ended: Round) -> None:
        thread = ended.thread
        self.rounds[thread.name] += 1
        if ended.is_missed:
            how = f'deadline {thread.deadline} activated {ended.activated}'
            self.lines[f'{ended.end} {thread.core} miss {thread.name} round {ended.number} response {ended.response} {how}'] += 1

    def round_open(self, open_round: Round) -> None:
        thread = open_round.thread
        if open_round.is_overdue:
            number = self.rounds[thread.name] + 1
            how = f'round {number} age {open_round.response} deadline {thread.deadline} activated {open_round.activated}'
            self.lines[f'{self.horizon} {thread.core} overdue {thread.name} {how}'] += 1

    def untaken(self, untaken: Untaken) -> None:
        note, threads, word, since, deadline, end = untaken
        how = f'by {",".join(thread.name for thread in threads)} word {word} age {end - since} deadline {deadline} set {since}'
        self.lines[f'{end} {self.system.home_of[note]} untaken {note} {how}'] += 1

    def never(self, thread: Thread, horizon: int) -> None:
        self.lines[f'{horizon} {thread.core} never {thread.name} deadline {thread.deadline}'] += 1

    def posted(self, post: Post) -> None:
        if post.outcome == LOST:
            self.lines[f'{post.arrived} {self.system.home_of[post.note]} lost {post.note}'] += 1
        self.merged += post.outcome == MERGED

    def answered(self, answer: Answer) -> None:
        chain = answer.chain
        if answer.is_first and answer.is_slow:
            core = self.system.threads[chain.thread].core
            self.lines[f'{answer.moment} {core} slow {chain.name} latency {answer.latency} deadline {chain.deadline} origin {answer.origin}'] += 1

    def at_end(self, chains: Chains) -> None:
        """What the tools find of chains at the horizon, and their figures."""
        for name, figures in chains.figures.items():
            chain, moments = figures.chain, chains.sources.moments[figures.chain.source]
            if (origin := figures.unanswered(moments, self.horizon)) is not None:
                core = self.system.threads[chain.thread].core
                self.lines[f'{self.horizon} {core} unanswered {name} deadline {chain.deadline} origin {origin}'] += 1
            least, greatest = (figures.least, figures.greatest) if figures.answered else ('-', '-')
            self.lines[f'chain {name} interrupts {len(moments)} answers {figures.answered} least {least} greatest {greatest} total {figures.total}'] += 1


class Told:
    """What mcscheck tells of a system."""

    def __init__(self, text: str) -> None:
        self.lines: collections.Counter[str] = collections.Counter()
        self.merged = self.server = 0
        self.ticks: dict[str, dict[str, int]] = {}
        for words in map(str.split, text.splitlines()):
            # which threads are unjudged the tools do not say
            if words[0].isdigit() and words[2] != 'unjudged':
                self.lines[' '.join(words[:COMPARED[words[2]]])] += 1
            elif words[0] == 'chain':
                self.lines[' '.join(words[:FIGURES])] += 1
            elif words[0] == 'thread':
                values = dict(zip(words[::2], words[1::2]))
                ticks = {standing: int(values[f'ticks_{standing}']) for standing in STANDINGS}
                server = int(values['ticks_server'])
                self.server += server
                # the tools do not tell apart for what a thread waits
                self.ticks[values['thread']] = {**ticks, 'blocked': ticks['blocked'] + server}
            elif words[0] == 'missed':
                self.merged = int(words[words.index('merged') + 1])


def differing(found: Found, told: Told) -> Iterator[str]:
    """What the tools say otherwise."""
    if found.lines != told.lines:
        yield f'the tools find {[*(found.lines - told.lines)][:3]}, and mcscheck {[*(told.lines - found.lines)][:3]}'
    if found.merged != told.merged:
        yield f'{found.merged} merged signals, and not {told.merged}'
    for name, own in found.ticks.items():
        if {standing: own[standing] for standing in STANDINGS} != told.ticks[name]:
            yield f'{name} stood {dict(own)}, and not {told.ticks[name]}'


class Trial:
    """The two programs, and what the systems have shown."""

    def __init__(self, simulator: pathlib.Path, checker: pathlib.Path) -> None:
        self.simulator, self.checker = simulator, checker
        self.count = Count()
        self.seen: collections.Counter[str] = collections.Counter()

    def look(self, name: str, text: str, horizon: int) -> None:
        rows = common.run([self.simulator, '--horizon', str(horizon)], text.encode())
        if rows.status == 1:
            return
        ran = common.run([self.checker, '--horizon', str(horizon), '--show', 'both'], text.encode())
        tables = tomllib.loads(text)
        system = systems.system_of(tables)
        found, told = Found(system, horizon), Told(ran.stdout.decode())
        reader = Reading(system, found)
        reader.read(rows.stdout.decode().splitlines(), horizon)
        if reader.chains:
            found.at_end(reader.chains)
        wrong = list(differing(found, told))
        if wrong:
            file = pathlib.Path(tempfile.gettempdir(), f'readers-{name}.toml')
            file.write_text(text)
            name = str(file)
        self.count.expect(f'{name} --horizon {horizon}: {wrong}', not wrong)
        self.seen[f'version {tables["version"]}'] += 1
        self.seen['merged'] += told.merged
        self.seen.update('figures of a chain' if line.startswith('chain ') else line.split()[2] for line in told.lines.elements())
        self.seen['server'] += told.server
        self.seen.update(standing for ticks in told.ticks.values() for standing in ('throttled', 'blocked') if ticks[standing])


def main() -> None:
    words = common.asking_random(__doc__, 500).parse_args()
    simulator = common.built_program(words.program)
    trial = Trial(simulator, common.beside(simulator, 'mcscheck'))
    for number in range(words.systems):
        rng = random.Random(f'readers {words.seed} {number}')
        text = ways.with_chains(rng) if number % 3 == 0 else text_of(pool_of(rng) if number % 5 == 0 else verdicts.tables_of(rng))
        trial.look(f'{words.seed}-{number}', text, rng.choice(HORIZONS))
    trial.count.expect_all(trial.seen, SEEN)
    trial.count.end()


if __name__ == '__main__':
    main()
