#!/usr/bin/env python3
"""Checks that mcscheck reports chains as a second, plain reading of the rows finds them, byte for byte, on 200 random systems of version 3.

First come four systems whose lines are worked by hand. Then each random system with a chain is tried: findings, jobs, the table, and findings with it, as
text, CSV and JSON, with --strict and several workers or without, and the exit code; and of each chain the way of an answer (way_reading.py). It is tried
again with a deadline that an answer just meets or just misses, up to the end of this answer or about the time at which an interrupt had to be answered.
The percentiles of latencies follow the rule of those of responses. A chain with the hint that no signal leads to its thread has no answer.

What was seen nowhere is a failure: a test that sees nothing of it tells nothing."""
from __future__ import annotations

import collections
import itertools
import pathlib
import random
import sys
import tomllib
from collections.abc import Iterator
from typing import NamedTuple

sys.dont_write_bytecode = True
sys.path[0] = str(pathlib.Path(__file__).resolve().parents[2])
from checks import common
from checks.common import Ran
from checks.program import reading, verdicts, way_reading, ways
from checks.program.chain_reading import ChainReading
from checks.program.chained import Chained, figures
from checks.program.verdicts import System, answer, parted
from checks.program.way_reading import Ways
from checks.random_systems import text_of

HORIZONS = (0, 1, 60, 200, 400, 1000, 1000)
FORMS = tuple(itertools.product(('findings', 'jobs', 'table', 'both'), ('text', 'csv', 'json')))
SEEN = (
    'slow', 'unanswered', 'slow of two chains at one time', 'a row and an answer at one time', 'slow at the horizon', 'unanswered behind others',
    'found of chains alone', 'two slow answers of one job', 'a slow answer and another of one job', 'no answer', 'no deadline', 'margin above 0', 'margin 0',
    'margin below 0', 'a percentile below the greatest', 'a percentile at the end of its bucket', 'unjudged behind unanswered', 'judged by chains alone',
    'no such answer', 'a hint, and interrupts', 'no hint, and no answer', *way_reading.SEEN, 'no deadline of a thread', 'a job without an answer', 'two answers of one job', 'answers of two chains by one job', 'status 0', 'status 2', 'status 5', 'status 6',
)
# how the lines of threads and contexts begin
OF_OTHERS = ('thread ', 'thread,', 'context ', '{"kind":"thread"', '{"kind":"context"')
# D is woken at 3, and its signal leaves at 6; C gets it at 8 and ends its job at 12, which is 4 after it was woken. It is so each 10 ticks
TWO_CORES = '''version = 3
cores = 2
delay = 2
context = [
    { name = "d", core = 0, budget = 100, period = 100 }, { name = "z", core = 0, budget = 100, period = 100 },
    { name = "c", core = 1, budget = 100, period = 100 },
]
note = [{ name = "n", core = 0 }, { name = "q", core = 0 }, { name = "p", core = 1 }]
thread = [
    { name = "D", context = "d", priority = 5, script = ["wait n", "compute 2", "signal p 1"] },
    { name = "Z", context = "z", priority = 4, deadline = 5, script = ["wait q", "compute 1"] },
    { name = "C", context = "c", priority = 5, deadline = 3, script = ["wait p", "compute 4"] },
]
source = [{ name = "s", note = "n", badge = 1, period = 10, start = 3 }]
chain = [
    { name = "f", source = "s", thread = "C", deadline = 7 },
    { name = "e", source = "s", thread = "C", deadline = 8 },
    { name = "g", source = "s", thread = "C", deadline = 9 },
    { name = "near", source = "s", thread = "D" },
    { name = "z", source = "s", thread = "Z", deadline = 19 },
]
'''
# of one time what rows show comes first, and then chains in the order of the file; at 22 an interrupt from 3 is 19 ticks old. Deadlines are those of Z and C
# and of all chains but near. Two jobs of C are judged, two answers of each of f, e and g, and the interrupt of z
TWO_CORES_FOUND = '''12 1 miss C round 1 response 4 deadline 3 activated 8 queued 0 ready 0 running 4 throttled 0 blocked 0 server 0
12 1 slow f latency 9 deadline 7 origin 3
12 1 slow e latency 9 deadline 8 origin 3
22 1 miss C round 2 response 4 deadline 3 activated 18 queued 0 ready 0 running 4 throttled 0 blocked 0 server 0
22 1 slow f latency 9 deadline 7 origin 13
22 1 slow e latency 9 deadline 8 origin 13
22 0 never Z deadline 5
22 0 unanswered z deadline 19 origin 3
hint note q is waited on and no script signals it
hint chain z: no signal leads from s to Z
missed 2 overdue 0 untaken 0 lost 0 never 1 merged 0 allowed 0 unjudged 0 hints 2 threads 3 deadlines 6 judged 9 slow 4 unanswered 1
'''
# the jobs of D answer the chain near, 3 ticks after the interrupt, and those of C the first three
TWO_CORES_JOBS = '''moment,core,kind,thread,number,activated,begun,response,queued,preemptions,ready,running,throttled,blocked,server,chain,latency,deadline,origin
6,0,job,D,1,3,3,3,0,0,0,3,0,0,0,,,,
6,0,answer,D,1,,,,,,,,,,,near,3,,3
12,1,job,C,1,8,8,4,0,0,0,4,0,0,0,,,,
12,1,answer,C,1,,,,,,,,,,,f,9,7,3
12,1,answer,C,1,,,,,,,,,,,e,9,8,3
12,1,answer,C,1,,,,,,,,,,,g,9,9,3
16,0,job,D,2,13,13,3,0,0,0,3,0,0,0,,,,
16,0,answer,D,2,,,,,,,,,,,near,3,,13
22,1,job,C,2,18,18,4,0,0,0,4,0,0,0,,,,
22,1,answer,C,2,,,,,,,,,,,f,9,7,13
22,1,answer,C,2,,,,,,,,,,,e,9,8,13
22,1,answer,C,2,,,,,,,,,,,g,9,9,13
'''
# what a job of L is given at 23 came at 12 and at 22, and its next one is given what came at 32 and 42; three answers and an interrupt are judged
LOOP = '''version = 3
cores = 1
delay = 1
context = [{ name = "l", core = 0, budget = 100, period = 100 }]
note = [{ name = "n", core = 0 }]
thread = [{ name = "L", context = "l", priority = 5, script = ["wait n", "compute 20"] }]
source = [{ name = "s", note = "n", badge = 1, period = 10, start = 2 }]
chain = [{ name = "c", source = "s", thread = "L", deadline = 20 }]
'''
LOOP_TABLE = '''chain c interrupts 6 answers 3 least 20 greatest 31 total 72 p50 21 p90 31 p99 31 deadline 20 margin -11
missed 0 overdue 0 untaken 0 lost 2 never 0 merged 0 allowed 0 unjudged 0 hints 0 threads 1 deadlines 1 judged 4 slow 1 unanswered 1
'''
LOOP_JOBS = '''22 0 job L round 1 activated 2 begun 2 response 20 queued 0 preemptions 0 ready 0 running 20 throttled 0 blocked 0 server 0
22 0 answer c round 1 origin 2 latency 20 deadline 20
43 0 job L round 2 activated 12 begun 23 response 31 queued 10 preemptions 0 ready 0 running 21 throttled 0 blocked 0 server 0
43 0 answer c round 2 origin 12 latency 31 deadline 20
43 0 answer c round 2 origin 22 latency 21 deadline 20
missed 0 overdue 0 untaken 0 lost 2 never 0 merged 0 allowed 0 unjudged 0 hints 0 threads 1 deadlines 1 judged 4 slow 1 unanswered 1
'''
LOOP_FIGURES = '''kind,thread,core,priority,budget,period,granted,used,rounds,greatest,p50,p90,p99,deadline,margin,missed,late,lost,merged,\
ticks_pending,ticks_ready,ticks_running,ticks_throttled,ticks_blocked,ticks_server,ticks_done,\
chain,interrupts,answers,least,greatest,total,p50,p90,p99,deadline,margin
chain,,,,,,,,,,,,,,,,,,,,,,,,,,c,6,3,20,31,72,21,31,31,20,-11
'''
LOOP_ROWS = '''moment,core,kind,thread,note,word,number,response,age,deadline,activated,set,queued,ready,running,throttled,blocked,server,chain,latency,deadline,origin
22,0,lost,,n,1,,,,,,,,,,,,,,,,
42,0,lost,,n,1,,,,,,,,,,,,,,,,
43,0,slow,,,,,,,,,,,,,,,,c,31,20,12
52,0,unanswered,,,,,,,,,,,,,,,,c,,20,32
'''
LOOP_OBJECTS = '''{"moment":22,"core":0,"kind":"lost","note":"n","word":1}
{"moment":42,"core":0,"kind":"lost","note":"n","word":1}
{"moment":43,"core":0,"kind":"slow","chain":"c","latency":31,"deadline":20,"origin":12}
{"moment":52,"core":0,"kind":"unanswered","chain":"c","deadline":20,"origin":32}
{"kind":"counts","missed":0,"overdue":0,"untaken":0,"lost":2,"never":0,"merged":0,"allowed":0,"unjudged":0,"hints":0,"threads":1,"deadlines":1,"judged":4,"slow":1,"unanswered":1}
'''
# the first interrupt comes at 60; at 50 there is none, so nothing is judged, and at 80 one that is answered 20 later, at its deadline
LATER = LOOP.replace('period = 10, start = 2', 'period = 100, start = 60')
LATER_TABLE = '''chain c interrupts 0 answers 0 least - greatest - total 0 p50 - p90 - p99 - deadline 20 margin -
missed 0 overdue 0 untaken 0 lost 0 never 0 merged 0 allowed 0 unjudged 0 hints 0 threads 1 deadlines 1 judged 0 slow 0 unanswered 0
'''
LATER_OBJECTS = '''{"kind":"chain","chain":"c","interrupts":1,"answers":1,"least":20,"greatest":20,"total":20,"p50":20,"p90":20,"p99":20,"deadline":20,"margin":0}
{"kind":"counts","missed":0,"overdue":0,"untaken":0,"lost":0,"never":0,"merged":0,"allowed":0,"unjudged":0,"hints":0,"threads":1,"deadlines":1,"judged":1,"slow":0,"unanswered":0}
'''
LATER_JOBS = '''{"moment":80,"core":0,"kind":"job","thread":"L","number":1,"activated":60,"begun":60,"response":20,"queued":0,"preemptions":0,"ready":0,"running":20,\
"throttled":0,"blocked":0,"server":0}
{"moment":80,"core":0,"kind":"answer","thread":"L","number":1,"chain":"c","latency":20,"deadline":20,"origin":60}
{"kind":"counts","missed":0,"overdue":0,"untaken":0,"lost":0,"never":0,"merged":0,"allowed":0,"unjudged":0,"hints":0,"threads":1,"deadlines":1,"judged":1,"slow":0,"unanswered":0}
'''
# L takes 150 ticks from 100 on; at 1100 E computes 19 before it, and the wait of E takes a tick. Of 150 and 170 the half is 150, told as the end of 150 to 151. Nothing has a
# deadline, which is a hint
LONG = '''version = 3
cores = 1
delay = 1
context = [{ name = "l", core = 0, budget = 500, period = 1000 }, { name = "e", core = 0, budget = 100, period = 1000 }]
note = [{ name = "n", core = 0 }, { name = "m", core = 0 }]
thread = [
    { name = "L", context = "l", priority = 5, script = ["wait n", "compute 150"] },
    { name = "E", context = "e", priority = 6, script = ["wait m", "compute 19"] },
]
source = [
    { name = "s", note = "n", badge = 1, period = 1000, start = 100 },
    { name = "t", note = "m", badge = 1, period = 5000, start = 1100 },
]
chain = [{ name = "c", source = "s", thread = "L" }]
'''
LONG_TABLE = '''chain c interrupts 2 answers 2 least 150 greatest 170 total 320 p50 151 p90 170 p99 170 deadline - margin -
missed 0 overdue 0 untaken 0 lost 0 never 0 merged 0 allowed 0 unjudged 0 hints 1 threads 2 deadlines 0 judged 0 slow 0 unanswered 0
'''


class Known(NamedTuple):
    """A system, what is asked of it, the lines without those of threads and contexts, and the exit code."""

    text: str
    horizon: int
    words: list[str]
    wanted: str
    status: int


KNOWN = (
    Known(TWO_CORES, 22, ['--show=findings'], TWO_CORES_FOUND, 5),
    Known(TWO_CORES, 22, ['--show=jobs', '--format=csv'], TWO_CORES_JOBS, 5),
    Known(LOOP, 52, ['--show=table'], LOOP_TABLE, 5),
    Known(LOOP, 52, ['--show=table', '--format=csv'], LOOP_FIGURES, 5),
    Known(LOOP, 52, ['--show=jobs'], LOOP_JOBS, 5),
    Known(LOOP, 52, ['--show=findings', '--format=csv'], LOOP_ROWS, 5),
    Known(LOOP, 52, ['--show=findings', '--format=json'], LOOP_OBJECTS, 5),
    Known(LATER, 50, [], LATER_TABLE, 6),
    Known(LATER, 80, ['--show=table', '--format=json'], LATER_OBJECTS, 0),
    Known(LATER, 80, ['--show=jobs', '--format=json'], LATER_JOBS, 0),
    Known(LONG, 1300, ['--show=table'], LONG_TABLE, 6),
    Known(LONG, 1300, ['--show=table', '--strict'], LONG_TABLE, 5),
)


class Trial(verdicts.Trial):
    """The two programs, and what the chains of systems have shown."""

    def worked(self, known: Known) -> None:
        """A system that was worked by hand."""
        system = System('worked', known.text, known.horizon)
        if read := self.read(system):
            self.seen.update(shown(read.found))
        ran = self.check(system, known.words)
        lines = [line for line in ran.stdout.decode().splitlines(keepends=True) if not line.startswith(OF_OTHERS)]
        self.count.expect(f'--horizon {known.horizon} {known.words}: {ran}', (ran.status, ''.join(lines), ran.stderr) == (known.status, known.wanted, b''))

    def read(self, system: System) -> Ways | None:
        """The second reading of a system, if it has a chain and is not refused."""
        simulated = common.run([self.simulator, '--horizon', str(system.horizon), '--show', 'both'], system.text.encode())
        tables = tomllib.loads(system.text)
        if simulated.status or not tables.get('chain'):
            return None
        rows = parted(simulated.stdout.decode())[0]
        return Ways(tables, rows, Chained(tables, rows, system.horizon))

    def looks(self, system: System, rng: random.Random) -> Chained | None:
        """Tries a system in all ways that say something of its chains."""
        read = self.read(system)
        if read is None:
            return None
        found = read.found
        self.seen.update(shown(found))
        self.count.expect(f'{system.name}: a chain with a hint has an answer', not self.seen['a hint, and an answer'])
        for chain in found.chains:
            self.with_way(system, read, chain, rng)
        for show, form in FORMS:
            is_strict = rng.random() < 0.3
            words = [f'--show={show}', f'--format={form}', *['--strict'] * is_strict, *['--workers=2'] * (rng.random() < 0.2)]
            rng.shuffle(words)
            if (show, form) == ('both', 'csv'):
                self.wants(system, words, Ran(2, b'', reading.MIXED.encode()))
            else:
                self.wants(system, words, answer(found.wanted((), show, form), is_strict))
        return found

    def with_way(self, system: System, read: Ways, chain: ChainReading, rng: random.Random) -> None:
        """The way of an answer: one that is there, mostly, or not."""
        many, name = len(chain.answers), chain.chain['name']
        if name in read.found.threads:
            return
        form = rng.choice(['text', 'text', 'json'])
        words = [f'--format={form}', *['--workers=2'] * (rng.random() < 0.2), '--why', name]
        if not many or rng.random() < 0.1:
            number = rng.choice(['0', str(many + 1), 'last'])
            self.seen['no such answer'] += 1
            self.wants(system, [*words, number], Ran(2, b'', way_reading.refused(chain, number).encode()))
            return
        place = rng.randint(1, many)
        self.seen.update(read.shown(chain, place))
        self.wants(system, [*words, str(place)], Ran(0, read.written(chain, place, form).encode(), b''))


def edged(system: System, found: Chained, rng: random.Random) -> System:
    """The system with a chain whose deadline is one of its latencies, or one less, up to the end of this latency or about the time at which an interrupt
    is a deadline old."""
    tables = tomllib.loads(system.text)
    answered = [(part, chain) for part, chain in zip(tables['chain'], found.chains) if chain.answers]
    part, chain = rng.choice(answered or list(zip(tables['chain'], found.chains)))
    horizon = system.horizon
    if chain.answers:
        one = max(chain.answers, key=lambda each: each.latency) if rng.random() < 0.7 else rng.choice(chain.answers)
        part['deadline'], horizon = max(1, one.latency - rng.choice([0, 1])), rng.choice([horizon, one.moment])
    elif chain.interrupts:
        part['deadline'] = part.get('deadline') or rng.randint(1, 30)
    if chain.unanswered and rng.random() < 0.5:
        horizon = chain.unanswered[0] + part['deadline'] - rng.choice([0, 0, 1])
    return System(f'{system.name}-edged', text_of(tables), horizon)


def shown(found: Chained) -> Iterator[str]:
    """What the chains of a system show, and so each line of them."""
    lines = [line.split() for _, line in found.all_found if line]
    slow = [words for words in lines if words[2] == 'slow']
    yield from (words[2] for words in lines if words[2] in reading.OF_CHAINS)
    times = collections.Counter(words[0] for words in slow)
    yield from ('slow of two chains at one time' for many in times.values() if many > 1)
    yield from ('a row and an answer at one time' for words in lines if words[2] in ('miss', 'lost') and words[0] in times)
    yield from ('slow at the horizon' for words in slow if words[0] == str(found.horizon))
    if 'unanswered' in (words[2] for words in lines) and {'overdue', 'untaken', 'never'} & {words[2] for words in lines}:
        yield 'unanswered behind others'
    if lines and all(words[2] in reading.OF_CHAINS for words in lines):
        yield 'found of chains alone'
    if {'unanswered', 'unjudged'} <= {words[2] for words in lines}:
        yield 'unjudged behind unanswered'
    if not found.with_deadline() and found.deadlines():
        yield 'judged by chains alone' if found.judged() else 'no deadline of a thread'
    answering = [{(chain.chain['thread'], one.number) for one in chain.answers} for chain in found.chains]
    if len(set().union(*answering)) < sum(map(len, answering)):
        yield 'answers of two chains by one job'
    if any(row.kind == 'round' and not any((row.what[1], int(row.what[2])) in jobs for jobs in answering) for row in found.rows):
        yield 'a job without an answer'
    hints = set(found.uses.unreached())
    for chain in found.chains:
        latencies = sorted(one.latency for one in chain.answers)
        if any(line.startswith(f'hint chain {chain.chain["name"]}:') for line in hints):
            yield 'a hint, and an answer' if latencies else 'a hint, and interrupts' if chain.interrupts else 'a hint'
        elif not latencies:
            yield 'no hint, and no answer'
        yield from shown_by_figures(figures(chain), latencies)
        yield from shown_by_jobs(chain)


def shown_by_jobs(chain: ChainReading) -> Iterator[str]:
    """What jobs show that answer several interrupts."""
    jobs: dict[tuple[int, int], list[bool]] = collections.defaultdict(list)
    for one in chain.answers:
        jobs[one.moment, one.number].append(0 < chain.chain.get('deadline', 0) < one.latency)
    for are_slow in jobs.values():
        if len(are_slow) > 1:
            yield 'two answers of one job'
        if sum(are_slow) > 1:
            yield 'two slow answers of one job'
        if any(are_slow) and not all(are_slow):
            yield 'a slow answer and another of one job'


def shown_by_figures(values: reading.Values, latencies: list[int]) -> Iterator[str]:
    """What the figures of a chain show."""
    margin = values['margin']
    if margin is not None:
        yield f'margin {"above 0" if margin > 0 else "below 0" if margin else "0"}'
    if values['deadline'] is None:
        yield 'no deadline'
    if not latencies:
        yield 'no answer'
        return
    if values['p50'] < values['greatest']:
        yield 'a percentile below the greatest'
    if any(values[f'p{percent}'] not in latencies for percent in (50, 90, 99)):
        yield 'a percentile at the end of its bucket'


def main() -> None:
    words = common.asking_random(__doc__, 200).parse_args()
    simulator = common.built_program(words.program)
    trial = Trial(simulator, common.beside(simulator, 'mcscheck'))
    for known in KNOWN:
        trial.worked(known)
    for number in range(words.systems):
        rng = random.Random(f'latencies {words.seed} {number}')
        system = System(f'{words.seed}-{number}', ways.with_chains(rng), rng.choice(HORIZONS))
        if found := trial.looks(system, rng):
            trial.looks(edged(system, found, rng), rng)
    trial.count.expect_all(trial.seen, SEEN)
    trial.count.end()


if __name__ == '__main__':
    main()
