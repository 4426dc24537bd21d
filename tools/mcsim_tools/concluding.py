"""The one sentence that a person reads first of what mcscheck found: how many threads miss their deadline, which first, and what else was found."""
from __future__ import annotations

import collections
from collections.abc import Iterator
from dataclasses import dataclass, field
from typing import Optional

from . import scale, tabling
from .colours import DOUBTFUL, TITLE, WELL, WRONG
from .printable import printable
from .tabling import Object
from .verdict import COUNTED, FOUND, NOTHING, UNJUDGED

MISS, HINT, COUNTS, SETS, WHY, RAN, IDLE = 'miss', 'hint', 'counts', 'sets', 'why', 'ran', 'idle'
# the first and the last object of the way of an answer
ANSWER, SUM = 'answer', 'sum'
CHAIN = 'chain'
# kinds of lines that are no finding, and may be a mistake
IN_DOUBT = (HINT, 'unjudged')
# what a kind of finding says of whom it names, of one and of several
SAID = {
    'overdue': ('job overdue', 'jobs overdue'), 'untaken': ('word untaken', 'words untaken'), 'lost': ('signal lost', 'signals lost'), 'never': ('thread never activated', 'threads never activated'),
    'slow': ('answer late', 'answers late'), 'unanswered': ('interrupt unanswered', 'interrupts unanswered'), 'unjudged': ('thread unjudged', 'threads unjudged'),
    'hints': ('hint', 'hints'),
}
# how much was looked at, by the last line
THREADS, DEADLINES, JUDGED = 'threads', 'deadlines', 'judged'
# counts of a verdict that are nothing that is wrong, or may be
NO_FINDINGS = ('merged', 'allowed', THREADS, DEADLINES, JUDGED)
# the keys of whom a line names
NAMES = ('thread', 'note', 'chain', 'context', 'source', 'server')
# the keys that say how often something is found for all time
OFTEN = ('each_period', 'before', 'so_far')


def severity(kind: str) -> str:
    """The colour of a kind of line."""
    return WRONG if kind in COUNTED else DOUBTFUL if kind in IN_DOUBT else ''


def counted(many: int, key: str) -> str:
    """A count in words; that of an unknown key has the key."""
    one, several = SAID.get(key, (key, key))
    return f'{many} {one if many == 1 else several}'


@dataclass
class Facts:
    """What the lines of a verdict come to, whatever their number."""

    many: collections.Counter[str] = field(default_factory=collections.Counter)
    named: dict[str, dict[str, None]] = field(default_factory=dict)
    first: dict[str, Object] = field(default_factory=dict)
    last: dict[str, Object] = field(default_factory=dict)
    # chains with a deadline that were not found to repeat, for all time
    open_chains: int = 0
    ran: list[tuple[str, int]] = field(default_factory=list)

    def add(self, line: Object) -> None:
        kind = str(line.get(tabling.KIND))
        self.many[kind] += 1
        self.first.setdefault(kind, line)
        self.last[kind] = line
        if name := name_of(line):
            self.named.setdefault(kind, {})[name] = None
        self.open_chains += kind == CHAIN and 'horizon' in line and 'deadline' in line
        if kind == RAN and isinstance(line.get('ticks'), int):
            self.ran.append((name, line['ticks']))

    def findings(self) -> Iterator[Object]:
        """The first finding of each kind."""
        return (line for kind, line in self.first.items() if kind in COUNTED)

    def counts(self) -> Object:
        """The last line: the counts of a verdict, or of one for all time."""
        return self.last.get(COUNTS) or self.last.get(SETS) or {}

    def status(self) -> int:
        """The exit code that the last line has without --strict."""
        counts = self.counts()
        if any(counts.get(key) for key in (*COUNTED.values(), 'findings')):
            return FOUND
        is_open = self.open_chains or counts.get('repeating', 0) < counts.get('sets', 0)
        return UNJUDGED if is_open or 0 in (counts.get(JUDGED), counts.get(DEADLINES)) else NOTHING

    def others(self) -> str:
        """What is counted beside misses, in words."""
        counts = self.last.get(COUNTS, {}).items()
        return ', '.join(counted(many, key) for key, many in counts if isinstance(many, int) and many and key not in (COUNTED[MISS], *NO_FINDINGS))


def name_of(line: Object) -> str:
    """Whom a line names first."""
    return next((str(line[key]) for key in NAMES if key in line), '')


@dataclass(frozen=True)
class Sentence:
    """The sentence, with its colour."""

    text: str
    colour: str


def time_of(ticks: int, unit: scale.Unit) -> str:
    return ' '.join(filter(None, (tabling.text_of('moment', ticks, unit), unit.name)))


def length_of(ticks: int, unit: scale.Unit) -> str:
    return time_of(ticks, unit) + ('' if unit.name else ' tick' if ticks == 1 else ' ticks')


def place_of(line: Object, unit: scale.Unit) -> str:
    """Who, in which job, and when, or how often."""
    parts = [name_of(line), f'round {line["number"]}' if 'number' in line else '']
    if isinstance(line.get('moment'), int):
        parts.append(f'at {time_of(line["moment"], unit)}')
    parts += [f'{line[key]} {key.replace("_", " ")}' for key in OFTEN if key in line]
    return printable(', '.join(filter(None, parts)))


def first_of(facts: Facts, unit: scale.Unit) -> str:
    """The first finding, if its line is among those that were asked for."""
    first = next(facts.findings(), None)
    return f'; first: {first[tabling.KIND]}, {place_of(first, unit)}' if first else ''


def misses_of(facts: Facts, unit: scale.Unit) -> str:
    """How many threads miss their deadline, and which first."""
    many = len(facts.named[MISS])
    threads = facts.counts().get(THREADS, 0)
    one, of = many == 1, f' of {threads}' if threads >= many else ''
    whose = f'thread{"" if one and threads <= 1 else "s"} {"misses its" if one else "miss their"} deadline'
    return f'{many}{of} {whose}; first: {place_of(facts.first[MISS], unit)}'


def why_unjudged(counts: Object) -> str:
    """Why no deadline was judged."""
    if counts.get(THREADS) == 0:
        return 'the system has no thread'
    if counts.get(DEADLINES) == 0:
        return 'no thread and no chain has a deadline'
    return 'nothing with a deadline has ended or is overdue'


def clean(facts: Facts, horizon: Optional[int], status: int, unit: scale.Unit) -> Sentence:
    """What a verdict without a finding says."""
    until = f' up to {time_of(horizon, unit)}' if horizon is not None else ''
    others = ''.join(f'; {text}' for text in [facts.others()] if text)
    counts = facts.last[COUNTS]
    if status == UNJUDGED:
        return Sentence(f'No deadline is judged{until}: {why_unjudged(counts)}{others}', DOUBTFUL)
    return Sentence(f'{"The deadline is" if counts.get(DEADLINES) == 1 else "All deadlines are"} met{until}{others}', WELL)


def of_verdict(facts: Facts, horizon: Optional[int], status: int, unit: scale.Unit) -> Sentence:
    """What a run with findings, hints or neither comes to."""
    others = facts.others()
    missed = facts.last[COUNTS].get(COUNTED[MISS], 0)
    if MISS in facts.named:
        return Sentence(misses_of(facts, unit) + (f'; also {others}' if others else ''), WRONG)
    if missed:
        # the lines of findings were not asked for
        jobs = 'job misses its deadline' if missed == 1 else 'jobs miss their deadline'
        return Sentence(f'{missed} {jobs}' + (f'; also {others}' if others else ''), WRONG)
    if status == FOUND:
        return Sentence(f'No deadline is missed, but there is: {others}{first_of(facts, unit)}', WRONG)
    return clean(facts, horizon, status, unit)


def of_all_time(facts: Facts, status: int, unit: scale.Unit) -> Sentence:
    """What a verdict for all time comes to."""
    sets = facts.last[SETS]
    repeating = f'{sets.get("repeating")} of {sets.get("sets")} sets of cores repeat{"s" if sets.get("repeating") == 1 else ""}'
    if facts.open_chains:
        one = facts.open_chains == 1
        repeating += f', and {facts.open_chains} chain{"" if one else "s"} with a deadline do{"es" if one else ""} not'
    if status == NOTHING:
        return Sentence(f'For ever no deadline is missed, and no signal is lost unless that is allowed; {repeating}', WELL)
    if status == UNJUDGED and sets.get(DEADLINES) == 0:
        return Sentence(f'No deadline is judged: {why_unjudged(sets)}; {repeating}', DOUBTFUL)
    if status == UNJUDGED:
        return Sentence(f'Nothing is found so far, and nothing is known of later times: {repeating}', DOUBTFUL)
    head = misses_of(facts, unit) if MISS in facts.named else f'No deadline is missed{first_of(facts, unit)}'
    return Sentence(f'{head}; {repeating}', WRONG)


def of_job(facts: Facts, unit: scale.Unit) -> Sentence:
    """Why a job took so long."""
    job, idle = facts.last[WHY], facts.last.get(IDLE, {})
    name = name_of(job)
    own = sum(ticks for who, ticks in facts.ran if who == name)
    others = sum(ticks for who, ticks in facts.ran if who != name)
    begin, end = (time_of(int(job.get(key, 0)), unit) for key in ('from', 'to'))
    open_end = '' if 'ended' in job else ', when it has not ended'
    none = length_of(int(idle.get('ticks', 0)), unit)
    ran = f'it ran for {length_of(own, unit)}, other threads for {length_of(others, unit)}, and its core was idle for {none}'
    return Sentence(printable(f'{name}, round {job.get("number")}, from {begin} to {end}{open_end}: {ran}'), TITLE)


def of_answer(facts: Facts, unit: scale.Unit) -> Sentence:
    """Where an answer spent its time."""
    answer, sums = facts.last[ANSWER], facts.last[SUM]
    begin, end = (time_of(int(answer.get(key, 0)), unit) for key in ('origin', 'moment'))
    spent = [f'{key} {length_of(ticks, unit)}' for key, ticks in sums.items() if key != 'ticks' and isinstance(ticks, int) and ticks]
    latency = length_of(int(answer.get('latency', 0)), unit)
    said = f'{answer.get("chain")}, from the interrupt at {begin} to round {answer.get("number")} of {answer.get("thread")}, which ended at {end}'
    return Sentence(printable(f'{said}: {latency}; {", ".join(spent) or "no time passed"}'), TITLE)


def conclusion(facts: Facts, horizon: Optional[int], status: int, unit: scale.Unit) -> Optional[Sentence]:
    """The sentence of a verdict up to a horizon, if it is whole."""
    if WHY in facts.last:
        return of_job(facts, unit)
    if SUM in facts.last and ANSWER in facts.last:
        return of_answer(facts, unit)
    if SETS in facts.last:
        return of_all_time(facts, status, unit)
    return of_verdict(facts, horizon, status, unit) if COUNTS in facts.last else None
