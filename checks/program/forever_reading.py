"""What mcscheck --forever has to write of a system, found a second time: from the file, the moments and periods that it claims, and the rows that mcsim
writes of it. Each claim is run on for three more periods.

It follows docs/CHECK.md, and reads rows as reading.py does, tick by tick. That a set repeats without end no rows can show: they only show where it does
not."""
from __future__ import annotations

import functools
import json
import re
from collections.abc import Iterator, Sequence
from typing import NamedTuple, Optional

from checks.program import forever_chains
from checks.program.forever_chains import ChainTold
from checks.program.reading import FOUND, Reading, Row, Tables, Values, items_of, scripts_of

# so many periods are looked at
PERIODS = 4
# the words of a row behind a date or the number of a round, which come again later
UNTIL, NUMBER = 5, 2


class CoreSet(NamedTuple):
    """A least set of cores that no core outside it signals, and those of its cores of which it is the least."""

    cores: tuple[int, ...]
    own: tuple[int, ...]

    @property
    def name(self) -> str:
        return ' '.join(map(str, self.cores))


def core_sets(tables: Tables) -> list[CoreSet]:
    """For each core the least set with it that no core outside signals, each once, in order of the first core of which it is the least."""
    home = {note['name']: note['core'] for note in tables.get('note', [])}
    place = {context['name']: context['core'] for context in tables.get('context', [])}
    servers = scripts_of(tables)
    items = [(place[thread['context']], words) for thread in tables.get('thread', []) for words in items_of(servers, thread['script'])]
    signals = {(core, home[words[1]]) for core, words in items if words[0] == 'signal'}

    def least(core: int) -> tuple[int, ...]:
        found = {core}
        while more := {maker for maker, other in signals if other in found} - found:
            found |= more
        return tuple(sorted(found))

    sets: dict[tuple[int, ...], list[int]] = {}
    for core in range(tables['cores']):
        sets.setdefault(least(core), []).append(core)
    return [CoreSet(cores, tuple(own)) for cores, own in sets.items()]


def only_computes(thread: Values) -> bool:
    """Whether a thread may as well spin: it has no deadline and no last round, and computes alone."""
    return not (thread.get('deadline', 0) or thread.get('rounds', 0)) and all(item.split()[0] == 'compute' for item in thread['script'])


def spun(thread: Values) -> Values:
    return {**thread, 'script': ['spin']} if only_computes(thread) else thread


class Claim(NamedTuple):
    """What is claimed of a set: from which moment on it repeats with which period, or neither, and whether nothing is ever found."""

    cores: str
    start: Optional[int] = None
    period: Optional[int] = None
    is_clean: bool = False

    @property
    def repeats(self) -> tuple[int, int]:
        """The start and the period of a set that repeats."""
        assert self.start is not None and self.period is not None
        return self.start, self.period

    @property
    def end(self) -> Optional[int]:
        """The end of the first period."""
        return None if self.start is None else sum(self.repeats)

    def far(self, horizon: int) -> int:
        """How far the set is run: some periods, or to the horizon up to which no repetition was found."""
        return horizon if self.start is None else self.start + PERIODS * self.repeats[1]


REPEATS = re.compile(r'cores ([\d ]+): repeats from (\d+) with period (\d+)')
OPEN = re.compile(r'cores ([\d ]+): no repetition found up to \d+')
CLEAN = 'nothing is ever found'


def claims_of(text: str) -> list[Claim]:
    """The claims of what the program writes, in their order."""
    claims: list[Claim] = []
    for line in text.splitlines():
        if found := REPEATS.fullmatch(line):
            claims.append(Claim(found[1], int(found[2]), int(found[3])))
        elif found := OPEN.fullmatch(line):
            claims.append(Claim(found[1]))
        elif line == CLEAN and claims:
            claims[-1] = claims[-1]._replace(is_clean=True)
    return claims


def core_of(line: str) -> int:
    return int(line.split(' ', 2)[1])


def moment_of(line: str) -> int:
    return int(line.split(' ', 1)[0])


class Told:
    """What is to be told of a set, by the rows of all cores, which are to go as far as its claim does.

    Threads that only compute spin in it, so the ends of their rounds are no rows of it."""

    def __init__(self, tables: Tables, lines: Sequence[str], group: CoreSet, claim: Claim, horizon: int) -> None:
        self.group, self.claim, self.horizon = group, claim, horizon
        places = {context['name']: context['core'] for context in tables.get('context', [])}
        threads = [thread for thread in tables.get('thread', []) if places[thread['context']] in group.cores]
        self.tables = {**tables, 'thread': [spun(thread) for thread in threads]}
        self.left_out = {thread['name'] for thread in threads if only_computes(thread)}
        self.own = [thread['name'] for thread in threads if places[thread['context']] in group.own]
        self.notes = [note['name'] for note in tables.get('note', []) if note['core'] in group.own]
        self.lines = [line for line in lines if core_of(line) in group.cores and not self.is_left_out(line)]
        self.whole = self.reading(claim.far(horizon))
        # the last moment of the first period, or the horizon
        self.end = horizon if claim.end is None else claim.end - 1

    def is_left_out(self, line: str) -> bool:
        """Whether a row is the end of a round of a thread that only computes."""
        words = line.split()
        return words[2] == 'round' and words[3] in self.left_out

    @functools.cache
    def reading(self, horizon: int) -> Reading:
        """The rows of the set's cores up to a horizon."""
        return Reading(self.tables, '\n'.join(line for line in self.lines if moment_of(line) <= horizon), horizon)

    # ---- what comes again

    def rows_in(self, number: int) -> list[Row]:
        """The rows of a period, from 0 on."""
        start, period = self.claim.repeats
        begin = start + number * period
        return [row for row in self.whole.rows if begin <= row.moment < begin + period]

    def as_first(self, number: int) -> list[tuple[int, int, list[str]]]:
        """The rows of a period with the moments of the first one, and without the numbers of rounds."""
        ago = number * self.claim.repeats[1]

        def words(row: Row) -> list[str]:
            if row.kind == 'round':
                return row.what[:NUMBER] + row.what[NUMBER + 1:]
            return [*row.what[:UNTIL], str(int(row.what[UNTIL]) - ago)] if len(row.what) > UNTIL and row.kind == 'stop' else row.what

        return [(row.moment - ago, row.core, words(row)) for row in self.rows_in(number)]

    def numbers(self, number: int) -> dict[str, list[int]]:
        """For each thread the numbers of the rounds that end in a period."""
        found: dict[str, list[int]] = {}
        for row in self.rows_in(number):
            if row.kind == 'round':
                found.setdefault(row.what[1], []).append(int(row.what[NUMBER]))
        return found

    def is_more(self, thread: str, before: Sequence[int], after: Sequence[int]) -> bool:
        """Whether the rounds of a period go on where those of the period before end, which only a thread without a last round can do."""
        by = len(before)
        return not self.whole.threads[thread].get('rounds', 0) and list(after) == [number + by for number in before]

    def broken(self, allowed: Sequence[str] = ()) -> Iterator[str]:
        """What of the claim the rows of three more periods contradict, where these notifications may lose signals."""
        if self.claim.start is None:
            if self.claim.is_clean:
                yield 'no repetition was found, and nothing is ever found'
            return
        start, period = self.claim.repeats
        # the turns of the horizon are taken too
        if not 0 < period or start + period > self.horizon + 1:
            yield f'a period of {period} from {start} on was looked for up to {self.horizon}'
        if any(start <= order['at'] for order in self.tables.get('order', [])):
            yield f'an order comes from {start} on'
        yield from (f'the last interrupt of {name} comes at {last}' for name, last in self.last_interrupts() if start <= last)
        for number in range(1, PERIODS):
            first, later = self.as_first(0), self.as_first(number)
            if first != later:
                differs = next((pair for pair in zip(first, later) if pair[0] != pair[1]), (len(first), len(later)))
                yield f'period {number} is another one than the first: {differs[1]}, and not {differs[0]}'
            before, after = self.numbers(number - 1), self.numbers(number)
            wrong = [thread for thread in before if not self.is_more(thread, before[thread], after.get(thread, []))]
            if wrong:
                yield f'rounds of {wrong} do not go on in period {number}: {before}, {after}'
            for kind in ('missed', 'lost'):
                if self.many(kind, number) != self.many(kind, 0):
                    yield f'{kind} in period {number}: {self.many(kind, number)}, and in the first one {self.many(kind, 0)}'
        for horizon in self.horizons():
            yield from self.not_settled(horizon)
        if self.claim.is_clean:
            yield from self.not_clean(allowed)
        elif not list(self.findings(allowed)) and not self.is_allowed(allowed):
            yield 'nothing is found and no signal is lost, and it does not say that nothing is ever found'

    def not_settled(self, horizon: int) -> Iterator[str]:
        """What the rows up to a horizon tell otherwise than the lines for ever."""
        reading, missed = self.reading(horizon), self.many('missed', 0)
        for name in self.own:
            found, line = reading.found_at_end(name), self.endless(name)
            late = reading.overdue(name)
            if line is None and late and name not in missed:
                yield f'{name} is overdue at {horizon}, never misses a deadline, and is not overdue for ever'
            if line and line['kind'] == 'never' and (found is None or found[0] != 'never'):
                yield f'{name} is not never activated at {horizon}'
            if line and line['kind'] == 'overdue' and horizon - line['activated'] >= reading.deadline(name):
                if late is None or (late.since, reading.ends(name) + 1) != (line['activated'], line['number']):
                    yield f'{name} is not overdue at {horizon} since {line["activated"]}'
            if line is None and found and found[0] == 'never':
                yield f'{name} is never activated at {horizon}'
        yield from self.not_settled_words(reading, missed)

    def not_settled_words(self, reading: Reading, missed: dict[str, int]) -> Iterator[str]:
        """The same of words."""
        for note in self.notes:
            found, line = reading.untaken(note), self.abandoned(note)
            since = reading.whole.word(note)[1]
            if line is None and found and not missed.keys() & set(reading.takers(note)):
                yield f'{note} is untaken at {reading.horizon}, nobody who takes it misses a deadline, and it is not untaken for ever'
            if line and (since != line['set'] or found is None and reading.horizon - line['set'] >= (reading.due(note) or 0)):
                yield f'{note} is not untaken at {reading.horizon} since {line["set"]}'

    def last_interrupts(self) -> Iterator[tuple[str, int]]:
        """Of the set's sources that end the moments of their last dates."""
        for source in self.tables.get('source', []):
            is_own = any(note['name'] == source['note'] and note['core'] in self.group.cores for note in self.tables['note'])
            if is_own and (count := source.get('count', 0)):
                turns, place = divmod(count - 1, len(at := source.get('at', [0])))
                yield source['name'], source.get('start', 0) + turns * source['period'] + at[place]

    # ---- what is found

    @functools.cached_property
    def found(self) -> list[tuple[int, str, str]]:
        """Rounds that missed their deadline and lost signals: the moment, the kind, and the thread or the notification."""
        kinds = ((row, self.whole.found(row)) for row in self.whole.rows)
        return [(row.moment, found[0], row.what[1]) for row, found in kinds if found and found[0] in FOUND]

    def many_in(self, kind: str, begin: int, end: int) -> dict[str, int]:
        """How many of a kind there are of each thread or notification in [begin, end)."""
        names = [name for moment, one, name in self.found if one == kind and begin <= moment < end]
        return {name: names.count(name) for name in names}

    def many(self, kind: str, number: int) -> dict[str, int]:
        """The same in a period."""
        start, period = self.claim.repeats
        return self.many_in(kind, start + number * period, start + (number + 1) * period)

    def horizons(self) -> list[int]:
        """At these is seen what goes on for ever."""
        start, period = self.claim.repeats
        return [start + period - 1, start + period, start + 2 * period + period // 3 + 1, start + PERIODS * period]

    def found_at(self, horizon: int, allowed: Sequence[str]) -> list[str]:
        """What is found of the threads and notifications that are told with the set. A thread that was never activated may be so later, up to the end of
        the first period."""
        names = {'lost': [note for note in self.notes if note not in allowed], 'untaken': self.notes}
        kinds = [kind for kind in FOUND if kind != 'never' or horizon >= self.end]
        return [line for kind, line in self.reading(horizon).all_found if kind in kinds and line.split()[3] in names.get(kind, self.own)]

    def not_clean(self, allowed: Sequence[str] = ()) -> Iterator[str]:
        for horizon in (self.claim.repeats[0] // 2, self.claim.repeats[0], *self.horizons()):
            if found := self.found_at(horizon, allowed):
                yield f'something is found at horizon {horizon}: {found[0]}'

    # ---- its lines

    def head(self) -> Values:
        if self.claim.start is None:
            return {'kind': 'open', 'cores': self.group.name, 'horizon': self.horizon}
        return {'kind': 'repeats', 'cores': self.group.name, 'from': self.claim.start, 'period': self.claim.period}

    def counted(self, word: str, what: str, kind: str, names: Sequence[str]) -> Iterator[Values]:
        """The lines of what is found in rows."""
        for name in names:
            if self.claim.start is None:
                values = {'so_far': self.many_in(kind, 0, self.horizon + 1).get(name, 0)}
            else:
                values = {'each_period': self.many(kind, 0).get(name, 0), 'before': self.many_in(kind, 0, self.claim.start).get(name, 0)}
            if any(values.values()):
                yield {'kind': word, what: name, **values}

    def at_end(self) -> Iterator[Values]:
        """What is found at the horizon up to which no repetition was found; else what is found for ever."""
        if self.claim.start is not None:
            yield from filter(None, [*map(self.endless, self.own), *map(self.abandoned, self.notes)])
            return
        last = self.reading(self.end)
        for thread in self.own:
            if found := last.found_at_end(thread):
                yield {'kind': found[0], 'thread': thread, 'moment': self.end}
        for note in self.notes:
            if last.untaken(note):
                yield {'kind': 'untaken', 'note': note, 'moment': self.end}

    @functools.cache
    def endless(self, thread: str) -> Optional[Values]:
        """The round of a thread with a deadline that is under way and never ends, or that none ever begins."""
        last = self.reading(self.end)
        young = last.open_round(thread)
        if last.deadline(thread) and young and not any(row.kind == 'round' and row.what[1] == thread for row in self.rows_in(0)):
            return {'kind': 'overdue', 'thread': thread, 'number': last.ends(thread) + 1, 'activated': young.since}
        if last.deadline(thread) and not last.was_activated(thread):
            return {'kind': 'never', 'thread': thread}
        return None

    @functools.cache
    def abandoned(self, note: str) -> Optional[Values]:
        """The word of a notification with a deadline that is set and that nobody ever takes."""
        last = self.reading(self.end)
        (word, since), by = last.whole.word(note), last.takers(note)
        is_due = last.due(note) is not None and since is not None and all(last.has_work(thread, word) for thread in by)
        if not is_due or any(row.kind == 'got' and row.what[2] == note for row in self.rows_in(0)):
            return None
        return {'kind': 'untaken', 'note': note, 'by': by, 'word': word, 'set': since}

    def of_thread(self, thread: str) -> Values:
        rounds = [row for row in self.whole.rows if row.kind == 'round' and row.what[1] == thread]
        responses = [row.moment - self.whole.ended_by(row).since for row in rounds]
        greatest = max(responses, default=None)
        is_spent = any(row.kind == 'stop' and row.what[2] == 'spent' for row in self.whole.whole.of_thread(thread))
        never = {} if is_spent or self.claim.start is None else {'throttled': 'never'}
        if self.whole.threads[thread]['script'] == ['spin']:
            return {'kind': 'computes', 'thread': thread, **never}
        if self.claim.start is None:
            return {'kind': 'thread_so_far', 'thread': thread, 'greatest': greatest}
        ends_again = any(self.claim.start <= row.moment for row in rounds)
        return {'kind': 'thread', 'thread': thread, 'greatest': greatest, **never, **({} if ends_again else {'ends_no_round_from': self.claim.start})}

    def findings(self, allowed: Sequence[str]) -> Iterator[Values]:
        yield from self.counted('miss', 'thread', 'missed', self.own)
        yield from self.counted('lost', 'note', 'lost', [note for note in self.notes if note not in allowed])
        yield from self.at_end()

    def values(self, allowed: Sequence[str]) -> list[Values]:
        clean = [{'kind': 'clean', 'cores': self.group.name}] if self.claim.is_clean else []
        return [self.head(), *self.findings(allowed), *map(self.of_thread, self.own), *clean]

    def is_allowed(self, allowed: Sequence[str]) -> bool:
        """Whether a signal is lost that is allowed to be."""
        return any(kind == 'lost' and name in allowed for _, kind, name in self.found)


def counts_of(tables: Tables, told: Sequence[Told], allowed: Sequence[str], chains: Sequence[ChainTold] = ()) -> Values:
    found = sum(len(list(each.findings(allowed))) for each in told) + sum(len(list(chain.findings())) for chain in chains)
    repeating = sum(each.claim.start is not None for each in told)
    threads = tables.get('thread', [])
    deadlines = sum(part.get('deadline', 0) > 0 for part in [*threads, *tables.get('chain', [])])
    return {'kind': 'sets', 'sets': len(told), 'repeating': repeating, 'findings': found, 'threads': len(threads), 'deadlines': deadlines}


def status_of(tables: Tables, told: Sequence[Told], allowed: Sequence[str], chains: Sequence[ChainTold] = ()) -> int:
    """5 if something is found; 6 if a set or a chain with a deadline was not found to repeat, or there is no deadline that could be missed; else 0."""
    counts = counts_of(tables, told, allowed, chains)
    if counts['findings']:
        return 5
    return 0 if counts['repeating'] == len(told) and counts['deadlines'] and not any(chain.is_open for chain in chains) else 6


def line_of(values: Values) -> str:
    """Values as a line of text."""
    match values:
        case {'kind': 'repeats', 'cores': cores, 'from': start, 'period': period}:
            return f'cores {cores}: repeats from {start} with period {period}'
        case {'kind': 'open', 'cores': cores, 'horizon': horizon}:
            return f'cores {cores}: no repetition found up to {horizon}'
        case {'kind': 'miss' | 'lost' | 'slow' | 'unanswered' as kind, 'so_far': many}:
            return f'{kind} {whose(values)}: {many} so far'
        case {'kind': 'miss' | 'lost' | 'slow' | 'unanswered' as kind, 'each_period': many, 'before': before}:
            return f'{kind} {whose(values)}: {many} in each period, {before} before'
        case {'kind': 'chain'}:
            return forever_chains.line_of(values)
        case {'kind': 'overdue', 'thread': thread, 'number': number, 'activated': activated}:
            return f'overdue {thread} round {number} activated {activated} for ever'
        case {'kind': 'untaken', 'note': note, 'by': by, 'word': word, 'set': since}:
            return f'untaken {note} by {",".join(by)} word {word} set {since} for ever'
        case {'kind': 'untaken', 'note': note, 'moment': moment}:
            return f'untaken {note} at {moment}'
        case {'kind': 'never', 'thread': thread} if 'moment' not in values:
            return f'never {thread} for ever'
        case {'kind': 'overdue', 'thread': thread, 'moment': moment}:
            return f'overdue {thread} at {moment}'
        case {'kind': 'never', 'thread': thread, 'moment': moment}:
            return f'never {thread} up to {moment}'
        case {'kind': 'computes', 'thread': thread}:
            return f'thread {thread}: computes without end{", throttled: never" if "throttled" in values else ""}'
        case {'kind': 'thread_so_far', 'thread': thread, 'greatest': greatest}:
            return f'thread {thread}: greatest response {dashed(greatest)} so far'
        case {'kind': 'thread', 'thread': thread, 'greatest': greatest}:
            never = ', throttled: never' if 'throttled' in values else ''
            ends = f', ends no round from {values["ends_no_round_from"]} on' if 'ends_no_round_from' in values else ''
            return f'thread {thread}: greatest response {dashed(greatest)}{never}{ends}'
        case {'kind': 'clean'}:
            return CLEAN
    return ' '.join(f'{key} {values[key]}' for key in ('sets', 'repeating', 'findings', 'threads', 'deadlines'))


def whose(values: Values) -> str:
    return next(str(values[key]) for key in ('thread', 'note', 'chain') if key in values)


def dashed(number: Optional[int]) -> str:
    return '-' if number is None else str(number)


def text_of(values: Sequence[Values]) -> str:
    return ''.join(f'{line_of(each)}\n' for each in values)


def json_of(values: Sequence[Values]) -> str:
    """The same as JSON, without what is not known."""
    known = ({name: value for name, value in each.items() if value is not None} for each in values)
    return ''.join(json.dumps(each, separators=(',', ':')) + '\n' for each in known)


def told_of(tables: Tables, text: str, claims: Sequence[Claim], horizon: int) -> list[Told]:
    """What is to be told of each set, where there is a claim of each."""
    lines = text.splitlines()
    return [Told(tables, lines, group, claim, horizon) for group, claim in zip(core_sets(tables), claims)]


def values_of(tables: Tables, told: Sequence[Told], allowed: Sequence[str], chains: Sequence[ChainTold] = ()) -> list[Values]:
    of_chains = (values for chain in chains for values in chain.values())
    return [*(values for each in told for values in each.values(allowed)), *of_chains, counts_of(tables, told, allowed, chains)]
