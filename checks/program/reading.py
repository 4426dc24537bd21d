"""What mcscheck has to write of a system, found a second time: from the file and the rows that mcsim writes of it.

It follows the definitions of crates/mcs_verdict and crates/mcs_hints, and docs/CHECK.md. Nothing is kept from one row to the next: what is asked
of a moment is looked up in the rows before it, tick by tick. So it takes small systems alone."""
from __future__ import annotations

import bisect
import collections
import copy
import csv
import functools
import io
import json
from collections.abc import Callable, Iterable, Iterator, Sequence
from fractions import Fraction
from typing import Any, NamedTuple, Optional

from checks.program import budgets, hint_reading
from checks.program.hint_reading import Uses

Tables = dict[str, Any]
# the values of a line by their names, of which some may be missing
Values = dict[str, Any]
# the scripts of servers by their names
Scripts = dict[str, list[str]]

TELLING = ('release', 'run', 'stop', 'wake')
OF_THREADS = (*TELLING, 'got', 'round', 'enter', 'leave')
PARTS = ('ready', 'running', 'throttled', 'blocked', 'server')
STANDINGS = ('pending', *PARTS, 'done')
# how a thread stands that stopped for a reason which the release queue does not know
STOPPED = {'wait': 'blocked', 'call': 'server', 'done': 'done'}
# how it stands that has budget and waits for nothing
ACTIVE = ('ready', 'running')
KINDS = ('missed', 'overdue', 'untaken', 'lost', 'never', 'merged', 'allowed', 'unjudged', 'hints', 'threads', 'deadlines', 'judged')
# what is counted of chains, in a file that has one
OF_CHAINS = ('slow', 'unanswered')
FOUND = (*KINDS[:5], *OF_CHAINS)
# what is no finding, unless doubts count
DOUBTFUL = ('unjudged', 'hints')
# whose name a line has before its other values, if it is no thread's
NAMED = {'lost': 'note', 'untaken': 'note', **dict.fromkeys(OF_CHAINS, 'chain')}
# the labels in lines of text of values that have another name as CSV and JSON
LABELS = {'round': 'number'}
COLUMNS = {
    'findings': (
        'moment', 'core', 'kind', 'thread', 'note', 'word', 'number', 'response', 'age', 'deadline', 'activated', 'set', 'queued', *PARTS,
    ),
    'jobs': ('moment', 'core', 'kind', 'thread', 'number', 'activated', 'begun', 'response', 'queued', 'preemptions', *PARTS),
    'table': (
        'kind', 'thread', 'core', 'priority', 'budget', 'period', 'granted', 'used', 'rounds', 'greatest', 'p50', 'p90', 'p99', 'deadline', 'margin',
        'missed', 'late', 'lost', 'merged', *(f'ticks_{standing}' for standing in STANDINGS),
    ),
}
HINTS = {'note': 'unsignalled', 'context': 'unbound', 'core': 'overcommitted'}
KINDS_OF_HINTS = ('no_thread', 'no_deadline', *HINTS.values(), 'unused', *hint_reading.KINDS)
# hints of the whole system, and of a core on which nothing runs
NO_THREAD, NO_DEADLINE, UNUSED = 'hint no thread', 'hint no thread has a deadline', 'hint core %s has no thread'


class Row(NamedTuple):
    """A row of a schedule: its place among all of them, its moment, its core, its further words, whether a thread that waited for a server enters it, and
    the date with which its thread enters the release queue, if it does."""

    place: int
    moment: int
    core: int
    what: list[str]
    is_let_in: bool = False
    until: Optional[int] = None

    @property
    def kind(self) -> str:
        return self.what[0]

    @property
    def tells(self) -> bool:
        """Whether it tells how its thread stands from then on: that one that runs enters a server does not."""
        return self.kind in TELLING or self.is_let_in

    @property
    def thread(self) -> Optional[str]:
        return self.what[1] if self.kind in OF_THREADS else None

    @property
    def note(self) -> Optional[str]:
        """The notification whose word the row tells or empties."""
        return {'hold': self.what[1], 'got': self.what[2]}[self.kind] if self.kind in ('hold', 'got') else None


def rows_of(text: str) -> list[Row]:
    rows: list[Row] = []
    # for each thread its last stop for a server that was taken, until it enters
    calling: set[str] = set()
    for place, (moment, core, *what) in enumerate(line.split() for line in text.splitlines()):
        is_let_in = what[0] == 'enter' and what[1] in calling
        if what[0] == 'stop' and what[2] == 'call':
            calling.add(what[1])
        elif is_let_in:
            calling.remove(what[1])
        rows.append(Row(place, int(moment), int(core), what, is_let_in))
    return rows


def date_told(row: Row) -> Optional[int]:
    """The date of a row `stop`, behind `until`."""
    return int(row.what[5]) if len(row.what) == 6 else None


def dates_of(tables: Tables, rows: Sequence[Row]) -> list[Optional[int]]:
    """The date with which the thread of each row enters the release queue, if it does, by the budgets."""
    return budgets.dates_of(tables, ((row.moment, row.what, row.is_let_in) for row in rows)) if rows else []


def standing_after(row: Row) -> str:
    """How a thread stands from a row of it on, up to the next one that tells how it stands."""
    if row.kind in ('run', 'release'):
        return 'running' if row.kind == 'run' else 'ready'
    if row.kind == 'stop' and row.what[2] in STOPPED:
        return STOPPED[row.what[2]]
    # it was woken or let in, or stopped for none of these reasons
    return 'ready' if row.until is None else 'throttled'


def scripts_of(tables: Tables) -> Scripts:
    return {server['name']: server['script'] for server in tables.get('server', [])}


def items_of(servers: Scripts, script: Sequence[str], badge: Optional[int] = None) -> Iterator[list[str]]:
    """The items of a thread's script, or of a server's that is called with a badge, with those of the servers that it calls."""
    is_passed_over = False
    for word, *rest in map(str.split, script):
        if word == 'on':
            is_passed_over = badge is not None and not int(rest[0]) & badge
        elif word == 'call' and not is_passed_over:
            yield from items_of(servers, servers[rest[0]], int(rest[1]))
        elif not is_passed_over:
            yield [word, *rest]


def has_work(script: Sequence[str], word: int) -> bool:
    """Whether a word of the script's first wait leaves an item behind it, in no handler or in one for a bit of the word."""
    is_passed_over = word == 0
    for item in script[1:]:
        if item.split()[0] == 'on':
            is_passed_over = not int(item.split()[1]) & word
        elif not is_passed_over:
            return True
    return False


class Past:
    """The rows before a place of a schedule."""

    def __init__(self, schedule: Schedule, place: int) -> None:
        self.schedule, self.place = schedule, place

    def before(self, rows: Sequence[Row]) -> Sequence[Row]:
        return rows[:bisect.bisect_left(rows, self.place, key=lambda row: row.place)]

    def of_thread(self, thread: str) -> Sequence[Row]:
        return self.before(self.schedule.of_thread[thread])

    def of_note(self, note: str) -> Sequence[Row]:
        return self.before(self.schedule.of_note[note])

    def standings(self, thread: str, begin: int, end: int) -> list[str]:
        """How the thread stands in each tick of [begin, end)."""
        telling = [row for row in self.of_thread(thread) if row.tells]
        moments = [row.moment for row in telling]
        found: list[str] = []
        while begin + len(found) < end:
            # the rows up to this tick; nothing changes before the next one
            tick = begin + len(found)
            place = bisect.bisect_right(moments, tick)
            standing = standing_after(telling[place - 1]) if place else 'pending'
            found += [standing] * (min([end, *moments[place:place + 1]]) - tick)
        return found

    def is_done(self, thread: str) -> bool:
        return any(row.kind == 'stop' and row.what[2] == 'done' for row in self.of_thread(thread))

    def word(self, note: str) -> tuple[int, Optional[int]]:
        """The notification's word, and since when it has a bit for which somebody who waits for it first has something to do."""
        told = self.of_note(note)
        taken = next((place for place in reversed(range(len(told))) if told[place].kind == 'got'), -1)
        words = [(row.moment, int(row.what[2])) for row in told[taken + 1:]]
        if taken < 0 and self.schedule.firsts[note]:
            words = [(0, self.schedule.firsts[note]), *words]
        since = next((moment for moment, word in words if self.schedule.is_heard(note, word)), None)
        return words[-1][1] if words else 0, since


class Schedule:
    """The rows of a schedule, and those of each thread and of each notification; the words that notifications hold at first, and whether a word of one
    leaves something to do to a thread that waits for it first."""

    def __init__(self, tables: Tables, text: str, is_heard: Callable[[str, int], bool]) -> None:
        told = rows_of(text)
        # the dates of all rows by the budgets; those of stops stand in the text
        self.dates = dates_of(tables, told)
        self.rows = [row._replace(until=date_told(row) if row.kind == 'stop' else date) for row, date in zip(told, self.dates)]
        self.is_heard = is_heard
        self.firsts: dict[str, int] = {note['name']: note.get('word', 0) for note in tables.get('note', [])}
        self.of_thread: dict[str, list[Row]] = collections.defaultdict(list)
        self.of_note: dict[str, list[Row]] = collections.defaultdict(list)
        # the rows that give a word of a notification to a thread
        self.given: dict[str, list[Row]] = collections.defaultdict(list)
        for row in self.rows:
            if row.kind in ('got', 'wake'):
                self.given[row.what[2]].append(row)
            for name, rows in ((row.thread, self.of_thread), (row.note, self.of_note)):
                if name is not None:
                    rows[name].append(row)


class Round(NamedTuple):
    """A round: since when the thread is free for it, since the round before ended or the thread started; when it began and was activated; how the thread
    stood in each tick from the later of activation and freedom up to a moment; and the rows from its beginning on."""

    free: int
    begun: int
    activated: Optional[int]
    standings: list[str]
    rows: Sequence[Row]

    @property
    def since(self) -> int:
        """When it was activated, which of a round that has ended or is open is known."""
        assert self.activated is not None
        return self.activated

    @property
    def queued(self) -> int:
        """How long it waited for the rounds before it."""
        return 0 if self.activated is None else max(self.free - self.activated, 0)

    @property
    def preemptions(self) -> int:
        return sum(row.kind == 'stop' and row.what[2] == 'preempt' for row in self.rows)

    @property
    def parts(self) -> str:
        """How many ticks the thread stood in each way, as words."""
        parts = collections.Counter(self.standings)
        return ' '.join(f'{part} {parts[part]}' for part in PARTS)


class Wanted(NamedTuple):
    """What a run of mcscheck has to come to."""

    text: str
    counts: dict[str, int]

    def status(self, is_strict: bool = False) -> int:
        """5 if something is found, doubts too if they count; else 6 if no deadline was judged, and 0 if one was."""
        if any(self.counts.get(kind) for kind in (*FOUND, *(DOUBTFUL if is_strict else ()))):
            return 5
        return 0 if self.counts['judged'] else 6


class Reading:
    """A system and the rows of its schedule up to a horizon."""

    # what is counted
    kinds: Sequence[str] = KINDS

    def __init__(self, tables: Tables, text: str, horizon: int) -> None:
        self.contexts = {context['name']: context for context in tables.get('context', [])}
        self.homes = {note['name']: note['core'] for note in tables.get('note', [])}
        self.threads = {thread['name']: thread for thread in tables.get('thread', [])}
        self.servers = scripts_of(tables)
        self.notes = [note['name'] for note in tables.get('note', [])]
        self.chain_names = [chain['name'] for chain in tables.get('chain', [])]
        self.signalled = {source['note'] for source in tables.get('source', [])}
        self.uses = Uses(tables)
        self.cores = tables['cores']
        self.ordered = {order['context'] for order in tables.get('order', [])}
        self.schedule, self.horizon = Schedule(tables, text, self.is_heard), horizon
        self.rows, self.whole = self.schedule.rows, Past(self.schedule, len(self.schedule.rows))

    def past(self, row: Row) -> Past:
        return Past(self.schedule, row.place)

    def up_to(self, horizon: int) -> Reading:
        """The same up to an earlier horizon."""
        earlier = copy.copy(self)
        earlier.horizon = horizon
        earlier.rows = self.rows[:bisect.bisect_right(self.rows, horizon, key=lambda row: row.moment)]
        earlier.whole = Past(self.schedule, len(earlier.rows))
        earlier.__dict__.pop('all_found', None)
        return earlier

    def deadline(self, thread: str) -> int:
        return int(self.threads[thread].get('deadline', 0))

    def first_wait(self, thread: str) -> Optional[str]:
        """The notification on which the thread's script waits first, where it begins with a wait."""
        word, *rest = self.threads[thread]['script'][0].split()
        return rest[0] if word == 'wait' else None

    def has_work(self, thread: str, word: int) -> bool:
        return has_work(self.threads[thread]['script'], word)

    def is_heard(self, note: str, word: int) -> bool:
        return any(self.first_wait(thread) == note and self.has_work(thread, word) for thread in self.threads)

    def begins(self, row: Row) -> bool:
        """Whether a row gives its thread a word that begins a round, where none is under way."""
        return row.kind in ('got', 'wake') and self.has_work(row.what[1], int(row.what[3]))

    def round_at(self, past: Past, thread: str, moment: int) -> Optional[Round]:
        """The round that is under way at a moment, by the rows so far."""
        if past.is_done(thread):
            return None
        own = past.of_thread(thread)
        last = max((place for place, row in enumerate(own) if row.kind == 'round'), default=-1)
        free = own[last].moment if last >= 0 else self.threads[thread].get('start', 0)
        if self.first_wait(thread):
            return self.round_of_word(past, thread, free, own[last + 1:], moment)
        active = (free + place for place, standing in enumerate(past.standings(thread, free, moment)) if standing in ACTIVE)
        activated = next(active, None)
        return Round(free, free, activated, [] if activated is None else past.standings(thread, activated, moment), own[last + 1:])

    def round_of_word(self, past: Past, thread: str, free: int, own: Sequence[Row], moment: int) -> Optional[Round]:
        """The same where the script begins with a wait, by the thread's rows after its last round."""
        place = next((place for place, row in enumerate(own) if self.begins(row)), None)
        if place is None:
            return None
        first = own[place]
        activated = first.moment if first.kind == 'wake' else self.past(first).word(first.what[2])[1]
        assert activated is not None
        return Round(free, first.moment, activated, past.standings(thread, max(activated, free), moment), own[place:])

    @functools.cached_property
    def ended(self) -> dict[int, Optional[Round]]:
        """For the place of each row that ends a round this round."""
        ends = ((row, row.what[1]) for row in self.rows if row.kind == 'round')
        return {row.place: self.round_at(self.past(row), thread, row.moment) for row, thread in ends}

    def ended_by(self, row: Row) -> Round:
        """The round that a row ends."""
        ended = self.ended[row.place]
        assert ended is not None
        return ended

    def late(self, thread: str, round_: Round) -> str:
        """The words of a round that is late, from its deadline on."""
        return f'deadline {self.deadline(thread)} activated {round_.activated} queued {round_.queued} {round_.parts}'

    def found(self, row: Row) -> Optional[tuple[str, str]]:
        """What a row tells: its kind and its line; of a merged signal there is no line."""
        if row.kind == 'hold':
            before, word = self.past(row).word(row.what[1])[0], int(row.what[2])
            if before == word:
                return 'lost', f'{row.moment} {row.core} lost {row.what[1]} word {word}'
            return ('merged', '') if before else None
        if row.kind == 'round':
            _, thread, number, _ = row.what
            ended = self.ended_by(row)
            response = row.moment - ended.since
            if 0 < self.deadline(thread) < response:
                return 'missed', f'{row.moment} {row.core} miss {thread} round {number} response {response} {self.late(thread, ended)}'
        return None

    def open_round(self, thread: str) -> Optional[Round]:
        """The round that is under way at the horizon, if there is one that is activated."""
        pending = self.round_at(self.whole, thread, self.horizon)
        return None if pending is None or pending.activated is None else pending

    def overdue(self, thread: str) -> Optional[Round]:
        """The round that can only miss its deadline, if there is one."""
        pending = self.open_round(thread)
        return pending if pending and 0 < self.deadline(thread) <= self.horizon - pending.since else None

    def is_held(self, thread: str, note: str) -> bool:
        """Whether the notification's word leaves the thread something to do."""
        return self.has_work(thread, self.whole.word(note)[0])

    def was_activated(self, thread: str) -> bool:
        """Whether anybody ever had a word for which the thread waits first; or else whether it was ever ready or ran, at the horizon too."""
        waits = self.first_wait(thread)
        if waits:
            return any(self.has_work(thread, int(row.what[3])) for row in self.whole.before(self.schedule.given[waits]))
        return not {*ACTIVE}.isdisjoint(self.whole.standings(thread, 0, self.horizon + 1))

    def head(self, thread: str) -> str:
        """The horizon and the thread's core, with which a line about it begins."""
        return f'{self.horizon} {self.contexts[self.threads[thread]["context"]]["core"]}'

    def found_at_end(self, thread: str) -> Optional[tuple[str, str]]:
        """The kind and the line of what is found of a thread at the horizon."""
        head = self.head(thread)
        if late := self.overdue(thread):
            times = f'round {self.ends(thread) + 1} age {self.horizon - late.since}'
            return 'overdue', f'{head} overdue {thread} {times} {self.late(thread, late)}'
        if self.deadline(thread) and not self.was_activated(thread):
            return 'never', f'{head} never {thread} deadline {self.deadline(thread)}'
        return None

    # ---- words that nobody takes

    def takers(self, note: str) -> list[str]:
        """The threads that may take a word of the notification: they wait for it somewhere, or a server does that they call."""
        return [name for name, thread in self.threads.items() if ['wait', note] in items_of(self.servers, thread['script'])]

    def waits_alone(self, thread: str, note: str) -> bool:
        """Whether the thread waits for the notification by its first item and by no other."""
        items = list(items_of(self.servers, self.threads[thread]['script']))
        return self.first_wait(thread) == note and items.count(['wait', note]) == 1

    def due(self, note: str) -> Optional[int]:
        """The deadline of the notification: the greatest of those that may take its word, if each begins with it a round that has one."""
        takers = self.takers(note)
        if not all(self.deadline(thread) and self.waits_alone(thread, note) for thread in takers):
            return None
        return max(map(self.deadline, takers), default=None)

    def untaken(self, note: str) -> Optional[tuple[str, str]]:
        """The kind and the line of the word that is too old for all who may take it, if it leaves each of them something to do."""
        (word, since), due, takers = self.whole.word(note), self.due(note), self.takers(note)
        if due is None or since is None or self.horizon - since < due or not all(self.has_work(thread, word) for thread in takers):
            return None
        words = f'by {",".join(takers)} word {word} age {self.horizon - since} deadline {due} set {since}'
        return 'untaken', f'{self.horizon} {self.homes[note]} untaken {note} {words}'

    def at_end(self) -> Iterator[tuple[str, str]]:
        """The kind and the line of all that is found at the horizon: of threads, and then of notifications."""
        yield from filter(None, [*map(self.found_at_end, self.threads), *map(self.untaken, self.notes)])

    # ---- what was judged

    def ends(self, thread: str) -> int:
        """How many rounds of the thread ended."""
        return sum(row.kind == 'round' for row in self.whole.of_thread(thread))

    def is_unjudged(self, thread: str) -> bool:
        """Whether it is open of a thread with a deadline that was activated whether any deadline will be met: none of its rounds ended, and nothing is found."""
        return bool(self.deadline(thread)) and not self.ends(thread) and not self.found_at_end(thread)

    def unjudged_lines(self) -> Iterator[tuple[str, str]]:
        """The kind and the line of each thread that is unjudged. One without a round under way is a worker to which others leave no word."""
        for thread in filter(self.is_unjudged, self.threads):
            young = self.round_at(self.whole, thread, self.horizon)
            # at the horizon it may be ready for the first time
            activated = '-' if young is None else self.horizon if young.activated is None else young.activated
            yield 'unjudged', f'{self.head(thread)} unjudged {thread} deadline {self.deadline(thread)} activated {activated}'

    def with_deadline(self) -> list[str]:
        return [thread for thread in self.threads if self.deadline(thread)]

    def deadlines(self) -> int:
        """How many deadlines there are."""
        return len(self.with_deadline())

    def judged(self) -> int:
        """How often it is known whether a deadline was met: for each round that ended, for one that is overdue, and for a word that is untaken."""
        return sum(map(self.ends, self.with_deadline())) + sum(kind in ('overdue', 'untaken') for kind, _ in self.at_end())

    @functools.cached_property
    def all_found(self) -> list[tuple[str, str]]:
        """The kind and the line of all that is found, and then of what is unjudged."""
        return [*filter(None, map(self.found, self.rows)), *self.at_end(), *self.unjudged_lines()]

    def jobs(self) -> Iterator[str]:
        """The line of each round that ended."""
        for row in self.rows:
            if row.kind == 'round':
                _, thread, number, _ = row.what
                job = self.ended_by(row)
                times = f'activated {job.activated} begun {job.begun} response {row.moment - job.since} queued {job.queued}'
                yield f'{row.moment} {row.core} job {thread} round {number} {times} preemptions {job.preemptions} {job.parts}'

    def signals(self, note: Optional[str]) -> dict[str, Optional[int]]:
        """How many signals of the notification, if there is one, were lost, and how many merged."""
        if note is None:
            return {'lost': None, 'merged': None}
        kinds = collections.Counter(found[0] for row in self.rows if row.kind == 'hold' and row.what[1] == note and (found := self.found(row)))
        return {'lost': kinds['lost'], 'merged': kinds['merged']}

    def figures(self, thread: str) -> Values:
        """What the table tells of a thread."""
        part = self.threads[thread]
        context, deadline, waits = self.contexts[part['context']], self.deadline(thread), self.first_wait(thread)
        ends = [row for row in self.rows if row.kind == 'round' and row.what[1] == thread]
        responses = sorted(row.moment - self.ended_by(row).since for row in ends)
        greatest = responses[-1] if responses else None
        stood = collections.Counter(self.whole.standings(thread, 0, self.horizon))
        return {
            'kind': 'thread', 'thread': thread, 'core': context['core'], 'priority': part['priority'],
            'budget': context['budget'], 'period': context['period'], 'granted': context['budget'] * 1_000_000 // context['period'],
            'used': stood['running'] * 1_000_000 // self.horizon if self.horizon else 0, 'rounds': len(responses), 'greatest': greatest,
            **{f'p{percent}': percentile(responses, percent) for percent in (50, 90, 99)}, 'deadline': deadline or None,
            'margin': deadline - greatest if deadline and greatest is not None else None,
            'missed': sum(0 < deadline < response for response in responses), 'late': sum(0 < deadline < int(row.what[3]) for row in ends),
            **self.signals(waits),
            **{f'ticks_{standing}': stood[standing] for standing in STANDINGS},
        }

    def unused(self, name: str) -> Values:
        """What the table tells of a context: what it could let run up to the horizon, less what its threads ran."""
        budget, period = (self.contexts[name][key] for key in ('budget', 'period'))
        bound = [thread for thread, part in self.threads.items() if part['context'] == name]
        ran = sum(self.whole.standings(thread, 0, self.horizon).count('running') for thread in bound)
        most = budget * (self.horizon // period) + min(budget, self.horizon % period)
        return {'kind': 'context', 'context': name, 'unused': None if name in self.ordered else max(most - ran, 0)}

    def table(self) -> list[Values]:
        return [*map(self.figures, self.threads), *map(self.unused, self.contexts)]

    def hints(self) -> Iterator[str]:
        if not self.threads:
            yield NO_THREAD
        elif not self.deadlines():
            yield NO_DEADLINE
        items = [item for thread in self.threads.values() for item in items_of(self.servers, thread['script'])]
        used = {thread['context'] for thread in self.threads.values()}
        signalled = self.signalled | {item[1] for item in items if item[0] == 'signal'}
        for note in self.notes:
            if ['wait', note] in items and note not in signalled:
                yield f'hint note {note} is waited on and no script signals it'
        yield from self.uses.hints()
        yield from (f'hint context {name} has no thread' for name in self.contexts if name not in used)
        on_cores = {core: [c for name, c in self.contexts.items() if c['core'] == core and name in used] for core in range(self.cores)}
        yield from (UNUSED % core for core, on_core in on_cores.items() if not on_core)
        for core, on_core in on_cores.items():
            parts = [Fraction(c['budget'], c['period']) for c in on_core if c['budget'] < c['period']]
            if sum(parts) > 1:
                # shares are rounded down, and their sum is to be seen to be above 1
                yield f'hint core {core} grants {max(sum(int(part * 1_000_000) for part in parts), 1_000_001)} of 1000000'

    def wanted(self, allowed: Sequence[str] = (), show: str = 'findings', form: str = 'text') -> Wanted:
        """What is written of all this, where these notifications may lose signals: findings and hints, jobs, or figures, and what is counted."""
        counts, lines, hints = dict.fromkeys(self.kinds, 0), [], list(self.hints())
        for kind, line in self.all_found:
            if kind == 'lost' and line.split()[3] in allowed:
                kind, line = 'allowed', ''
            counts[kind] += 1
            lines += [line] if line else []
        counts.update(hints=len(hints), threads=len(self.threads), deadlines=self.deadlines(), judged=self.judged())
        shown, hinted = (lines, hints) if show in ('findings', 'both') else ([*self.jobs()] if show == 'jobs' else [], [])
        figures = self.table() if show in ('table', 'both') else []
        if form == 'csv':
            rows = [*map(self.values, shown), *(values for values in figures if values['kind'] != 'context')]
            return Wanted(self.rows_text(show, rows), counts)
        if form == 'json':
            known = ({name: value for name, value in values.items() if value is not None} for values in figures)
            found = ({name: value for name, value in values.items() if value is not None} for values in map(self.values, shown))
            objects = [*found, *map(values_of_hint, hinted), *known, {'kind': 'counts', **counts}]
            return Wanted(''.join(json.dumps(each, separators=(',', ':')) + '\n' for each in objects), counts)
        told = [*shown, *hinted, *map(line_of, figures), ' '.join(f'{kind} {many}' for kind, many in counts.items())]
        return Wanted(''.join(f'{line}\n' for line in told), counts)

    def values(self, line: str) -> Values:
        """The values of a line of a finding or a job."""
        return values_of(line)

    def rows_text(self, show: str, rows: Sequence[Values]) -> str:
        """Values of lines as CSV."""
        return csv_text(COLUMNS[show], ([values.get(name) for name in COLUMNS[show]] for values in rows))


def percentile(responses: Sequence[int], percent: int) -> Optional[int]:
    """The percentile of responses in rising order, by nearest rank, as the end of its bucket: from 128 on there are 64 between two powers of two."""
    if not responses:
        return None
    value = responses[-(-percent * len(responses) // 100) - 1]
    width = 1 << max(value.bit_length() - 7, 0)
    return min(value - value % width + width - 1, responses[-1])


def line_of(values: Values) -> str:
    """Figures as a line of text: all but the kind, each behind its name."""
    return ' '.join(f'{name} {"-" if value is None else value}' for name, value in values.items() if name != 'kind')


def value_of(label: str, word: str) -> Any:
    """The value of a word behind its label: a number, names, or nothing."""
    if label == 'by':
        return word.split(',')
    return None if word == '-' else int(word)


def values_of(line: str) -> Values:
    """The values of a line of a finding or a job, by their names."""
    moment, core, kind, name, *words = line.split()
    values = {LABELS.get(label, label): value_of(label, word) for label, word in zip(words[::2], words[1::2], strict=True)}
    return {'moment': int(moment), 'core': int(core), 'kind': kind, NAMED.get(kind, 'thread'): name, **values}


def values_of_hint(line: str) -> dict[str, int | str]:
    if line in (NO_THREAD, NO_DEADLINE):
        return {'kind': 'hint', 'hint': 'no_thread' if line == NO_THREAD else 'no_deadline'}
    if values := hint_reading.values_of(line):
        return values
    _, what, name, *rest = line.split()
    if line == UNUSED % name:
        return {'kind': 'hint', 'hint': 'unused', 'core': int(name)}
    named: dict[str, int | str] = {'core': int(name), 'grants': int(rest[1])} if what == 'core' else {what: name}
    return {'kind': 'hint', 'hint': HINTS[what], **named}


def csv_text(columns: Sequence[str], rows: Iterable[Sequence[object]]) -> str:
    """Rows of CSV below their columns."""
    text = io.StringIO()
    csv.writer(text, lineterminator='\n').writerows([columns, *rows])
    return text.getvalue()


def distance(name: str, other: str) -> int:
    """How many characters have to be put in, taken out or changed to make one of the other."""

    @functools.cache
    def left(i: int, j: int) -> int:
        if i == 0 or j == 0:
            return i + j
        return min(left(i - 1, j) + 1, left(i, j - 1) + 1, left(i - 1, j - 1) + (name[i - 1] != other[j - 1]))

    return left(len(name), len(other))


# what is said where rows of findings and of figures are asked for
MIXED = 'mcscheck: --format csv: rows are of one kind: --show findings, jobs or table\n'


def unknown_note(name: str, notes: Sequence[str]) -> str:
    """What is said of a notification that the system has not; `min` takes the first of the nearest."""
    near = f'the nearest is {min(notes, key=lambda note: distance(name, note))}' if notes else 'there is none'
    return f'mcscheck: --allow-lost: no notification is called "{name}": {near}\n'
