#!/usr/bin/env python3
"""Checks claims of mcscheck --forever by a plain model of the rules, and counts the repetitions that it misses.

The model (checks/program/model.py) takes random systems as of verdicts.py moment by moment. A set that is said to repeat has to stand, a period after the
moment from which on it does, as it stood before it. Where nothing is ever to be found, nothing is at any horizon of two periods. Then the model looks itself:
after 1, 2, 4, 8 and so on moments at which some core does more than count a tick, and behind the last order, a moment is kept, and each later one is compared
with it. What it finds and the program says nothing of is counted as missed: nothing says that it has to be found. The last line is a count of sets of cores."""
from __future__ import annotations

import collections
import argparse
import copy
import functools
import pathlib
import random
import sys
import tomllib
from collections.abc import Iterator, Sequence
from typing import NamedTuple, Optional

sys.dont_write_bytecode = True
sys.path[0] = str(pathlib.Path(__file__).resolve().parents[2])
from checks import common
from checks.common import Count
from checks.program import forever_reading as forever, verdicts
from checks.program.forever_reading import Claim, CoreSet
from checks.program.model import Core, Row, System, World
from checks.random_systems import text_of

STANDINGS = {'release': 'ready', 'run': 'running'}
STOPPED = {'wait': 'blocked', 'call': 'server', 'done': 'done'}


class Account:
    """What is kept of the rows of a thread: how it stands and since when; when its round that is under way began, was called by a word and was first
    ready or running; how often it was preempted, and how many ticks it stood in each way."""

    def __init__(self, system: System, thread: int) -> None:
        self.waits = system.first_wait(thread)
        self.has_work = functools.partial(has_work, system, thread)
        self.standing, self.why, self.since = 'pending', '', 0
        self.called: Optional[int] = None
        self.was_active = False
        self.preemptions = 0
        self.begins(None if self.waits is not None else system.start(thread))

    def begins(self, moment: Optional[int]) -> None:
        self.begun = moment
        self.active: Optional[int] = None
        self.stood: collections.Counter[str] = collections.Counter()

    def given(self, moment: int, called: int, word: int) -> None:
        """A word begins a round, where one is to begin by it."""
        if self.waits is not None and self.begun is None and self.has_work(word):
            self.called = called
            self.begins(moment)

    def ends(self, moment: Optional[int]) -> None:
        self.begins(moment)
        self.preemptions = 0

    def passed(self, moment: int) -> None:
        """The ticks up to a row are counted."""
        standing = self.standing
        self.was_active = self.was_active or self.since < moment and standing in ('ready', 'running')
        if self.begun is None:
            return
        first = max(self.since, self.begun)
        if first < moment:
            self.stood[standing] += moment - first
            if self.active is None and standing in ('ready', 'running'):
                self.active = first

    def told(self, row: Row) -> None:
        """A row that tells how the thread stands."""
        self.passed(row.moment)
        self.since = row.moment
        why = row.what[1] if row.kind == 'stop' else ''
        # rows of threads that stop, are woken or are let in end with a date, or None
        standing = STANDINGS.get(row.kind) or STOPPED.get(why) or ('ready' if row.what[-1] is None else 'throttled')
        self.standing, self.why = standing, why
        if row.kind != 'stop':
            return
        if why == 'done':
            self.ends(None)
        self.preemptions += why == 'preempt' and self.begun is not None

    def activated(self, moment: int) -> Optional[int]:
        """When the round that is under way was activated, if it was before a moment up to which no row tells more."""
        if self.waits is not None or self.active is not None or self.begun is None:
            return self.called if self.waits is not None else self.active
        first = max(self.since, self.begun)
        return first if first < moment and self.standing in ('ready', 'running') else None

    def kept(self, by: int) -> tuple[object, ...]:
        """All of it, with moments later."""
        moments = (self.begun, self.called, self.active)
        return self.standing, self.preemptions, self.stood, self.since + by, *(None if moment is None else moment + by for moment in moments)


def has_work(system: System, thread: int, word: int) -> bool:
    """Whether a word of the script's first wait leaves the thread something to do."""
    return word != 0 and system.next_item(thread, 0, system.heard(thread, word)) != 0


class Watch:
    """What is kept of rows: an account of each thread, the word of each notification with the moment since which it is set, and what the rows since some
    moment did."""

    def __init__(self, system: System) -> None:
        self.system = system
        self.accounts = [Account(system, thread) for thread in range(len(system.threads))]
        self.words = [(note.get('word', 0), 0) for note in system.notes]
        # the bits of all words that were given of a notification, to anybody
        self.given = [0] * len(system.notes)
        # threads that missed a deadline, and notifications that lost a signal
        self.missed: set[int] = set()
        self.lost: set[int] = set()
        self.clear()

    def is_heard(self, note: int, word: int) -> bool:
        """Whether a word of a notification leaves something to do to a thread that waits for it first."""
        return any(account.waits == note and account.has_work(word) for account in self.accounts)

    def clear(self) -> None:
        """Of what the rows did: threads whose context or whose round was compared with now, that ended a round, or are told of at all; words that were
        taken, or in which a signal was held."""
        self.contexts: set[int] = set()
        self.rounds: set[int] = set()
        self.ended: set[int] = set()
        self.told: set[int] = set()
        self.taken: set[int] = set()
        self.held: set[int] = set()

    def see(self, row: Row) -> None:
        if row.kind == 'hold':
            note, word = row.what
            before, since = self.words[note]
            self.lost |= {note} if before == word else set()
            self.words[note] = word, since if self.is_heard(note, before) else row.moment
            self.held.add(note)
        elif row.kind not in ('signal', 'arrive', 'order', 'interrupt', 'leave'):
            self.see_thread(row, row.what[0], self.accounts[row.what[0]])

    def see_thread(self, row: Row, thread: int, account: Account) -> None:
        self.told.add(thread)
        is_let_in = row.kind == 'enter' and account.why == 'call'
        if row.kind in ('got', 'wake'):
            self.given[row.what[1]] |= row.what[2]
        if row.kind == 'got':
            note = row.what[1]
            account.given(row.moment, self.words[note][1], row.what[2])
            self.words[note] = 0, self.words[note][1]
            self.taken.add(note)
        elif row.kind == 'round':
            activated, deadline = account.activated(row.moment), self.system.deadline(thread)
            self.missed |= {thread} if activated is not None and 0 < deadline < row.moment - activated else set()
            account.ends(row.moment if account.waits is None else None)
            self.ended.add(thread)
        elif row.kind != 'enter' or is_let_in:
            account.told(row)
        if row.kind == 'wake':
            account.given(row.moment, row.moment, row.what[2])
        if row.kind in ('wake', 'got', 'round', 'enter'):
            self.rounds.add(thread)
        until = row.kind == 'stop' and row.what[3] is not None
        if until or row.kind == 'wake' or is_let_in or row.kind == 'run' and self.system.is_bandwidth(self.system.context_of[thread]):
            self.contexts.add(thread)


    def is_found(self, thread: int, horizon: int, last: int) -> bool:
        """Whether something is found of a thread at a horizon, whose rows are the last ones: a missed deadline, one that can only be missed, or, from a
        moment on, that it was never activated."""
        account, deadline = self.accounts[thread], self.system.deadline(thread)
        activated = account.activated(horizon) if account.begun is not None else None
        is_active = account.was_active or account.standing in ('ready', 'running')
        once = is_active if account.waits is None else account.has_work(self.given[account.waits])
        is_overdue = activated is not None and deadline <= horizon - activated
        return deadline > 0 and (thread in self.missed or is_overdue or not once and last <= horizon)

    def is_untaken(self, note: int, horizon: int) -> bool:
        """Whether the word of a notification is too old for all who may take it."""
        word, since = self.words[note]
        by = [thread for thread, script in enumerate(self.system.scripts) if ('wait', note) in script]
        alone = all(self.system.scripts[thread].index(('wait', note)) == 0 and self.system.scripts[thread].count(('wait', note)) == 1 for thread in by)
        deadlines = [self.system.deadline(thread) for thread in by]
        called = all(self.accounts[thread].has_work(word) for thread in by)
        return bool(by) and alone and all(deadlines) and called and max(deadlines) <= horizon - since


class Kept(NamedTuple):
    """All cores before a moment, and what was kept of the rows before it."""

    moment: int
    world: World
    watch: Watch


class Repeats(NamedTuple):
    start: int
    period: int


def of_thread(core: Core, thread: int) -> tuple[str, int, int, int]:
    state = core.threads[thread]
    return state.standing, state.item, state.left, state.word


class Comparing:
    """The present moment beside the kept one, for a set of cores."""

    def __init__(self, kept: Kept, world: World, watch: Watch, group: CoreSet) -> None:
        self.kept, self.world, self.watch, self.group = kept, world, watch, group
        self.system, self.by = world.system, world.moment - kept.moment
        self.threads = [thread for thread, core in enumerate(self.system.core_of) if core in group.cores]
        self.notes = [note for note in range(len(self.system.notes)) if self.system.home(note) in group.cores]

    def recurs(self) -> bool:
        cores = [(self.kept.world.cores[core], self.world.cores[core]) for core in self.group.cores]
        same = all(self.is_same(before, after) for before, after in cores) and self.mails_are_later() and self.interrupts_are_later()
        return same and all(self.threads_are_later(*pair) and self.contexts_are_later(*pair) for pair in cores) and self.findings_recur()

    def is_same(self, before: Core, after: Core) -> bool:
        def ready(core: Core) -> list[int]:
            return sorted(core.ready, key=core.priority, reverse=True)

        releases = [(thread, date + self.by) for thread, date in before.releases] == after.releases
        stand = all(of_thread(before, thread) == of_thread(after, thread) for thread in before.threads)
        same = before.running == after.running and before.notes == after.notes and before.servers == after.servers
        return releases and stand and same and ready(before) == ready(after)

    def mails_are_later(self) -> bool:
        before, after = ([mail for mail in world.mails if mail.note in self.notes] for world in (self.kept.world, self.world))
        return [mail._replace(arrives=mail.arrives + self.by, made=mail.made + self.by) for mail in before] == after

    def interrupts_are_later(self) -> bool:
        """Each number of a source's `at` has dates without end, of which the first has come and whose period goes into the time between, or has none to come."""
        for number, source in enumerate(self.system.sources):
            if self.system.note_number[source['note']] not in self.notes:
                continue
            endless = not source.get('count', 0)
            begun = all(source.get('start', 0) + offset <= self.kept.moment for offset in source.get('at', [0]))
            if not (begun and self.by % source['period'] == 0 if endless else self.system.is_silent(number, self.kept.moment)):
                return False
        return True

    def threads_are_later(self, before: Core, after: Core) -> bool:
        """The rounds, of which no more end where there is a last one; the beginning of one may lag unless it was compared with now."""
        for thread, state in before.threads.items():
            later = after.threads[thread]
            if self.system.rounds(thread) and state.round != later.round:
                return False
            if thread in self.watch.rounds and later.since != state.since + self.by:
                return False
        return True

    def contexts_are_later(self, before: Core, after: Core) -> bool:
        """The dates of a context may lag, all of them by the same, unless they were compared with now."""
        compared = {self.system.context_of[thread] for thread in self.watch.contexts}
        for number, context in before.contexts.items():
            later = after.contexts[number]
            if (context.config, context.left) != (later.config, later.left):
                return False
            if not context.is_slice:
                lag = later.dates[0] - context.dates[0]
                if [date + lag for date in context.dates] != later.dates or not 0 <= lag <= self.by or number in compared and lag != self.by:
                    return False
        return True

    # ---- what is found

    def is_later(self, thread: int) -> bool:
        return self.kept.watch.accounts[thread].kept(self.by) == self.watch.accounts[thread].kept(0)

    def word_is_later(self, note: int) -> bool:
        return self.kept.watch.words[note][1] + self.by == self.watch.words[note][1]

    def findings_recur(self) -> bool:
        threads = all(thread not in self.watch.ended or self.is_later(thread) for thread in self.threads)
        words = all(self.kept.watch.words[note][0] == self.watch.words[note][0] for note in self.notes)
        return threads and words and all(note not in self.watch.taken or self.word_is_later(note) for note in self.notes)


class Search:
    """A model that goes on from moment to moment, and tells of each set where it repeats."""

    def __init__(self, system: System, groups: Sequence[CoreSet]) -> None:
        self.world, self.watch, self.groups = World(system), Watch(system), groups
        self.first = max((order['at'] + 1 for order in system.orders), default=0)
        self.told: list[Optional[Repeats]] = [None] * len(groups)
        self.keep()

    def keep(self) -> None:
        self.kept = Kept(self.world.moment, copy.deepcopy(self.world), copy.deepcopy(self.watch))
        self.watch.clear()

    def turn(self) -> None:
        for row in self.world.turn():
            self.watch.see(row)

    def skip(self, horizon: int) -> None:
        """To the next moment at which some core does more than count a tick."""
        while self.world.moment <= horizon and not self.world.is_busy():
            self.turn()

    def compare(self) -> None:
        for place, group in enumerate(self.groups):
            if self.told[place] is None and self.first <= self.kept.moment < self.world.moment:
                found = Comparing(self.kept, self.world, self.watch, group)
                if found.recurs():
                    self.told[place] = Repeats(self.kept.moment, found.by)

    def run(self, horizon: int) -> list[Optional[Repeats]]:
        stretch = left = 1
        while self.world.moment <= horizon and None in self.told:
            if self.world.is_at_rest():
                return self.rest()
            if self.first <= self.world.moment:
                if left == 0:
                    self.keep()
                    stretch *= 2
                    left = stretch
                left -= 1
            self.turn()
            if not self.world.is_at_rest():
                self.skip(horizon)
            self.compare()
        return self.told

    def rest(self) -> list[Optional[Repeats]]:
        """What is at rest repeats with each tick."""
        self.keep()
        self.turn()
        self.compare()
        return self.told


class Claimed:
    """What the model sees of a set that is said to repeat."""

    def __init__(self, system: System, group: CoreSet, claim: Claim) -> None:
        self.search, self.group = Search(system, [group]), group
        self.start, self.period = claim.repeats

    def wrong(self, is_clean: bool) -> Optional[str]:
        """What of the claim is not so, of which nothing being ever found may be a part."""
        search = self.search
        while search.world.moment < self.start:
            search.turn()
        search.keep()
        for horizon in range(self.start, self.start + (2 if is_clean else 1) * self.period):
            # the rows up to a horizon are those of the turns before the next moment
            search.turn()
            if is_clean and (found := self.found(horizon, self.start + self.period - 1)):
                return f'the model finds something at horizon {horizon}: {found}'
            if horizon + 1 == self.start + self.period:
                search.compare()
        return 'the model sees no repetition' if search.told[0] is None else None

    def found(self, horizon: int, last: int) -> list[str]:
        """What is found up to a horizon of the threads and notifications that are told with the set."""
        system, watch = self.search.world.system, self.search.watch
        own = [thread for thread, core in enumerate(system.core_of) if core in self.group.own]
        threads = [system.threads[thread]['name'] for thread in own if watch.is_found(thread, horizon, last)]
        notes = [number for number, note in enumerate(system.notes) if note['core'] in self.group.own]
        return [*threads, *(system.notes[number]['name'] for number in notes if number in watch.lost or watch.is_untaken(number, horizon))]


# ---- the program beside it


class Trial:
    def __init__(self, words: argparse.Namespace) -> None:
        self.checker = common.beside(common.built_program(words.program), 'mcscheck')
        self.horizon, self.count, self.missed = words.horizon, Count(), 0

    def look(self, name: str, text: str) -> None:
        """A system, which may be refused."""
        ran = common.run([self.checker, '--forever', f'--horizon={self.horizon}'], text.encode())
        if ran.status == 1:
            return
        tables = tomllib.loads(text)
        claims, groups = forever.claims_of(ran.stdout.decode()), forever.core_sets(tables)
        self.count.expect(f'{name}: {ran}', len(claims) == len(groups))
        # threads that only compute spin in what is said
        system = System({**tables, 'thread': [forever.spun(thread) for thread in tables.get('thread', [])]})
        for what, group, claim, seen in zip(self.names(name, groups), groups, claims, Search(system, groups).run(self.horizon)):
            if claim.start is not None:
                wrong = Claimed(system, group, claim).wrong(claim.is_clean)
                self.count.expect(f'{what}: {claim}: {wrong}', wrong is None)
            elif seen:
                self.missed += 1
                print(f'missed: {what}: {seen}')
            else:
                self.count.add(passed=1)

    def names(self, name: str, groups: Sequence[CoreSet]) -> Iterator[str]:
        return (f'{name}, cores {group.name}' for group in groups)


def main() -> None:
    parser = common.asking_random(__doc__, 100)
    parser.add_argument('--horizon', type=int, default=2000, help='up to which a repetition is looked for (default 2000)')
    words = parser.parse_args()
    trial = Trial(words)
    for number in range(words.systems):
        text = text_of(verdicts.tables_of(random.Random(f'{words.seed} {number}')))
        trial.look(f'random {words.seed} {number}', text)
    print(f'missed {trial.missed}')
    trial.count.end()


if __name__ == '__main__':
    main()
