"""One pass over the rows of a schedule, which tells a listener what they say of threads, rounds, signals and budgets.

Words are those of mcscheck. A round is *activated* where its script's first wait has its word: when that word was first set since it was 0,
or at the wake; without a first wait, in the first tick in which the thread is ready or runs. Only bits count for which a handler has something to do: a
word without such a bit activates nothing. A *miss* is a round that ended more than its deadline after its activation; *overdue* is one under way at the
horizon that was activated a deadline before or earlier. A word that is held is no round's. It is *untaken* once it is as old as the greatest deadline of all
that may take it, if each of them has a deadline and waits for it by the first item of its script alone. A signal is *lost* where it leaves a held word as
it was, and *merged* where it adds bits to one; so is an interrupt. A thread that waits for a server is *blocked*, from its stop until it enters; mcscheck
counts these ticks apart, as `server`.

Of a row nothing is kept but what is open: a record for each thread, the signals under way, the words of notifications, and what each context
holds, which tells at a wake whether the thread is ready or throttled."""
from __future__ import annotations

import collections
import copy
from collections.abc import Collection, Iterable, Sequence
from typing import NamedTuple, Optional

from .chains import Answer, Brought, Carried, Chains
from .refills import Refill, Refills
from .rows import no_row, rows_of
from .source import Told
from .steps import ENTER, LEAVE, SIGNAL, Place, Scripts
from .system import Context, System, Thread

PENDING, READY, RUNNING, THROTTLED, BLOCKED, DONE = range(6)
STANDINGS = ('pending', 'ready', 'running', 'throttled', 'blocked', 'done')
WOKE, HELD, MERGED, LOST = 'woke', 'held', 'merged', 'lost'
REASONS = {'spent', 'yield', 'wait', 'call', 'done', 'preempt', 'order'}
# for a signal, and for a server that is taken
BLOCKING = ('wait', 'call')


class Stood(NamedTuple):
    """How a thread stood from one moment to before another, and what put it there."""

    thread: Thread
    standing: int
    begin: int
    end: int
    why: str


class Round(NamedTuple):
    """A round. One that is open at the horizon has the number 0, and ends there."""

    thread: Thread
    number: int
    activated: int
    begun: int
    end: int

    @property
    def response(self) -> int:
        return self.end - self.activated

    @property
    def due(self) -> int:
        return self.activated + self.thread.deadline

    @property
    def is_missed(self) -> bool:
        return self.number > 0 and 0 < self.thread.deadline < self.response

    @property
    def is_overdue(self) -> bool:
        return self.number == 0 and 0 < self.thread.deadline <= self.response


class Post(NamedTuple):
    """A signal that took effect: who made it where and when, and whom it woke or for whom it is held, where scripts tell. An interrupt has a source, and is
    made where and when it arrives."""

    note: str
    badge: int
    maker: Optional[Thread]
    made: int
    core: int
    arrived: int
    thread: Optional[Thread]
    outcome: str
    source: str = ''


class Untaken(NamedTuple):
    """A word of a notification that is too old at the end for all who may take it, and since when it is set."""

    note: str
    by: Sequence[Thread]
    word: int
    since: int
    deadline: int
    end: int


class UnderWay(NamedTuple):
    """A signal that has not arrived, or has not taken effect yet."""

    maker: Optional[Thread]
    made: int
    core: int
    badge: int
    source: str = ''
    carried: Optional[Carried] = None

    def brought(self, moment: int) -> Optional[Brought]:
        """What it brings of chains when it takes effect."""
        return Brought(self.carried, self.made, moment) if self.carried else None


class Holding(NamedTuple):
    """What the context of a thread holds from a moment on; while the thread runs the head is being used."""

    thread: Thread
    refills: Sequence[Refill]
    moment: int
    is_used: bool


class Listener:
    """What a reading tells; a tool overrides what it needs. `hears_holdings` tells whose budgets it follows, `hears_chains` whether it follows chains."""

    hears_holdings: Collection[str] = ()
    hears_chains = False

    def entered(self, thread: Thread, moment: int, standing: int, date: Optional[int]) -> None:
        """From the moment on a thread stands so, for no time perhaps; one that is throttled until the date."""

    def stood(self, stood: Stood) -> None: ...

    def round_ended(self, ended: Round) -> None: ...

    def round_open(self, open_round: Round) -> None: ...

    def posted(self, post: Post) -> None: ...

    def word(self, note: str, moment: int, word: int) -> None:
        """From the moment on this is a notification's word."""

    def under_way(self, note: str, signal: UnderWay) -> None: ...

    def ordered(self, context: Context, moment: int) -> None: ...

    def at_server(self, server: str, thread: Thread, begin: int, end: int) -> None:
        """The thread waited for a server that was taken, and was let in at the end, or waited still."""

    def in_server(self, server: str, thread: Thread, begin: int, end: int) -> None:
        """The thread had a server, and left it at the end, or had it still."""

    def holds(self, holding: Holding) -> None: ...

    def untaken(self, untaken: Untaken) -> None:
        """A word is held at the horizon, and whoever takes it misses the deadline."""

    def never(self, thread: Thread, horizon: int) -> None:
        """The thread has a deadline, and nobody was given a word for which it waits first; or else it was not ready and did not run once."""

    def answered(self, answer: Answer) -> None:
        """An interrupt of a chain has its first answer. Of a round with many answers only the first ones are told."""


class Account:
    """What is open of a thread."""

    __slots__ = ('thread', 'activated_by', 'standing', 'since', 'why', 'begun', 'activated', 'chosen', 'was_activated')

    def __init__(self, thread: Thread) -> None:
        self.thread = thread
        self.activated_by = thread.activated_by
        self.standing, self.since, self.why = PENDING, 0, ''
        self.begun: Optional[int] = None
        self.activated: Optional[int] = None
        self.chosen = 0
        self.was_activated = False

    def begin(self, moment: int, activated: Optional[int]) -> None:
        self.begun, self.activated = moment, activated

    def pass_ticks(self) -> None:
        """Some ticks have passed as it stands: a thread without a first wait that was ready or ran in one was activated."""
        self.was_activated = self.was_activated or self.activated_by is None and self.standing in (READY, RUNNING)

    def is_activated_by(self, word: int) -> bool:
        """Whether a word that the thread is given activates a round."""
        return self.activated_by is not None and self.begun is None and self.thread.has_work_for(word)

    def end(self) -> None:
        self.begun = self.activated = None

    def see_standing(self, moment: int, standing: int) -> None:
        """A round that begins with no wait is activated once its thread is ready or runs, for longer than no time."""
        if standing in (READY, RUNNING):
            if self.activated is None and self.begun is not None:
                self.begin(self.begun, moment)
        elif self.activated == moment:
            self.activated = None


class Reading:
    """A pass over rows. `count` is how many there were, `end` where they end: the horizon, or the last row."""

    def __init__(self, system: System, listener: Listener) -> None:
        self.system, self.listener = system, listener
        self.accounts = {name: Account(thread) for name, thread in system.threads.items()}
        self.words: dict[str, int] = dict(system.words)
        # for each notification the threads that wait for it first and had no word so far, given to anybody, with something to do for them
        self.idle: dict[str, list[Account]] = {
            note: [self.accounts[thread.name] for thread in waiters if thread.activated_by == note] for note, waiters in system.waiters.items()
        }
        # since when a word has a bit that leaves something to do
        self.first_set: dict[str, int] = dict.fromkeys(system.home_of, 0)
        self.taken_by: dict[str, Optional[str]] = dict.fromkeys(system.servers)
        self.taken_since: dict[str, int] = {}
        self.signals: dict[tuple[int, str], collections.deque[UnderWay]] = collections.defaultdict(collections.deque)
        self.arriving: Optional[UnderWay] = None
        self.refills = {
            name: Refills(thread.context, thread.start, system.min_budget, system.orders[thread.context.name]) for name, thread in system.threads.items()
        }
        self.chains = Chains(system, listener.answered) if system.chains and listener.hears_chains else None
        # at which step each thread is, followed where a server or a chain asks for it
        self.scripts, self.places = Scripts(system.servers), dict[str, Place]()
        self.follows_steps = bool(system.servers or self.chains)
        self.count = 0
        self.end = 0

    def copy(self, listener: Listener) -> Reading:
        """A reading that goes on from here for another listener. It follows chains from the interrupts on that are yet to come."""
        other = copy.copy(self)
        other.listener = listener
        other.accounts = {name: copy.copy(account) for name, account in self.accounts.items()}
        other.words, other.first_set = dict(self.words), dict(self.first_set)
        other.idle = {note: [other.accounts[account.thread.name] for account in own] for note, own in self.idle.items()}
        other.taken_by, other.taken_since = dict(self.taken_by), dict(self.taken_since)
        other.signals = collections.defaultdict(collections.deque)
        for key, queue in self.signals.items():
            other.signals[key].extend(signal._replace(carried=None) for signal in queue)
        other.arriving = self.arriving and self.arriving._replace(carried=None)
        other.refills = {name: refills.copy() for name, refills in self.refills.items()}
        other.places = {name: copy.copy(place) for name, place in self.places.items()}
        other.chains = Chains(self.system, listener.answered) if self.system.chains and listener.hears_chains else None
        return other

    def read(self, lines: Iterable[str], horizon: Optional[int]) -> None:
        """Reads the rows from where it is to the end."""
        heard = {
            'release': self.release, 'run': self.run, 'stop': self.stop, 'signal': self.signal, 'arrive': self.arrive, 'wake': self.wake,
            'hold': self.hold, 'got': self.got, 'round': self.round, 'order': self.order, 'interrupt': self.interrupt, 'enter': self.enter_server,
            'leave': self.leave_server,
        }
        for name, account in self.accounts.items():
            is_used = account.standing == RUNNING
            self.tell_held(name, account.chosen if is_used else self.end, is_used)
        for number, moment, core, kind, words in rows_of(lines):
            if horizon is not None and moment > horizon:
                break
            self.count += 1
            self.end = moment
            try:
                heard[kind](moment, core, words)
            except (KeyError, ValueError):
                raise no_row(number, words) from None
        if horizon is not None:
            self.end = horizon
        self.close()

    # ---- rows

    def release(self, moment: int, core: int, words: list[str]) -> None:
        account = self.accounts[words[3]]
        if account.standing not in (PENDING, THROTTLED) or not self.refills[words[3]].is_ready(moment):
            raise ValueError
        if account.standing == PENDING and not account.activated_by:
            account.begin(moment, None)
        self.enter(account, moment, READY)

    def run(self, moment: int, core: int, words: list[str]) -> None:
        account, own = self.accounts[words[3]], self.refills[words[3]]
        if account.standing != READY:
            raise ValueError
        self.enter(account, moment, RUNNING)
        account.chosen = moment
        if own.is_bandwidth:
            own.unblock(moment)
        self.tell_held(words[3], moment, True)

    def stop(self, moment: int, core: int, words: list[str]) -> None:
        account, own, why = self.accounts[words[3]], self.refills[words[3]], words[4]
        if account.standing != RUNNING or why not in REASONS:
            raise ValueError
        if len(words) == 8:
            standing = THROTTLED
        elif why in BLOCKING:
            standing = BLOCKED
        elif why == 'done':
            standing = DONE
            account.end()
        else:
            standing = READY
        # the order has charged what was in use
        if why != 'order':
            own.charge(int(words[5]))
        if len(words) == 8 and own.list[0][0] != int(words[7]):
            raise ValueError
        self.enter(account, moment, standing, why)
        self.tell_held(words[3], moment, False)

    def round(self, moment: int, core: int, words: list[str]) -> None:
        account = self.accounts[words[3]]
        begun = moment - int(words[5])
        if begun < 0:
            raise ValueError
        activated = begun if account.activated is None else account.activated
        self.listener.round_ended(Round(account.thread, int(words[4]), activated, begun, moment))
        if account.activated_by:
            account.end()
        else:
            account.begin(moment, moment)
        if self.follows_steps:
            place = self.place(words[3])
            if self.chains:
                self.chains.round(place, moment)
            place.begin()

    def signal(self, moment: int, core: int, words: list[str]) -> None:
        step = self.place(words[3]).advance(SIGNAL, words[4]) if self.follows_steps else None
        carried = self.chains.signal(words[3], step) if self.chains and step else None
        signal = UnderWay(self.accounts[words[3]].thread, moment, core, int(words[5]), carried=carried)
        if self.system.home_of[words[4]] == core:
            self.arriving = signal
        else:
            self.signals[core, words[4]].append(signal)

    def arrive(self, moment: int, core: int, words: list[str]) -> None:
        queue = self.signals[int(words[6]), words[3]]
        self.arriving = queue.popleft() if queue else UnderWay(None, moment, int(words[6]), int(words[4]))

    def interrupt(self, moment: int, core: int, words: list[str]) -> None:
        if self.system.sources[words[3]] != words[4]:
            raise ValueError
        self.arriving = UnderWay(None, moment, core, int(words[5]), words[3], self.chains.interrupt(words[3], moment) if self.chains else None)

    def wake(self, moment: int, core: int, words: list[str]) -> None:
        account = self.accounts[words[3]]
        if account.standing != BLOCKED or account.why == 'call':
            raise ValueError
        signal = self.post(words[4], moment, account.thread, WOKE)
        if self.follows_steps:
            place = self.place(words[3])
            step = place.take(words[4], int(words[5]))
            if self.chains:
                self.chains.wake(place, step, words[4], signal.badge, signal.brought(moment), moment)
        self.given(words[4], int(words[5]))
        if account.is_activated_by(int(words[5])):
            account.begin(moment, moment)
        self.resume(account, moment)

    def enter_server(self, moment: int, core: int, words: list[str]) -> None:
        account, server = self.accounts[words[3]], words[4]
        if self.taken_by[server] is not None:
            raise ValueError
        self.taken_by[server], self.taken_since[server] = words[3], moment
        self.place(words[3]).advance(ENTER, server)
        # a thread that runs goes on; one that waits for the server is let in by the one that leaves it
        if account.standing == BLOCKED and account.why == 'call':
            self.listener.at_server(server, account.thread, account.since, moment)
            self.resume(account, moment)
        elif account.standing != RUNNING:
            raise ValueError

    def leave_server(self, moment: int, core: int, words: list[str]) -> None:
        if self.accounts[words[3]].standing != RUNNING or self.taken_by[words[4]] != words[3]:
            raise ValueError
        self.place(words[3]).advance(LEAVE, words[4])
        self.leave(words[4], moment)

    def hold(self, moment: int, core: int, words: list[str]) -> None:
        note, word = words[3], int(words[4])
        was, self.words[note] = self.words[note], word
        if not self.system.is_set(note, was):
            self.first_set[note] = moment
        self.listener.word(note, moment, word)
        waiters = self.system.waiters[note]
        signal = self.post(note, moment, waiters[0] if waiters else None, HELD if not was else LOST if was == word else MERGED)
        if self.chains:
            self.chains.hold(note, signal.badge, signal.brought(moment))

    def got(self, moment: int, core: int, words: list[str]) -> None:
        account, note = self.accounts[words[3]], words[4]
        self.words[note] = 0
        self.listener.word(note, moment, 0)
        self.given(note, int(words[5]))
        if account.is_activated_by(int(words[5])):
            account.begin(moment, self.first_set[note])
        if self.follows_steps:
            place = self.place(words[3])
            step = place.take(note, int(words[5]))
            if self.chains:
                self.chains.got(place, step, note, moment)

    def order(self, moment: int, core: int, words: list[str]) -> None:
        context = self.system.contexts[words[3]]
        self.listener.ordered(context, moment)
        if thread := self.system.thread_of.get(context.name):
            account, own = self.accounts[thread.name], self.refills[thread.name]
            # what is in use is charged by the configuration until now
            if account.standing == RUNNING:
                own.charge(moment - account.chosen)
            own.order(moment)
            self.tell_held(thread.name, moment, False)

    # ---- what rows come to

    def given(self, note: str, word: int) -> None:
        """Somebody is given a word: those that wait first for the notification have had one, if it left them something to do."""
        if idle := self.idle[note]:
            for account in idle:
                account.was_activated = account.was_activated or account.thread.has_work_for(word)
            self.idle[note] = [account for account in idle if not account.was_activated]

    def place(self, thread: str) -> Place:
        """At which step a thread is."""
        if thread not in self.places:
            self.places[thread] = Place(self.system.threads[thread], self.scripts)
        return self.places[thread]

    def leave(self, server: str, moment: int) -> None:
        """Ends the stay of the thread that has a server, if one has it."""
        if name := self.taken_by[server]:
            self.listener.in_server(server, self.accounts[name].thread, self.taken_since[server], moment)
            self.taken_by[server] = None

    def resume(self, account: Account, moment: int) -> None:
        """A thread that was blocked goes on, once its context has budget."""
        name = account.thread.name
        own = self.refills[name]
        if not own.is_bandwidth:
            own.unblock(moment)
        if own.is_ready(moment):
            self.enter(account, moment, READY)
        else:
            self.enter(account, moment, THROTTLED, 'wake')
        self.tell_held(name, moment, False)

    def enter(self, account: Account, moment: int, standing: int, why: str = '') -> None:
        self.tell_stood(account, moment)
        account.standing, account.since, account.why = standing, moment, why
        self.listener.entered(account.thread, moment, standing, self.refills[account.thread.name].list[0][0] if standing == THROTTLED else None)
        if account.begun is not None and account.activated_by is None:
            account.see_standing(moment, standing)

    def tell_stood(self, account: Account, end: int) -> None:
        if end > account.since:
            account.pass_ticks()
            self.listener.stood(Stood(account.thread, account.standing, account.since, end, account.why))

    def tell_held(self, name: str, moment: int, is_used: bool) -> None:
        if name in self.listener.hears_holdings:
            self.listener.holds(Holding(self.accounts[name].thread, self.refills[name].list, moment, is_used))

    def post(self, note: str, moment: int, thread: Optional[Thread], outcome: str) -> UnderWay:
        signal = self.arriving or UnderWay(None, moment, self.system.home_of[note], 0)
        self.arriving = None
        maker, made, core, badge, source, _ = signal
        self.listener.posted(Post(note, badge, maker, made, core, moment, thread, outcome, source))
        return signal

    def close(self) -> None:
        """What is open at the end."""
        for account in self.accounts.values():
            self.tell_stood(account, self.end)
            self.close_round(account)
            if account.standing == BLOCKED and account.why == 'call':
                server = self.place(account.thread.name).next().name
                self.listener.at_server(server, account.thread, account.since, self.end)
        for server in self.taken_by:
            self.leave(server, self.end)
        for note in self.system.due:
            self.close_word(note)
        for (_, note), queue in self.signals.items():
            for signal in queue:
                self.listener.under_way(note, signal)

    def close_round(self, account: Account) -> None:
        """A round under way."""
        is_active = account.activated_by is None and account.standing in (READY, RUNNING)
        # no tick follows the horizon, in which the thread could be ready or run
        is_too_late = account.activated_by is None and account.activated == self.end
        if account.activated is not None and account.begun is not None and not is_too_late:
            self.listener.round_open(Round(account.thread, 0, account.activated, account.begun, self.end))
        elif account.thread.deadline and not account.was_activated and not is_active:
            self.listener.never(account.thread, self.end)

    def close_word(self, note: str) -> None:
        """A word that is held, of a notification with a deadline."""
        word, since, deadline, by = self.words[note], self.first_set[note], self.system.due[note], self.system.waiters[note]
        if word and self.end - since >= deadline and all(thread.has_work_for(word) for thread in by):
            self.listener.untaken(Untaken(note, by, word, since, deadline, self.end))


def read(told: Told, listener: Listener) -> Reading:
    """Reads a whole schedule."""
    reading = Reading(told.system, listener)
    reading.read(told.lines, told.horizon)
    return reading
