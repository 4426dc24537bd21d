"""The rules of docs/MODEL.md as a plain program: at each moment each core takes its turn, and a budget is a date for each of its ticks.

It keeps nothing that the page does not name, and it is slow: it takes small systems alone. checks/program/forever_model.py looks for what repeats with it."""
from __future__ import annotations

from dataclasses import dataclass, field
from typing import Any, NamedTuple, Optional

from checks.random_systems import Tables

# a step of a script: its word, and what stands behind it, a notification or a server by its number
Item = tuple[Any, ...]
NEVER = 2**64 - 1


class Row(NamedTuple):
    """A row of a schedule; threads, notifications, contexts, servers and sources are told by their numbers. Rows of threads that stop, are woken or are let
    in to a server end with the date with which they enter the release queue, or None."""

    moment: int
    core: int
    kind: str
    what: tuple[Any, ...]


class Mail(NamedTuple):
    arrives: int
    made: int
    maker: int
    note: int
    badge: int


class System:
    """A file whose names are numbers."""

    def __init__(self, tables: Tables) -> None:
        self.cores, self.delay, self.call, self.least = tables['cores'], tables['delay'], tables.get('call', 1), tables.get('min_budget', 1)
        self.contexts, self.notes, self.threads = (tables.get(name, []) for name in ('context', 'note', 'thread'))
        self.orders, self.servers, self.sources = (tables.get(name, []) for name in ('order', 'server', 'source'))
        self.mode = 'bandwidth' if tables['version'] == 3 else 'sporadic'
        self.delays = {(link['maker'], link['home']): link['delay'] for link in tables.get('link', [])}
        self.note_number = {note['name']: number for number, note in enumerate(self.notes)}
        self.context_number = {context['name']: number for number, context in enumerate(self.contexts)}
        self.server_number = {server['name']: number for number, server in enumerate(self.servers)}
        self.context_of = [self.context_number[thread['context']] for thread in self.threads]
        self.core_of = [self.contexts[number]['core'] for number in self.context_of]
        steps = [self.steps(thread['script'], thread['priority']) for thread in self.threads]
        # the steps of each thread, and the priority of each step
        self.scripts = [[item for item, _ in own] for own in steps]
        self.priorities = [[priority for _, priority in own] for own in steps]

    def steps(self, script: list[str], priority: int) -> list[tuple[Item, int]]:
        """The steps of items at a priority, and their priorities: a call is the steps of the server that it calls."""
        found = []
        for text in script:
            match text.split():
                case ['call', name, badge]:
                    number = self.server_number[name]
                    within = self.servers[number]['priority']
                    inside = self.steps(self.served(number, int(badge)), within)
                    found += [(('enter', number), priority), *inside, (('leave', number), within)]
                case words:
                    found.append((self.item(words), priority))
        return found

    def served(self, server: int, badge: int) -> list[str]:
        """The items of a server's script for a badge."""
        found, is_passed_over = [], False
        for text in self.servers[server]['script']:
            word, *rest = text.split()
            if word == 'on':
                is_passed_over = not int(rest[0]) & badge
            elif not is_passed_over:
                found.append(text)
        return found

    def item(self, words: list[str]) -> Item:
        match words:
            case ['on', badges]:
                return 'on', int(badges)
            case ['spin']:
                return ('spin',)
            case ['compute', ticks]:
                return 'compute', int(ticks)
            case ['signal', note, badge]:
                return 'signal', self.note_number[note], int(badge)
            case ['wait', note]:
                return 'wait', self.note_number[note]
        return ('yield',)

    def cost(self, item: Item) -> int:
        return {'compute': item[-1], 'spin': NEVER}.get(item[0], self.call)

    def home(self, note: int) -> int:
        return int(self.notes[note]['core'])

    def rounds(self, thread: int) -> int:
        return int(self.threads[thread].get('rounds', 0))

    def deadline(self, thread: int) -> int:
        return int(self.threads[thread].get('deadline', 0))

    def start(self, thread: int) -> int:
        return int(self.threads[thread].get('start', 0))

    def is_bandwidth(self, context: int) -> bool:
        part = self.contexts[context]
        return bool(part['budget'] < part['period'] and part.get('mode', self.mode) == 'bandwidth')

    def first_wait(self, thread: int) -> Optional[int]:
        word, *rest = self.scripts[thread][0]
        return rest[0] if word == 'wait' else None

    def heard(self, thread: int, word: int) -> int:
        """A word cut to the badges that some handler of the thread takes."""
        return sum(bit for bit in (1 << place for place in range(32)) if word & bit and any(item[0] == 'on' and item[1] & bit for item in self.scripts[thread]))

    def next_item(self, thread: int, item: int, word: int) -> Optional[int]:
        """The step behind this one, without those of handlers that the round's word passes over; None where the round ends."""
        is_passed_over, script = False, self.scripts[thread]
        for place in range(item + 1, len(script)):
            if script[place][0] == 'on':
                is_passed_over = not script[place][1] & word
            elif not is_passed_over:
                return place
        # a wait ends no round: the thread waits again
        return item if script[item][0] == 'wait' else None

    def interrupts(self, source: int, moment: int) -> bool:
        """Whether a moment is a date of a source."""
        part = self.sources[source]
        at, count = part.get('at', [0]), part.get('count', 0)
        turns, offset = divmod(moment - part.get('start', 0), part['period'])
        return turns >= 0 and offset in at and (not count or turns * len(at) + at.index(offset) < count)

    def is_silent(self, source: int, moment: int) -> bool:
        """Whether a source has no date from a moment on."""
        part = self.sources[source]
        at, count = part.get('at', [0]), part.get('count', 0)
        last = part.get('start', 0) + (count - 1) // len(at) * part['period'] + at[(count - 1) % len(at)]
        return bool(count) and last < moment


def head_of(dates: list[int]) -> int:
    """How many dates the head has."""
    return next((many for many in range(1, len(dates)) if dates[many] != dates[0] + many), len(dates))


def refills_of(dates: list[int]) -> list[list[int]]:
    """The longest runs of consecutive dates."""
    runs = []
    while dates:
        many = head_of(dates)
        runs.append(dates[:many])
        dates = dates[many:]
    return runs


def moved(run: list[int], before: int) -> list[int]:
    """The run, moved so that it ends just before a date."""
    return list(range(before - len(run), before))


class Context:
    """A sporadic context with its dates, or a round robin one with what is left of its slice."""

    def __init__(self, part: dict[str, Any], at: int) -> None:
        self.config = part['budget'], part['period'], part.get('extra_refills', 0)
        self.is_slice = part['budget'] == part['period']
        self.dates = [] if self.is_slice else list(range(at, at + part['budget']))
        self.left = part['budget'] if self.is_slice else 0

    def charge(self, ticks: int, least: int) -> None:
        budget, period, extra = self.config
        if self.is_slice:
            self.left = self.left - ticks or budget
            return
        returned, rest = [date + period for date in self.dates[:ticks]], self.dates[ticks:]
        runs = refills_of(rest)
        if returned and rest and rest[-1] + 1 != returned[0] and len(runs) >= 2 + extra:
            runs[-1] = moved(runs[-1], returned[0])
        runs = refills_of([*sum(runs, []), *returned])
        while len(runs) > 1 and len(runs[0]) < least:
            runs[:2] = [moved(runs[0], runs[1][0]) + runs[1]]
        self.dates = sum(runs, [])

    def unblock(self, moment: int) -> None:
        self.dates = [max(date, moment + place) for place, date in enumerate(self.dates)]

    def order(self, moment: int, order: dict[str, Any]) -> None:
        budget, period = order['budget'], order['period']
        self.config = budget, period, order.get('extra_refills', 0)
        if self.is_slice:
            self.left = min(self.left, budget)
            return
        begins, amount = max(self.dates[0], moment), min(head_of(self.dates), budget)
        self.dates = [*range(begins, begins + amount), *moved([0] * (budget - amount), begins + period)]

    def amount(self) -> int:
        """The head's."""
        return int(self.left) if self.is_slice else head_of(self.dates)

    def date(self, moment: int) -> Optional[int]:
        """With which a thread has to wait for it, if it has to."""
        return None if self.is_slice or self.dates[0] <= moment else self.dates[0]


@dataclass
class Thread:
    left: int
    since: int
    standing: str = 'pending'
    round: int = 1
    item: int = 0
    # the round's word
    word: int = 0


@dataclass
class Note:
    word: int = 0
    waiters: list[int] = field(default_factory=list)


@dataclass
class Server:
    taken: Optional[int] = None
    waiters: list[int] = field(default_factory=list)


class Core:
    """The state of a core; the thread that runs is told with the ticks in use."""

    def __init__(self, system: System, core: int) -> None:
        own = [thread for thread, home in enumerate(system.core_of) if home == core]
        starts = {system.context_of[thread]: system.start(thread) for thread in own}
        self.running: Optional[tuple[int, int]] = None
        self.threads = {thread: Thread(system.cost(system.scripts[thread][0]), system.start(thread)) for thread in own}
        self.ready: list[int] = []
        self.releases = [(thread, system.start(thread)) for thread in own]
        self.contexts = {number: Context(part, starts.get(number, 0)) for number, part in enumerate(system.contexts) if part['core'] == core}
        self.notes = {number: Note(note.get('word', 0)) for number, note in enumerate(system.notes) if note['core'] == core}
        self.servers = {number: Server() for number, server in enumerate(system.servers) if server['core'] == core}
        self.priorities = system.priorities

    def priority(self, thread: int) -> int:
        """That of the step at which the thread is."""
        return self.priorities[thread][self.threads[thread].item]


class World:
    """All cores before one moment, and the signals under way in order of making."""

    def __init__(self, system: System) -> None:
        self.system, self.moment = system, 0
        self.cores = [Core(system, core) for core in range(system.cores)]
        self.mails: list[Mail] = []
        self.rows: list[Row] = []

    def turn(self) -> list[Row]:
        """All cores take their turns of the moment, which are these rows."""
        self.rows = []
        for number, core in enumerate(self.cores):
            Turn(self, number, core).take()
        self.moment += 1
        return self.rows

    def is_busy(self) -> bool:
        """Whether some core would do more at this moment than count a tick."""
        arrives = any(mail.arrives == self.moment for mail in self.mails)
        ordered = any(order['at'] == self.moment for order in self.system.orders)
        interrupted = any(self.system.interrupts(source, self.moment) for source in range(len(self.system.sources)))
        return arrives or ordered or interrupted or any(Turn(self, number, core).is_busy() for number, core in enumerate(self.cores))

    def is_at_rest(self) -> bool:
        """Whether no core ever does more again."""
        idle = all(core.running is None and not core.ready and not core.releases for core in self.cores)
        silent = all(self.system.is_silent(source, self.moment) for source in range(len(self.system.sources)))
        return idle and silent and not self.mails and all(order['at'] < self.moment for order in self.system.orders)


class Turn:
    """The turn of a core at the moment of its world."""

    def __init__(self, world: World, number: int, core: Core) -> None:
        self.world, self.number, self.core = world, number, core
        self.system, self.moment = world.system, world.moment

    def take(self) -> None:
        self.tick()
        for number, source in enumerate(self.system.sources):
            note = self.system.note_number[source['note']]
            if self.system.home(note) == self.number and self.system.interrupts(number, self.moment):
                self.says('interrupt', number, note, source['badge'])
                self.post(note, source['badge'])
        for mail in self.arriving():
            self.world.mails.remove(mail)
            self.says('arrive', mail.note, mail.badge, mail.maker)
            self.post(mail.note, mail.badge)
        for order in self.system.orders:
            if order['at'] == self.moment and order['core'] == self.number:
                self.obey(order)
        self.release()
        self.choose()

    def is_busy(self) -> bool:
        if any(date <= self.moment for _, date in self.core.releases):
            return True
        if self.core.running is None:
            return bool(self.core.ready)
        thread, using = self.core.running
        return self.core.threads[thread].left == 1 or using + 1 == self.context(thread).amount()

    def says(self, kind: str, *what: object) -> None:
        self.world.rows.append(Row(self.moment, self.number, kind, what))

    def arriving(self) -> list[Mail]:
        mine = [mail for mail in self.world.mails if mail.arrives == self.moment and self.system.home(mail.note) == self.number]
        return sorted(mine, key=lambda mail: (mail.made, mail.maker))

    def context(self, thread: int) -> Context:
        return self.core.contexts[self.system.context_of[thread]]

    # ---- threads that stop, and enter

    def enters(self, thread: int, is_front: bool = False) -> None:
        date = self.context(thread).date(self.moment)
        if date is not None:
            self.core.threads[thread].standing = 'pending'
            self.core.releases.append((thread, date))
            return
        self.core.threads[thread].standing = 'ready'
        self.core.ready.insert(0 if is_front else len(self.core.ready), thread)

    def stops(self, thread: int, why: str, ticks: int, standing: Optional[str] = None, is_front: bool = False) -> None:
        """The thread, whose context was charged, leaves the core, for good or until a signal where it stands so, and else enters again."""
        self.core.running = None
        self.says('stop', thread, why, ticks, None if standing else self.context(thread).date(self.moment))
        if standing:
            self.core.threads[thread].standing = standing
        else:
            self.enters(thread, is_front)

    def is_charged(self, thread: int, ticks: int) -> None:
        self.context(thread).charge(ticks, self.system.least)

    # ---- scripts

    def moves(self, thread: int) -> bool:
        """The item is finished, and the thread goes on; whether it was the last one of its last round."""
        state, rounds = self.core.threads[thread], self.system.rounds(thread)
        item = self.system.next_item(thread, state.item, state.word)
        if item is None:
            self.says('round', thread, state.round, self.moment - state.since)
            if rounds and rounds <= state.round:
                return True
            state.round, state.since = state.round + 1, self.moment
        state.item = item or 0
        state.word = state.word if item else 0
        state.left = self.system.cost(self.system.scripts[thread][state.item])
        return False

    def given(self, thread: int, word: int) -> None:
        """The thread's wait gives a word."""
        state = self.core.threads[thread]
        if state.item == 0:
            state.since, state.word = self.moment, self.system.heard(thread, word)
        self.moves(thread)

    def resumes(self, thread: int) -> None:
        """What a thread waited for has come."""
        if not self.system.is_bandwidth(self.system.context_of[thread]):
            self.context(thread).unblock(self.moment)

    def post(self, note: int, badge: int) -> None:
        state = self.core.notes[note]
        if not state.waiters:
            state.word |= badge
            self.says('hold', note, state.word)
            return
        thread = max(state.waiters, key=self.core.priority)
        state.waiters.remove(thread)
        self.resumes(thread)
        self.says('wake', thread, note, badge, self.context(thread).date(self.moment))
        self.given(thread, badge)
        self.enters(thread)

    def leave(self, thread: int, number: int) -> None:
        """The thread leaves a server, and lets in the one that waits for it first, which enters at the front."""
        server = self.core.servers[number]
        self.says('leave', thread, number)
        server.taken = None
        if server.waiters:
            other = server.taken = max(server.waiters, key=self.core.priority)
            server.waiters.remove(other)
            self.resumes(other)
            self.says('enter', other, number, self.context(other).date(self.moment))
            self.moves(other)
            self.enters(other, is_front=True)

    def signal(self, thread: int, note: int, badge: int) -> None:
        self.says('signal', thread, note, badge)
        home = self.system.home(note)
        if home == self.number:
            self.post(note, badge)
        else:
            delay = self.system.delays.get((self.number, home), self.system.delay)
            self.world.mails.append(Mail(self.moment + delay, self.moment, self.number, note, badge))

    # ---- the parts of the turn

    def tick(self) -> None:
        if self.core.running is None:
            return
        thread, using = self.core.running[0], self.core.running[1] + 1
        self.core.running = thread, using
        state = self.core.threads[thread]
        state.left -= state.left != NEVER
        why = self.finish(thread) if state.left == 0 else None
        if why in ('wait', 'call', 'done'):
            self.is_charged(thread, using)
            self.stops(thread, why, using, 'done' if why == 'done' else 'blocked')
        elif why == 'yield' or using == self.context(thread).amount():
            ticks = self.context(thread).amount()
            self.is_charged(thread, ticks)
            self.stops(thread, why or 'spent', ticks)

    def finish(self, thread: int) -> Optional[str]:
        """The item takes effect; why the thread stops for it, if it does."""
        word, *rest = self.system.scripts[thread][self.core.threads[thread].item]
        if word == 'wait':
            state = self.core.notes[rest[0]]
            if state.word == 0:
                state.waiters.append(thread)
                return 'wait'
            self.says('got', thread, rest[0], state.word)
            given, state.word = state.word, 0
            self.given(thread, given)
            return None
        if word == 'enter':
            server = self.core.servers[rest[0]]
            if server.taken is not None:
                server.waiters.append(thread)
                return 'call'
            self.says('enter', thread, rest[0])
            server.taken = thread
        if word == 'leave':
            self.leave(thread, *rest)
        if word == 'signal':
            self.signal(thread, *rest)
        if self.moves(thread):
            return 'done'
        return 'yield' if word == 'yield' else None

    def obey(self, order: dict[str, Any]) -> None:
        number = self.system.context_number[order['context']]
        self.says('order', number)
        if self.core.running is None or self.system.context_of[self.core.running[0]] != number:
            self.core.contexts[number].order(self.moment, order)
            return
        thread, using = self.core.running
        self.is_charged(thread, using)
        self.core.contexts[number].order(self.moment, order)
        self.stops(thread, 'order', using, is_front=True)

    def release(self) -> None:
        due = [thread for thread, date in self.core.releases if date <= self.moment]
        self.core.releases = [release for release in self.core.releases if release[1] > self.moment]
        for thread in due:
            self.says('release', thread)
            self.core.threads[thread].standing = 'ready'
            self.core.ready.append(thread)

    def choose(self) -> None:
        best = max(self.core.ready, key=self.core.priority, default=None)
        if self.core.running and best is not None and self.core.priority(self.core.running[0]) < self.core.priority(best):
            thread, using = self.core.running
            self.is_charged(thread, using)
            self.stops(thread, 'preempt', using, is_front=True)
        if self.core.running is None and best is not None:
            if self.system.is_bandwidth(self.system.context_of[best]):
                self.context(best).unblock(self.moment)
            self.core.ready.remove(best)
            self.core.threads[best].standing = 'running'
            self.core.running = best, 0
            self.says('run', best)


def text_of(row: Row, system: System) -> str:
    """A row as a line of text."""
    def thread(number: int) -> str:
        return str(system.threads[number]['name'])

    def note(number: int) -> str:
        return str(system.notes[number]['name'])

    match row.kind, row.what:
        case 'stop', (number, why, ticks, until):
            words = [thread(number), why, ticks, *([] if until is None else ['until', until])]
        # the date of one who is woken or let in is in no text
        case ('signal' | 'wake' | 'got'), (number, place, word, *_):
            words = [thread(number), note(place), word]
        case 'arrive', (place, badge, maker):
            words = [note(place), badge, 'from', maker]
        case 'hold', (place, word):
            words = [note(place), word]
        case 'order', (number,):
            words = [system.contexts[number]['name']]
        case 'interrupt', (number, place, badge):
            words = [system.sources[number]['name'], note(place), badge]
        case ('enter' | 'leave'), (number, place, *_):
            words = [thread(number), system.servers[place]['name']]
        case _, (number, *rest):
            words = [thread(number), *rest]
    return ' '.join(map(str, [row.moment, row.core, row.kind, *words]))
