"""trace SYSTEM [--horizon N] [--tick-ns N] [-o FILE]

Turns a schedule into Chrome's trace events (JSON), which https://ui.perfetto.dev and other viewers of traces open. It writes while it reads, and
keeps nothing of a row.

Cores are processes, and their threads are threads. How a thread stands is a slice; rounds that missed their deadline or are overdue are slices of a
track of their own below it; a signal is a flow from its maker's slice to that of the thread which it wakes, or for which it is held; interrupts, lost
signals and orders are instants; --budgets adds a counter of what each context may use. A flow begins a quarter of a tick before its signal and ends a quarter
after its arrival, so that viewers find it in the slice of the thread that ran, and in the one that the arrival begins."""
from __future__ import annotations

import json
from typing import IO, Optional

from . import options, output, source
from .reading import BLOCKED, DONE, LOST, PENDING, READY, RUNNING, STANDINGS, THROTTLED, Holding, Listener, Post, Reading, Round, Stood
from .source import Told, Words
from .system import Context, System, Thread

TICK_NS = 1000
# names of Chrome's own palette, which the format keeps for this; Perfetto colours by name
COLOURS = {RUNNING: 'thread_state_running', READY: 'thread_state_runnable', THROTTLED: 'thread_state_iowait', BLOCKED: 'thread_state_sleeping'}
BAD = 'terrible'
# the track of a process that is no thread's
WHOLE_CORE = 0

# a quarter of a tick is a whole number of nanoseconds, and the longest run has an exact place
nanoseconds = options.number('no length of a tick, of 4 to 1000000 nanoseconds', 4, 10**6)


def track(thread: Thread) -> int:
    return 2 * thread.number + 1


def late_track(thread: Thread) -> int:
    return track(thread) + 1


class Trace(Listener):
    """Writes the events of what it hears."""

    def __init__(self, system: System, out: IO[str], tick: int, budgets: bool) -> None:
        self.system, self.out, self.tick, self.quarter = system, out, tick, tick // 4
        self.hears_holdings = frozenset(system.threads) if budgets else frozenset()
        self.usable: dict[str, int] = {}
        self.flows = 0
        self.separator = ''
        # signals of the newest moment, whose flows wait for the end of it
        self.newest: list[Post] = []
        self.reading = Reading(system, self)

    def write(self, told: Told) -> None:
        self.head()
        self.reading.read(told.lines, told.horizon)
        self.flush(self.reading.end)
        self.out.write('\n]}\n')

    def head(self) -> None:
        self.out.write(f'{{"displayTimeUnit":"ns","otherData":{{"tick_ns":"{self.tick}"}},"traceEvents":[\n')
        for core, own in self.system.by_core().items():
            self.name('process_name', core, WHOLE_CORE, name=f'core {core}')
            self.name('process_sort_index', core, WHOLE_CORE, sort_index=core)
            for place, thread in enumerate(own):
                self.name('thread_name', core, track(thread), name=thread.name)
                self.name('thread_sort_index', core, track(thread), sort_index=2 * place)
                if thread.deadline:
                    self.name('thread_name', core, late_track(thread), name=f'{thread.name}: late')
                    self.name('thread_sort_index', core, late_track(thread), sort_index=2 * place + 1)

    # ---- events

    def put(self, event: str) -> None:
        self.out.write(self.separator + event)
        self.separator = ',\n'

    def at(self, ns: int) -> str:
        """A moment in microseconds, exactly."""
        whole, rest = divmod(ns, 1000)
        return f'{whole}.{rest:03d}'.rstrip('0') if rest else str(whole)

    def name(self, kind: str, pid: int, tid: int, **words: object) -> None:
        self.put(f'{{"ph":"M","name":"{kind}","pid":{pid},"tid":{tid},"args":{json.dumps(words)}}}')

    def slice(self, name: str, category: str, thread: Thread, tid: int, begin: int, end: int, colour: str, words: str) -> None:
        at, length = self.at(begin * self.tick), self.at((end - begin) * self.tick)
        where = f'"pid":{thread.core},"tid":{tid},"ts":{at},"dur":{length}'
        self.put(f'{{"ph":"X","name":"{name}","cat":"{category}",{where},"cname":"{colour}","args":{{{words}}}}}')

    def instant(self, name: str, category: str, core: int, thread: Optional[Thread], at: int) -> None:
        scope, tid = ('t', track(thread)) if thread else ('p', WHOLE_CORE)
        self.put(f'{{"ph":"i","s":"{scope}","name":"{name}","cat":"{category}","pid":{core},"tid":{tid},"ts":{self.at(at * self.tick)},"args":{{}}}}')

    # ---- what is heard

    def stood(self, stood: Stood) -> None:
        if stood.standing not in (PENDING, DONE):
            tells_why = stood.standing == THROTTLED or stood.why == 'call'
            words = f'"ticks":{stood.end - stood.begin}' + (f',"after":"{stood.why}"' if tells_why else '')
            self.slice(STANDINGS[stood.standing], 'standing', stood.thread, track(stood.thread), stood.begin, stood.end, COLOURS[stood.standing], words)

    def round_ended(self, ended: Round) -> None:
        if ended.is_missed:
            words = f'"round":{ended.number},"activated":{ended.activated},"response":{ended.response},"deadline":{ended.thread.deadline}'
            self.late(f'round {ended.number} missed by {ended.end - ended.due}', ended, words)

    def round_open(self, open_round: Round) -> None:
        if open_round.is_overdue:
            self.late('overdue', open_round, f'"activated":{open_round.activated},"deadline":{open_round.thread.deadline}')

    def late(self, name: str, one: Round, words: str) -> None:
        """From the deadline on, or the round's own beginning where it was queued beyond it: rounds of a thread do not overlap, activations may."""
        begin = max(one.due, one.begun)
        if begin < one.end:
            self.slice(name, 'late', one.thread, late_track(one.thread), begin, one.end, BAD, words)

    def posted(self, post: Post) -> None:
        if self.newest and self.newest[0].arrived < post.arrived:
            self.flush(post.arrived)
        # a thread that has not begun, or is done, has no slice in which a flow could end
        if post.maker and post.thread and self.reading.accounts[post.thread.name].standing not in (PENDING, DONE):
            self.newest.append(post)
        if post.source:
            self.instant(f'interrupt {post.source}', 'interrupt', post.core, post.thread, post.arrived)
        if post.outcome == LOST:
            self.instant(f'lost {post.note}', 'lost', self.system.home_of[post.note], post.thread, post.arrived)

    def flush(self, now: int) -> None:
        """Writes the flows of the newest moment, once a later one has come: at the horizon itself there is no slice."""
        for post in self.newest:
            if post.maker and post.thread and post.arrived < now and not self.is_done(post.thread, post.arrived):
                self.flow(post, post.maker, post.thread)
        self.newest = []

    def is_done(self, thread: Thread, moment: int) -> bool:
        account = self.reading.accounts[thread.name]
        return account.standing == DONE and account.since <= moment

    def flow(self, post: Post, maker: Thread, thread: Thread) -> None:
        self.flows += 1
        same = f'"name":"{post.note}","cat":"signal","id":{self.flows}'
        begin, end = self.at(post.made * self.tick - self.quarter), self.at(post.arrived * self.tick + self.quarter)
        self.put(f'{{"ph":"s",{same},"pid":{post.core},"tid":{track(maker)},"ts":{begin},"args":{{"badge":{post.badge}}}}}')
        self.put(f'{{"ph":"f","bp":"e",{same},"pid":{thread.core},"tid":{track(thread)},"ts":{end},"args":{{"outcome":"{post.outcome}"}}}}')

    def ordered(self, context: Context, moment: int) -> None:
        self.instant(f'order {context.name}', 'order', context.core, None, moment)

    def holds(self, holding: Holding) -> None:
        name, usable = holding.thread.context.name, sum(amount for date, amount in holding.refills if date <= holding.moment)
        if self.usable.get(name) != usable:
            self.usable[name] = usable
            where = f'"pid":{holding.thread.core},"tid":{WHOLE_CORE},"ts":{self.at(holding.moment * self.tick)}'
            self.put(f'{{"ph":"C","name":"budget {name}",{where},"args":{{"usable":{usable}}}}}')


def main() -> None:
    words = Words(__doc__).takes_rows()
    words.add_argument('--tick-ns', type=nanoseconds, default=TICK_NS, metavar='N', help='a tick is N nanoseconds (default: %(default)s)')
    words.add_argument('--budgets', action='store_true', help='adds a counter of what each context may use')
    words.writes('-o', '--output', metavar='FILE', help='where the trace goes (default: standard output)')
    asked = words.asked()
    with source.told(asked, asked.horizon) as told, output.written(asked.output) as out:
        Trace(told.system, out, asked.tick_ns, asked.budgets).write(told)
