"""Counts over a whole run for each thread and notification, and what is to be found fault with."""
from __future__ import annotations

import collections
from typing import NamedTuple, Optional

from .reading import LOST, MERGED, STANDINGS, Listener, Post, Round, Stood, Untaken
from .scale import TICKS, Unit
from .system import System, Thread

MISS, OVERDUE, UNTAKEN, LOSS, NEVER = 'miss', 'overdue', 'untaken', 'lost', 'never'
# findings that are kept; all are counted
KEPT = 500


class Finding(NamedTuple):
    """What is wrong, from where to where; the thread in whose lane it is seen, if scripts tell. `form` has a place for each of the times."""

    kind: str
    core: int
    begin: int
    end: int
    name: str
    thread: Optional[Thread]
    form: str
    times: tuple[int, ...] = ()

    def said(self, unit: Unit = TICKS) -> str:
        """Returns what is wrong in words, with its times in a unit."""
        return self.form.format(*map(unit.text, self.times))


class Counts:
    """What is counted of a thread. Responses are from the activation on."""

    __slots__ = ('stood', 'rounds', 'greatest', 'missed', 'is_overdue', 'is_never')

    def __init__(self) -> None:
        self.stood = [0] * len(STANDINGS)
        self.rounds = 0
        self.greatest = 0
        self.missed = 0
        self.is_overdue = self.is_never = False


class Tally(Listener):
    """Counts while it listens; the first findings are kept in their order."""

    def __init__(self, system: System) -> None:
        self.system = system
        self.of = {name: Counts() for name in system.threads}
        self.lost: collections.Counter[str] = collections.Counter()
        self.merged: collections.Counter[str] = collections.Counter()
        # notifications whose word is untaken
        self.notes_untaken: list[str] = []
        self.found: collections.Counter[str] = collections.Counter()
        self.findings: list[Finding] = []

    def find(self, finding: Finding) -> None:
        self.found[finding.kind] += 1
        if len(self.findings) < KEPT:
            self.findings.append(finding)

    @property
    def left_out(self) -> int:
        """How many findings were counted and not kept."""
        return self.found.total() - len(self.findings)

    def summary(self) -> str:
        """The findings in one line."""
        always = [f'{self.found[kind]:,} {word}' for kind, word in ((MISS, 'missed'), (OVERDUE, 'overdue'), (LOSS, 'lost'))]
        seldom = [f'{self.found[kind]:,} {word}' for kind, word in ((UNTAKEN, 'untaken'), (NEVER, 'never activated')) if self.found[kind]]
        return ', '.join(always + seldom)

    def stood(self, stood: Stood) -> None:
        self.of[stood.thread.name].stood[stood.standing] += stood.end - stood.begin

    def round_ended(self, ended: Round) -> None:
        thread, number, activated, _, end = ended
        counts, response = self.of[thread.name], end - activated
        counts.rounds += 1
        if response > counts.greatest:
            counts.greatest = response
        if 0 < thread.deadline < response:
            counts.missed += 1
            form = f'round {number} took {{}}, deadline {{}}'
            self.find(Finding(MISS, thread.core, activated, end, thread.name, thread, form, (response, thread.deadline)))

    def round_open(self, open_round: Round) -> None:
        if open_round.is_overdue:
            thread = open_round.thread
            self.of[thread.name].is_overdue = True
            times = open_round.activated, open_round.response, thread.deadline
            form = 'activated at {} and not ended {} later, deadline {}'
            self.find(Finding(OVERDUE, thread.core, open_round.activated, open_round.end, thread.name, thread, form, times))

    def posted(self, post: Post) -> None:
        if post.outcome == LOST:
            self.lost[post.note] += 1
            said = f'badge {post.badge} was there already' + (f', for {post.thread.name}' if post.thread else '')
            self.find(Finding(LOSS, self.system.home_of[post.note], post.arrived, post.arrived, post.note, post.thread, said))
        elif post.outcome == MERGED:
            self.merged[post.note] += 1

    def untaken(self, untaken: Untaken) -> None:
        note, by, word, since, deadline, end = untaken
        self.notes_untaken.append(note)
        said = f'word {word} set at {{}} and not taken {{}} later by {" or ".join(thread.name for thread in by)}, deadline {{}}'
        self.find(Finding(UNTAKEN, self.system.home_of[note], since, end, note, by[0], said, (since, end - since, deadline)))

    def never(self, thread: Thread, horizon: int) -> None:
        self.of[thread.name].is_never = True
        form = 'it has a deadline and was not activated once up to {}'
        self.find(Finding(NEVER, thread.core, horizon, horizon, thread.name, thread, form, (horizon,)))

    def of_notes(self, counter: collections.Counter[str], thread: Thread) -> int:
        """A count of signals over the notifications on which a thread waits."""
        return sum(counter[note] for note in thread.waits)
