#!/usr/bin/env python3
"""Checks that each line `overdue` and `untaken` is a fact, on 300 random systems in which threads share notifications.

With --whole it takes 2,000. At each time from 0 to 79 the second reading of the rows (checks/program/reading.py) tells what is found, and the run goes on to 600. A line is a fact if the
round or the word that it tells of ends with a miss of that activation, or is told at the end still; no two lines of one time end with the same miss. At
some of the times the lines are those of mcscheck. The dates of rows `stop` are those of the budgets (budgets.py), by which the reading knows how a thread stands.

Seven other definitions of what is due are tried as well, and each has to tell what is no fact: the test would see them. Then come systems of
checks/program/shared, whose lines are known. What was seen nowhere is a failure."""
from __future__ import annotations

import collections
import itertools
import pathlib
import random
import sys
import tempfile
import tomllib
from collections.abc import Callable, Iterator
from typing import NamedTuple, Optional

sys.dont_write_bytecode = True
sys.path[0] = str(pathlib.Path(__file__).resolve().parents[2])
from checks import common
from checks.common import Count
from checks.program import reading
from checks.program.reading import Past, Reading, Row, Tables
from checks.random_pools import pool_of
from checks.random_systems import text_of

SHARED = pathlib.Path(__file__).resolve().parent / 'shared'
# horizons that are looked at, and how far the run goes on
BOUND, FAR = 80, 600
WHOLE = 2000
# how often the lines of mcscheck are looked at for each system
ASKED = 2
MISSED, TOLD = 'missed', 'told at the end'
SEEN = (
    f'overdue {MISSED}', f'overdue {TOLD}', f'untaken {MISSED}', f'untaken {TOLD}', 'untaken and taken by a round that never ends', 'untaken by several',
    'a spare worker', 'a worker that is done', 'a word that is nobody\'s', 'version 3', 'an order', 'lines of mcscheck',
)


class Line(NamedTuple):
    """What is told at a horizon: a round of a thread by its number, or a word of a notification (number 0), since when, and who may take the word."""

    name: str
    since: int
    number: int = 0
    by: tuple[str, ...] = ()

    @property
    def kind(self) -> str:
        return 'overdue' if self.number else 'untaken'


class Fate(NamedTuple):
    """What became of a line: whether it was a fact, how it ended, and with which miss, if it ended so."""

    is_fact: bool
    how: str
    miss: Optional[tuple[str, int]] = None


def overdue(found: Reading) -> Iterator[Line]:
    for thread in found.with_deadline():
        if late := found.overdue(thread):
            yield Line(thread, late.since, found.ends(thread) + 1)


# ---- definitions of the deadline of a notification

# what is told of words at a horizon
Telling = Callable[[Reading], Iterator[Line]]


def untaken(found: Reading) -> Iterator[Line]:
    """As the checker has it."""
    for note in found.notes:
        if found.untaken(note):
            yield Line(note, since_of(found, note), by=tuple(found.takers(note)))


def since_of(found: Reading, note: str) -> int:
    since = found.whole.word(note)[1]
    assert since is not None
    return since


def first_takers(found: Reading, note: str) -> list[str]:
    return [thread for thread in found.takers(note) if found.first_wait(thread) == note]


def aged(due: Callable[[Reading, str], Optional[int]]) -> Telling:
    """What is told if a word is due by another definition, and leaves somebody something to do."""
    def told(found: Reading) -> Iterator[Line]:
        for note in found.notes:
            since, deadline = found.whole.word(note)[1], due(found, note)
            if since is not None and deadline is not None and found.horizon - since >= deadline:
                yield Line(note, since, by=tuple(found.takers(note)))
    return told


def least(found: Reading, note: str) -> Optional[int]:
    return min(filter(None, map(found.deadline, first_takers(found, note))), default=None)


def greatest(found: Reading, note: str) -> Optional[int]:
    return max(filter(None, map(found.deadline, first_takers(found, note))), default=None)


def greatest_of_all(found: Reading, note: str) -> Optional[int]:
    """Later waits are let be; each that waits first needs a deadline."""
    deadlines = [found.deadline(thread) for thread in first_takers(found, note)]
    return max(deadlines, default=None) if all(deadlines) else None


def greatest_with_deadline(found: Reading, note: str) -> Optional[int]:
    """Those without a deadline are let be; nobody waits for it later."""
    return greatest(found, note) if all(found.waits_alone(thread, note) for thread in found.takers(note)) else None


def of_the_living(found: Reading, note: str) -> Optional[int]:
    """As the checker has it, of threads that are not done."""
    takers = [thread for thread in found.takers(note) if not found.whole.is_done(thread)]
    are_due = all(found.deadline(thread) and found.waits_alone(thread, note) for thread in takers)
    return max(map(found.deadline, takers), default=None) if are_due else None


def held(found: Reading) -> Iterator[Line]:
    """A word that is held is an activation of each thread that waits for it first."""
    for thread in found.with_deadline():
        note = found.first_wait(thread)
        if note is None or found.whole.is_done(thread) or found.round_at(found.whole, thread, found.horizon) or not found.is_held(thread, note):
            continue
        if found.deadline(thread) <= found.horizon - since_of(found, note):
            yield Line(note, since_of(found, note), by=(thread,))


REJECTED: dict[str, Telling] = {
    'the least deadline of those that wait first': aged(least),
    'the greatest of those that wait first and have one': aged(greatest),
    'the greatest of those that wait first, if each has one': aged(greatest_of_all),
    'the greatest of those that have one, if nobody waits later': aged(greatest_with_deadline),
    'the greatest of those that are not done': aged(of_the_living),
    'the greatest, if the word leaves somebody something to do': aged(Reading.due),
    'each that waits first is overdue': held,
}


# ---- the run goes on

class Course:
    """A schedule that goes on beyond all horizons that are looked at."""

    def __init__(self, far: Reading) -> None:
        self.far = far
        self.rounds = {(row.what[1], int(row.what[2])): row for row in far.rows if row.kind == 'round'}

    def of_round(self, thread: str, number: int, since: int) -> Fate:
        """What becomes of a round that was activated."""
        if row := self.rounds.get((thread, number)):
            is_miss = 0 < self.far.deadline(thread) < row.moment - since and self.far.ended_by(row).since == since
            return Fate(is_miss, MISSED if is_miss else 'in time', (thread, number))
        late = self.far.overdue(thread)
        is_told = late is not None and late.since == since and self.far.ends(thread) + 1 == number
        return Fate(is_told, TOLD if is_told else 'no longer told')

    def of_word(self, line: Line, horizon: int, tells: Telling) -> Fate:
        """What becomes of a word that was held at a horizon."""
        taken = next((row for row in self.far.schedule.of_note[line.name] if row.kind == 'got' and row.moment > horizon), None)
        if taken is None:
            is_told = any((told.name, told.since) == (line.name, line.since) and set(told.by) == set(line.by) for told in tells(self.far))
            return Fate(is_told, TOLD if is_told else 'no longer told')
        return self.of_taking(line, taken)

    def of_taking(self, line: Line, taken: Row) -> Fate:
        """What becomes of the round that the word begins, if one of those that were named took it and it begins one."""
        thread = taken.what[1]
        begun = self.far.round_at(Past(self.far.schedule, taken.place + 1), thread, taken.moment)
        if thread not in line.by:
            return Fate(False, 'taken by another')
        if begun is None or not begun.rows or begun.rows[0] != taken or self.far.first_wait(thread) != line.name:
            return Fate(False, 'taken within a round')
        if not self.far.deadline(thread):
            return Fate(False, 'taken without a deadline')
        ended = sum(row.kind == 'round' for row in Past(self.far.schedule, taken.place).of_thread(thread))
        fate = self.of_round(thread, ended + 1, begun.since)
        return fate._replace(how='and taken by a round that never ends') if fate.how == TOLD else fate

    def of_line(self, line: Line, horizon: int, tells: Telling) -> Fate:
        return self.of_round(line.name, line.number, line.since) if line.number else self.of_word(line, horizon, tells)


# ---- systems whose lines are known, by horizon: all of `miss`, `overdue`, `untaken`, `never` and `unjudged`

KNOWN: dict[str, dict[int, str]] = {
    'pool_overdue_and_never_missed': {101: '', 102: '', 103: '', 104: ''},
    'pool_one_word_two_overdue': {
        19: '19 0 unjudged Second deadline 12 activated -',
        20: '20 0 untaken work by First,Second word 1 age 12 deadline 12 set 8\n20 0 unjudged Second deadline 12 activated -',
        21: '21 0 overdue Second round 1 age 13 deadline 12 activated 8 queued 12 ready 0 running 1 throttled 0 blocked 0 server 0',
    },
    'queued_is_budget': {40: '38 0 miss A round 2 response 26 deadline 10 activated 12 queued 0 ready 0 running 4 throttled 22 blocked 0 server 0'},
    'pool_slower_deadline_in_time': {
        6: '6 0 unjudged Easy deadline 20 activated -', 10: '10 0 unjudged Easy deadline 20 activated 4', 30: '',
    },
    'pool_taken_within_a_round': {9: '9 0 unjudged Server deadline 20 activated 9', 30: ''},
    'pool_worker_is_done': {
        25: '15 0 miss Worker round 1 response 13 deadline 5 activated 2 queued 0 ready 0 running 12 throttled 1 blocked 0 server 0\n'
            '25 0 overdue Other round 1 age 20 deadline 5 activated 5 queued 0 ready 9 running 11 throttled 0 blocked 0 server 0\n'
            '25 0 untaken work by Worker,Other word 1 age 15 deadline 5 set 10',
        26: '15 0 miss Worker round 1 response 13 deadline 5 activated 2 queued 0 ready 0 running 12 throttled 1 blocked 0 server 0\n'
            '26 0 miss Other round 1 response 21 deadline 5 activated 5 queued 0 ready 9 running 12 throttled 0 blocked 0 server 0\n'
            '26 0 untaken work by Worker,Other word 1 age 16 deadline 5 set 10',
    },
    'pool_that_starves': {
        20: '20 0 overdue B round 1 age 13 deadline 9 activated 7 queued 0 ready 13 running 0 throttled 0 blocked 0 server 0',
        60: '60 0 overdue B round 1 age 53 deadline 9 activated 7 queued 0 ready 53 running 0 throttled 0 blocked 0 server 0\n'
            '60 0 untaken jobs by A,B word 1 age 48 deadline 9 set 12',
    },
    'two_rounds_overdue': {
        45: '45 0 overdue T round 1 age 34 deadline 2 activated 11 queued 0 ready 0 running 34 throttled 0 blocked 0 server 0\n'
            '45 0 untaken n by T word 1 age 24 deadline 2 set 21',
    },
    'never_cannot_be_asked': {45: '45 0 never T deadline 2'},
    'word_that_no_handler_takes': {13: '13 0 unjudged D deadline 3 activated 12', 20: ''},
    'shared_wait_is_open': {100: ''},
    'shared_wait_one_core': {100: ''},
}
TOLD_KINDS = ('miss', 'overdue', 'untaken', 'never', 'unjudged')


def lines_of(text: str) -> str:
    """Those lines of what the checker writes that tell of deadlines."""
    words = ((line, line.split()) for line in text.splitlines())
    return '\n'.join(line for line, (first, *rest) in words if first.isdigit() and rest[1] in TOLD_KINDS)


class Trial:
    """The two programs, and what the systems have shown."""

    def __init__(self, simulator: pathlib.Path, checker: pathlib.Path) -> None:
        self.simulator, self.checker = simulator, checker
        self.count = Count()
        self.seen: collections.Counter[str] = collections.Counter()
        # of each definition the lines that it tells, and those that are no facts, by what became of them
        self.lines: collections.Counter[str] = collections.Counter()
        self.wrong: dict[str, collections.Counter[str]] = {name: collections.Counter() for name in REJECTED}

    def reading(self, text: str, horizon: int) -> Optional[Reading]:
        ran = common.run([self.simulator, '--horizon', str(horizon)], text.encode())
        return None if ran.status else reading.Reading(tomllib.loads(text), ran.stdout.decode(), horizon)

    def known(self) -> None:
        for name, wanted in KNOWN.items():
            text = (SHARED / f'{name}.toml').read_text()
            for horizon, lines in wanted.items():
                found = self.reading(text, horizon)
                told = lines_of(found.wanted().text) if found else 'it is refused'
                self.count.expect(f'{name} --horizon {horizon}: {told!r}', told == lines)
                self.is_of_checker(name, text, found, horizon)

    def is_of_checker(self, name: str, text: str, found: Optional[Reading], horizon: int) -> None:
        """The checker tells what the reading does."""
        ran = common.run([self.checker, '--horizon', str(horizon), '--show=findings'], text.encode())
        wanted = lines_of(found.wanted().text) if found else ''
        told = lines_of(ran.stdout.decode())
        self.seen['lines of mcscheck'] += bool(told)
        self.count.expect(f'{name} --horizon {horizon}: mcscheck has {told!r}, and not {wanted!r}', told == wanted)

    def look(self, name: str, text: str, rng: random.Random) -> None:
        """Tries a system at each horizon."""
        far = self.reading(text, FAR)
        if far is None:
            return
        course = Course(far)
        wrong = [f'{row}: by the budgets the date is {date}' for row, date in zip(far.rows, far.schedule.dates) if row.kind == 'stop' and date != row.until]
        for horizon in range(BOUND):
            found = far.up_to(horizon)
            wrong += [f'at {horizon} {line}: {why}' for line, why in self.broken(course, found)]
            for variant, tells in REJECTED.items():
                self.reject(variant, tells, course, found)
        if wrong:
            file = pathlib.Path(tempfile.gettempdir(), f'facts-{name}.toml')
            file.write_text(text)
            name = str(file)
        self.count.expect(f'{name}: {wrong[:3]}', not wrong)
        for horizon in (rng.randrange(BOUND) for _ in range(ASKED)):
            self.is_of_checker(name, text, self.reading(text, horizon), horizon)
        self.tell(tomllib.loads(text), far)

    def broken(self, course: Course, found: Reading) -> Iterator[tuple[Line, str]]:
        """The lines at a horizon that are no facts, and those that end with the same miss as another."""
        ends: set[tuple[str, int]] = set()
        for line in itertools.chain(overdue(found), untaken(found)):
            fate = course.of_line(line, found.horizon, untaken)
            self.seen[f'{line.kind} {fate.how}'] += 1
            self.seen['untaken by several'] += len(line.by) > 1
            self.lines[line.kind] += 1
            if not fate.is_fact:
                yield line, fate.how
            elif fate.miss in ends:
                yield line, 'it ends with a miss of another line'
            ends |= {fate.miss} if fate.miss else set()

    def reject(self, name: str, tells: Telling, course: Course, found: Reading) -> None:
        for line in tells(found):
            fate = course.of_line(line, found.horizon, tells)
            self.lines[name] += 1
            if not fate.is_fact:
                self.wrong[name][fate.how] += 1

    def tell(self, tables: Tables, far: Reading) -> None:
        """Counts what was seen."""
        self.seen['version 3'] += tables['version'] == 3
        self.seen['an order'] += 'order' in tables
        for thread in far.with_deadline():
            self.seen['a worker that is done'] += far.whole.is_done(thread)
            self.seen['a spare worker'] += far.is_unjudged(thread) and far.round_at(far.whole, thread, FAR) is None
        given = (row for row in far.rows if row.kind in ('got', 'wake') and far.first_wait(row.what[1]) == row.what[2])
        self.seen['a word that is nobody\'s'] += any(not far.begins(row) for row in given)

    def end(self) -> None:
        print(f'lines: overdue {self.lines["overdue"]}, untaken {self.lines["untaken"]}')
        for name, wrong in self.wrong.items():
            said = ', '.join(f'{how} {many}' for how, many in wrong.items())
            print(f'rejected: {name}: lines {self.lines[name]}, no facts {wrong.total()}: {said}')
            self.count.expect(f'no system shows that this is wrong: {name}', wrong.total() > 0)
        self.count.expect_all(self.seen, SEEN)
        self.count.end()


def main() -> None:
    parser = common.asking_random(__doc__, 300)
    parser.add_argument('--whole', action='store_true', help=f'{WHOLE} systems')
    words = parser.parse_args()
    simulator = common.built_program(words.program)
    trial = Trial(simulator, common.beside(simulator, 'mcscheck'))
    trial.known()
    # what the known systems show does not count
    trial.seen.clear()
    for number in range(WHOLE if words.whole else words.systems):
        rng = random.Random(f'facts {words.seed} {number}')
        trial.look(f'{words.seed}-{number}', text_of(pool_of(rng)), rng)
    trial.end()


if __name__ == '__main__':
    main()
