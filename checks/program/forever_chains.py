"""What mcscheck --forever has to write of the chains of a system, found a second time: from the file, the repetitions that it claims, and the rows that
mcsim writes of it.

It follows docs/CHECK.md, and reads rows as chain_reading.py does, origin by origin. Each claim is run on for three more periods: in each of them the
answers have to come again, as late as in the first one."""
from __future__ import annotations

import functools
import re
from collections.abc import Iterator, Sequence
from typing import NamedTuple, Optional

from checks.program.chain_reading import Answer, read_chain
from checks.program.reading import Tables, Values

# so many periods are looked at
PERIODS = 4
REPEATS = re.compile(r'chain ([\w-]+): repeats from (\d+) with period (\d+), .*')
OPEN = re.compile(r'chain ([\w-]+): no repetition found up to \d+, .*')


class ChainClaim(NamedTuple):
    """What is claimed of a chain: from which moment on its answers repeat with which period, or neither."""

    chain: str
    start: Optional[int] = None
    period: Optional[int] = None

    @property
    def repeats(self) -> tuple[int, int]:
        """The start and the period of a chain that repeats."""
        assert self.start is not None and self.period is not None
        return self.start, self.period

    def far(self, horizon: int) -> int:
        """How far the chain is run: some periods, or to the horizon up to which no repetition was found."""
        return horizon if self.start is None else self.start + PERIODS * self.repeats[1]


def chain_claims_of(text: str) -> list[ChainClaim]:
    """The claims of what the program writes, in their order."""
    claims: list[ChainClaim] = []
    for line in text.splitlines():
        if found := REPEATS.fullmatch(line):
            claims.append(ChainClaim(found[1], int(found[2]), int(found[3])))
        elif found := OPEN.fullmatch(line):
            claims.append(ChainClaim(found[1]))
    return claims


class ChainTold:
    """What is to be told of a chain, by the rows of a schedule that goes as far as its claim does."""

    def __init__(self, tables: Tables, lines: Sequence[str], claim: ChainClaim, horizon: int) -> None:
        self.claim, self.horizon, self.last = claim, horizon, claim.far(horizon)
        self.part = next(part for part in tables['chain'] if part['name'] == claim.chain)
        self.deadline: int = self.part.get('deadline', 0)
        self.reading = read_chain(tables, self.part, '\n'.join(line for line in lines if int(line.split(' ', 1)[0]) <= self.last))
        self.ended = {answer.origin: answer.moment for answer in self.reading.answers}
        self.slow_ends = [int(line.split()[0]) for line in self.reading.slow()]
        # the end of the first period, or of the search
        self.end = sum(claim.repeats) if claim.start is not None else horizon + 1

    # ---- what there is in [begin, end)

    def answers(self, begin: int, end: int) -> list[Answer]:
        return [answer for answer in self.reading.answers if begin <= answer.moment < end]

    def slow(self, begin: int, end: int) -> int:
        return sum(begin <= moment < end for moment in self.slow_ends)

    def missing(self, begin: int, end: int) -> int:
        """How many interrupts more than answers there are."""
        return sum(begin <= moment < end for moment in self.reading.interrupts) - len(self.answers(begin, end))

    def period(self, number: int) -> tuple[int, int]:
        start, period = self.claim.repeats
        return start + number * period, start + (number + 1) * period

    @functools.cached_property
    def greatest(self) -> Optional[int]:
        return max((answer.latency for answer in self.answers(0, self.end)), default=None)

    def without_answer(self, moment: int) -> list[int]:
        """The interrupts before a moment that have no answer before it."""
        return [origin for origin in self.reading.interrupts if origin < moment and self.ended.get(origin, moment) >= moment]

    def overdue_by(self, last: int) -> list[int]:
        """The interrupts that are a deadline old at some horizon up to this one, and have no answer by then."""
        dates = ((origin, origin + self.deadline) for origin in self.reading.interrupts)
        return [origin for origin, date in dates if self.deadline and date <= last and self.ended.get(origin, date + 1) > date]

    # ---- what comes again

    def broken(self) -> Iterator[str]:
        """What of the claim, and of what follows from it, three more periods contradict."""
        if self.claim.start is not None:
            start, period = self.claim.repeats
            # the turns of the horizon are taken too
            if not 0 < period or start + period > self.horizon + 1:
                yield f'a period of {period} from {start} on was looked for up to {self.horizon}'
            for number in range(1, PERIODS):
                yield from self.differing(number)
            greatest = max((answer.latency for answer in self.reading.answers), default=None)
            if greatest != self.greatest:
                yield f'a latency of {greatest}, and the greatest is {self.greatest}'
            late = self.slow_ends or self.overdue_by(self.last)
            if late and not list(self.findings()):
                yield f'nothing is found, and an answer is late: {late[0]}'

    def differing(self, number: int) -> Iterator[str]:
        """What of a period is otherwise than in the first one."""
        ago = number * self.claim.repeats[1]
        first, later = (self.answers(*self.period(place)) for place in (0, number))
        one, other = [(answer.moment + ago, answer.latency) for answer in first], [(answer.moment, answer.latency) for answer in later]
        if one != other:
            yield f'the answers of period {number} are {other}, and not {one}'
        for many in (self.slow, self.missing):
            if many(*self.period(number)) != many(*self.period(0)):
                yield f'{many.__name__} in period {number}: {many(*self.period(number))}, and in the first one {many(*self.period(0))}'

    # ---- its lines

    def often(self, kind: str) -> Values:
        many = self.slow if kind == 'slow' else self.missing
        if self.claim.start is None:
            return {'kind': kind, 'chain': self.claim.chain, 'so_far': many(0, self.end)}
        return {'kind': kind, 'chain': self.claim.chain, 'each_period': many(*self.period(0)), 'before': many(0, self.claim.start)}

    def is_left(self) -> bool:
        """Whether at some horizon an interrupt has no answer, a deadline after it came."""
        if not self.deadline:
            return False
        if self.claim.start is None:
            return self.reading.left(self.horizon) is not None
        start, period = self.claim.repeats
        goes_on = self.without_answer(start + period) == [origin + period for origin in self.without_answer(start)]
        return bool(self.overdue_by(self.end - 1)) or not goes_on

    def findings(self) -> Iterator[Values]:
        slow, missing = self.often('slow'), self.often('unanswered')
        is_slow, is_some = (any(each.get(key) for key in ('each_period', 'before', 'so_far')) for each in (slow, missing))
        if is_slow:
            yield slow
        # if none is missing in the end, slow answers tell that some were
        if self.is_left() and (is_some or not is_slow):
            yield missing

    def head(self) -> Values:
        """How the answers repeat, or how many there are so far."""
        start, period = self.claim.start, self.claim.period
        repeats: Values = {'horizon': self.horizon} if start is None else {'from': start, 'period': period}
        answers = len(self.answers(*((0, self.end) if start is None else self.period(0))))
        return {'kind': 'chain', 'chain': self.claim.chain, **repeats, 'greatest': self.greatest, 'answers': answers, 'deadline': self.deadline or None}

    def values(self) -> list[Values]:
        return [self.head(), *self.findings()]

    @property
    def is_open(self) -> bool:
        """Whether it has a deadline, and it is not known whether that is ever missed."""
        return self.claim.start is None and self.deadline > 0


def line_of(values: Values) -> str:
    """The values of a chain as a line of text."""
    greatest = '-' if values['greatest'] is None else values['greatest']
    if 'horizon' in values:
        return f'chain {values["chain"]}: no repetition found up to {values["horizon"]}, greatest latency {greatest} so far, answers {values["answers"]} so far'
    return (
        f'chain {values["chain"]}: repeats from {values["from"]} with period {values["period"]}, greatest latency {greatest}, '
        f'answers {values["answers"]} in each period'
    )


def chains_told_of(tables: Tables, text: str, claims: Sequence[ChainClaim], horizon: int) -> list[ChainTold]:
    """What is to be told of each chain, if there is a claim of each."""
    lines = text.splitlines()
    return [ChainTold(tables, lines, claim, horizon) for claim in claims]
