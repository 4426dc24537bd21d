"""The scale of a picture: where a moment stands, and how moments are written along the edge."""
from __future__ import annotations

import decimal
from dataclasses import dataclass
from typing import Optional

# a unit of time is used up to as many microseconds, and has as many microseconds
UNITS = ((decimal.Decimal(10_000), decimal.Decimal(1), 'µs'), (decimal.Decimal(10_000_000), decimal.Decimal(1_000), 'ms'), (None, decimal.Decimal(1_000_000), 's'))
LEAST_APART = 70


def step_of(span: int, wide: float) -> int:
    """How far apart moments along the edge are: 1, 2 or 5 times a power of ten, so that their texts have room."""
    power = 1
    while True:
        for step in (power, 2 * power, 5 * power):
            if wide * step >= LEAST_APART * span:
                return step
        power *= 10


def plain(number: decimal.Decimal) -> str:
    text = f'{number:,f}'
    return text.rstrip('0').rstrip('.') if '.' in text else text


def short(value: int) -> str:
    for many, letter in ((10**9, 'G'), (10**6, 'M'), (10**3, 'k')):
        if value >= 10 * many and value % (many // 10) == 0 or value >= many and value % many == 0:
            return f'{value / many:g}{letter}'
    return str(value)


def unit(last: decimal.Decimal) -> tuple[decimal.Decimal, str]:
    """How many microseconds the unit of a picture has that ends so many microseconds after its begin, and its name."""
    return next((many, name) for least_above, many, name in UNITS if least_above is None or last < least_above)


@dataclass(frozen=True)
class Unit:
    """The one unit in which a picture or a page writes times and lengths: ticks, or a unit of which a tick is this part."""

    tick: Optional[decimal.Decimal] = None
    name: str = ''

    def bare(self, ticks: int) -> str:
        """Returns the number alone."""
        return f'{ticks:,}' if self.tick is None else plain(ticks * self.tick)

    def text(self, ticks: int) -> str:
        return self.bare(ticks) if self.tick is None else f'{self.bare(ticks)} {self.name}'

    def short(self, ticks: int) -> str:
        """Returns a bare number for a label: 10k for 10,000 ticks."""
        return short(ticks) if self.tick is None else self.bare(ticks)


TICKS = Unit()


@dataclass(frozen=True)
class Clock:
    """The length of a tick in microseconds, if it is given."""

    tick_us: Optional[decimal.Decimal] = None

    def unit(self, last: int) -> Unit:
        """Returns the unit for a run that ends at this time."""
        if self.tick_us is None:
            return TICKS
        many, name = unit(last * self.tick_us)
        return Unit(self.tick_us / many, name)


@dataclass(frozen=True)
class Scale:
    """From moments to places: `left` is where `begin` stands."""

    begin: int
    end: int
    left: int
    wide: float

    @property
    def tick(self) -> float:
        return self.wide / max(1, self.end - self.begin)

    def x(self, moment: float) -> float:
        return self.left + (moment - self.begin) * self.tick

    def moments(self) -> range:
        """The moments along the edge."""
        step = step_of(max(1, self.end - self.begin), self.wide)
        return range(-(-self.begin // step) * step, self.end + 1, step)
