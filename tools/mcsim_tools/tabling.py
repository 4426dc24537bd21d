"""Tables of the objects that mcscheck writes as JSON: a head of their keys, aligned values, and no line wider than the terminal.

Columns are the keys of the objects, so a kind of line that comes along needs nothing here. A key with an underscore is a head of two lines. If a table is
too wide, columns of zeros alone are named below it. One that is still too wide becomes several below each other, each with the columns that name its
rows."""
from __future__ import annotations

import decimal
from collections.abc import Iterator, Mapping, Sequence
from dataclasses import dataclass, field
from typing import Any, Optional

from . import scale
from .colours import HEAD, WRONG, Paint
from .printable import printable

Object = Mapping[str, Any]

KIND = 'kind'
# the keys of times; others that begin with `ticks_` are times too
TIMES = frozenset((
    'moment', 'response', 'deadline', 'activated', 'begun', 'ended', 'queued', 'ready', 'running', 'throttled', 'blocked', 'budget', 'period',
    'greatest', 'least', 'p50', 'p90', 'p99', 'margin', 'unused', 'from', 'to', 'waited', 'ticks', 'until', 'charged', 'horizon', 'ends_no_round_from',
    'latency', 'origin', 'total', 'held', 'delay', 'age', 'set', 'server',
))
TICKS = 'ticks_'
# shares in millionths
SHARES = frozenset(('granted', 'used', 'grants'))
MILLIONTHS = decimal.Decimal(10_000)
# what of a row names it beside its texts
NUMBER = 'number'
# keys whose values say that something is wrong if they are above 0, or below it
WRONG_ABOVE = frozenset(('missed', 'overdue', 'untaken', 'lost', 'never', 'slow', 'unanswered', 'each_period', 'so_far'))
WRONG_BELOW = frozenset(('margin',))
# spaces between columns: two, or one if that makes fewer parts
APART = (2, 1)
NONE = '-'


@dataclass(frozen=True)
class Look:
    """How a table looks: its width at most, the unit of its times, its colours."""

    width: int = 80
    unit: scale.Unit = scale.TICKS
    paint: Paint = field(default_factory=lambda: Paint(False))


def is_time(key: str) -> bool:
    return key in TIMES or key.startswith(TICKS)


def is_wrong(key: str, value: object) -> bool:
    return isinstance(value, int) and (key in WRONG_ABOVE and value > 0 or key in WRONG_BELOW and value < 0)


def text_of(key: str, value: object, unit: scale.Unit) -> str:
    """A value as a table has it: a share as per cent, a time in the unit."""
    if value is None:
        return NONE
    if isinstance(value, int) and key in SHARES:
        return f'{value / MILLIONTHS:.4f}'.rstrip('0').rstrip('.')
    if isinstance(value, int) and is_time(key) and unit.tick is not None:
        return scale.plain(value * unit.tick).replace(',', '')
    return printable(', '.join(map(str, value)) if isinstance(value, list) else value)


def unit_of(key: str, unit: scale.Unit) -> str:
    """The unit of a column, if it has one."""
    return '%' if key in SHARES else unit.name if is_time(key) else ''


def labelled(row: Object, unit: scale.Unit) -> str:
    """The keys of an object but its kind, each with its value."""
    parts = ((key, text_of(key, value, unit), unit_of(key, unit) if isinstance(value, int) else '') for key, value in row.items() if key != KIND)
    return '  '.join(' '.join(filter(None, part)) for part in parts)


@dataclass(frozen=True)
class Column:
    """A column: the lines of its head, a text for each row, and which of them say that something is wrong."""

    key: str
    head: tuple[str, ...]
    texts: tuple[str, ...]
    are_wrong: tuple[bool, ...]
    is_text: bool

    @property
    def width(self) -> int:
        return max(map(len, (*self.head, *self.texts)))

    @property
    def names_rows(self) -> bool:
        return self.is_text or self.key == NUMBER

    def set(self, text: str) -> str:
        return text.ljust(self.width) if self.is_text else text.rjust(self.width)


def aligned(texts: Sequence[str]) -> tuple[str, ...]:
    """Numbers with the decimals of the one that has most."""
    most = max(len(text.partition('.')[2]) for text in texts)
    return tuple(text + ('.' * ('.' not in text) + '0' * (most - len(text.partition('.')[2])) if most and text != NONE else '') for text in texts)


def column_of(key: str, rows: Sequence[Object], unit: scale.Unit) -> Column:
    values = [row.get(key) for row in rows]
    is_text = any(isinstance(value, (str, list)) for value in values)
    texts = tuple(text_of(key, value, unit) for value in values)
    # a server is named by some lines, and others count the ticks before it
    head = (*key.split('_'), *filter(None, ['' if is_text else unit_of(key, unit)]))
    return Column(key, head, texts if is_text else aligned(texts), tuple(is_wrong(key, value) for value in values), is_text)


def keys_of(rows: Sequence[Object]) -> list[str]:
    """The keys of some objects, each after those that stand before it in an object."""
    keys: list[str] = []
    for row in rows:
        place = 0
        for key in row:
            if key in keys:
                place = keys.index(key) + 1
            else:
                keys.insert(place, key)
                place += 1
    return [key for key in keys if key != KIND]


def wide(columns: Sequence[Column], apart: int) -> int:
    return sum(column.width + apart for column in columns) - apart


def parts_of(columns: Sequence[Column], width: int, apart: int) -> Iterator[list[Column]]:
    """The columns in parts that are not wider than this; each but the first begins with the columns that name the rows."""
    names = [column for column in columns if column.names_rows]
    while names and 2 * wide(names, apart) > width:
        names.pop()
    part: list[Column] = []
    for column in columns:
        if part and wide([*part, column], apart) > width and not set(part) <= set(names):
            yield part
            part = [name for name in names if name is not column]
        part.append(column)
    yield part


class Table:
    """A table of the objects of one kind."""

    def __init__(self, rows: Sequence[Object], look: Look) -> None:
        self.look, self.count = look, len(rows)
        every = [column_of(key, rows, look.unit) for key in keys_of(rows)]
        self.zeros = [column.key for column in every if set(column.texts) == {'0'}] if wide(every, APART[0]) > look.width else []
        self.columns = [column for column in every if column.key not in self.zeros]

    def lines(self) -> Iterator[str]:
        ways = [(list(parts_of(self.columns, self.look.width, apart)), ' ' * apart) for apart in APART]
        parts, gap = min(ways, key=lambda way: len(way[0]))
        for part in filter(None, parts):
            yield from self.block(part, gap)
        if self.zeros:
            yield from folded(f'0{" in each" * (self.count > 1)}: {", ".join(self.zeros)}', self.look.width)

    def block(self, part: Sequence[Column], gap: str) -> Iterator[str]:
        high = max(len(column.head) for column in part)
        for at in range(high):
            # heads stand on the first row
            heads = [(column.head[at - high + len(column.head)] if at >= high - len(column.head) else '', column) for column in part]
            line = gap.join(column.set(text) for text, column in heads).rstrip()
            yield self.look.paint(line, HEAD) if at == high - 1 else line
        for row in range(self.count):
            yield gap.join(self.cell(column, row) for column in part).rstrip()

    def cell(self, column: Column, row: int) -> str:
        return self.look.paint(column.set(column.texts[row]), WRONG if column.are_wrong[row] else '')


def folded(text: str, width: int, margin: str = '  ') -> Iterator[str]:
    """A text in lines that are not wider than this, unless a word is; all but the first have a margin."""
    line: Optional[str] = None
    for word in text.split(' '):
        if line is not None and len(line) + 1 + len(word) > width:
            yield line
            line = margin + word
        else:
            line = word if line is None else f'{line} {word}'
    if line is not None:
        yield line
