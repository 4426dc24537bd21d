"""Places of a system's tables that a sweep sets, by names and never by text, and the values that they are given."""
from __future__ import annotations

import re
from collections.abc import Sequence
from dataclasses import dataclass
from typing import Any, Union

from . import digits, named
from .faults import Fault

Tables = dict[str, Any]
Value = Union[int, str]

TOP = ('delay', 'call', 'min_budget')
KEYS = {
    'context': ('core', 'budget', 'period', 'extra_refills', 'mode'),
    'thread': ('priority', 'start', 'rounds', 'deadline', 'script'),
    'note': ('core', 'word'),
    'order': ('at', 'core', 'budget', 'period', 'extra_refills'),
    'link': ('delay',),
    'server': ('core', 'priority', 'script'),
    'source': ('badge', 'period', 'start', 'count', 'at'),
    'chain': ('badges', 'deadline'),
}
SCRIPT = 'script'
# the list of a source; the `at` of an order is one number
DATES = ('source', 'at')
# items whose last part is a number
NUMBERED = ('compute', 'signal', 'on', 'call')
RANGE = re.compile(r'[0-9]+:[0-9]+(?::[0-9]+)?')


@dataclass(frozen=True)
class Place:
    """A place of a system's tables, such as `context.control.budget`: a section, and in it a row by its number, a key of the row and an item of a script
    or a date."""

    text: str
    section: str
    row: int = 0
    key: str = ''
    item: int = 0

    def put(self, edited: Tables, value: Value) -> None:
        """Sets the place in other tables of the same form."""
        if not self.key:
            edited[self.section] = value
            return
        row = edited[self.section][self.row]
        if self.key == SCRIPT:
            words = row[SCRIPT][self.item].split()
            row[SCRIPT][self.item] = ' '.join([*words[:-1], str(value)])
        elif (self.section, self.key) == DATES:
            row[self.key][self.item] = value
        else:
            row[self.key] = value

    @property
    def takes_words(self) -> bool:
        return self.key == 'mode'


def place_of(text: str, tables: Tables) -> Place:
    """The place that a text names; a Fault where there is none."""
    section, *rest = text.split('.')
    if section in TOP and not rest:
        return Place(text, section)
    if section not in KEYS:
        raise Fault(f'{text}: {section!r} is none of {", ".join((*KEYS, *TOP))}')
    if len(rest) < 2:
        raise Fault(f'{text}: a place is {section}.NAME.KEY')
    row, key = row_of(text, section, rest[0], tables), rest[1]
    if key not in KEYS[section]:
        raise Fault(f'{text}: the key {key!r} of a {section} is none of {", ".join(KEYS[section])}')
    if key == SCRIPT:
        return Place(text, section, row, key, item_of(text, rest[2:], tables[section][row][SCRIPT]))
    if (section, key) == DATES:
        return Place(text, section, row, key, date_of(text, rest[2:], tables[section][row].get(key, [])))
    if len(rest) > 2:
        raise Fault(f'{text}: nothing stands behind {section}.{rest[0]}.{key}')
    return Place(text, section, row, key)


def row_of(text: str, section: str, name: str, tables: Tables) -> int:
    rows = tables.get(section, [])
    if section == 'order':
        names = [str(place) for place in range(1, len(rows) + 1)]
    elif section == 'link':
        names = [f'{row["maker"]}-{row["home"]}' for row in rows]
    else:
        names = [row['name'] for row in rows]
    if name not in names:
        raise Fault(f'{text}: there is no {section} {name!r}: {named.known(name, names)}')
    return names.index(name)


def item_of(text: str, rest: list[str], script: list[str]) -> int:
    """The item of a script whose number is set."""
    number = digits.number(rest[0], 1, len(script)) if len(rest) == 1 else None
    if number is None:
        raise Fault(f'{text}: behind script stands the number of an item, 1 to {len(script)}')
    if script[number - 1].split()[0] not in NUMBERED:
        raise Fault(f'{text}: the item {script[number - 1]!r} has no number')
    return number - 1


def date_of(text: str, rest: list[str], dates: list[int]) -> int:
    """The number of a source that is set."""
    number = digits.number(rest[0], 1, len(dates)) if len(rest) == 1 else None
    if number is None:
        raise Fault(f'{text}: behind at stands the place of a number, 1 to {len(dates)}' if dates else f'{text}: the source has no list `at`')
    return number - 1


def values_of(place: Place, text: str) -> Sequence[Value]:
    """A:B:STEP with B in it, A:B, or a list with commas."""
    wanted = Fault(f'{place.text}={text}: values are A:B, A:B:STEP with A at most B, or a list with commas, of numbers up to 2^63-1')
    if RANGE.fullmatch(text):
        numbers = [digits.number(part) for part in text.split(':')]
        begin, end, step = numbers if len(numbers) == 3 else (*numbers, 1)
        if begin is None or end is None or not step or begin > end:
            raise wanted
        return range(begin, end + 1, step)
    words = text.split(',')
    if place.takes_words:
        return words
    listed = [number for number in map(digits.number, words) if number is not None]
    if len(listed) < len(words):
        raise wanted
    return listed


def setting(text: str, tables: Tables) -> tuple[Place, Sequence[Value]]:
    """A place with its values, as `PLACE=VALUES`."""
    place, is_there, values = text.partition('=')
    if not is_there or not values:
        raise Fault(f'{text}: a setting is PLACE=VALUES')
    found = place_of(place, tables)
    return found, values_of(found, values)
