"""The lines of a schedule, each tested for its shape."""
from __future__ import annotations

from collections.abc import Iterable, Iterator

from .faults import Fault

# how many words a row of each kind has, its moment and core among them
SHAPES = {
    'release': (4,), 'run': (4,), 'stop': (6, 8), 'signal': (6,), 'arrive': (7,), 'wake': (6,), 'hold': (5,), 'got': (6,), 'round': (6,), 'order': (4,),
    'interrupt': (6,), 'enter': (5,), 'leave': (5,),
}
# the lines of `--show reports`, which are passed over: their first word, and how many they have
REPORTS = {('thread', 20), ('core', 6)}
SHOWN = 60

# a row: the number of its line, its moment, its core, what happened, and all of its words
Row = tuple[int, int, int, str, list[str]]


def no_row(number: int, words: list[str]) -> Fault:
    said = ' '.join(words)
    said = ''.join(letter if letter.isprintable() else '?' for letter in said[:SHOWN])
    return Fault(f'line {number} is no row of a schedule of this system: {said or "it is empty"}')


def rows_of(lines: Iterable[str]) -> Iterator[Row]:
    """Each row of the lines; moments never fall."""
    shapes, latest = SHAPES, 0
    for number, line in enumerate(lines, 1):
        words = line.split()
        try:
            kind = words[2]
            if len(words) in shapes[kind]:
                moment = int(words[0])
                if moment >= latest:
                    latest = moment
                    yield number, moment, int(words[1]), kind, words
                    continue
        except (IndexError, KeyError, ValueError):
            if words and (words[0], len(words)) in REPORTS:
                continue
        raise no_row(number, words)
