"""What mcscheck --why has to write of a round, found a second time: from the file and the rows that mcsim writes of it.

It follows docs/CHECK.md and the definitions of crates/mcs_why. Who runs is looked up tick by tick, so it takes small systems alone."""
from __future__ import annotations

import json
from collections.abc import Iterator, Sequence
from typing import NamedTuple, Optional

from checks.common import Ran
from checks.program.reading import Past, Reading, Row, Values, distance, line_of

# what the words of a row are called
WORDS = {
    'release': ('thread',), 'run': ('thread',), 'stop': ('thread', 'why', 'charged'), 'signal': ('thread', 'note', 'badge'),
    'arrive': ('note', 'badge', 'from'), 'wake': ('thread', 'note', 'word'), 'hold': ('note', 'word'), 'got': ('thread', 'note', 'word'),
    'round': ('thread', 'number', 'response'), 'order': ('context',), 'interrupt': ('source', 'note', 'badge'), 'enter': ('thread', 'server'),
    'leave': ('thread', 'server'),
}
# what text says in place of a value's name
LABELS = {'number': 'round'}
# in what order the words stand in an object
ORDER = ('thread', 'context', 'source', 'why', 'charged', 'until', 'note', 'server', 'badge', 'from', 'word', 'number', 'response')
NAMES = ('thread', 'context', 'source', 'why', 'note', 'server')
MIXED = 'mcscheck: --why: not with --show, --strict, --allow-lost or --format csv\n'


class Span(NamedTuple):
    """A round that is asked about: from when to when its rows tell, when it was activated and when it began, if so, and whether it ended."""

    number: int
    begin: int
    end: int
    activated: Optional[int]
    begun: Optional[int]
    has_ended: bool

    @property
    def waited(self) -> int:
        until = self.activated if self.activated is not None else self.end if self.begun is None else self.begun
        return until - self.begin


class Rounds:
    """The rounds of a thread up to the horizon, the last of which may not have ended."""

    def __init__(self, found: Reading, thread: str) -> None:
        self.found, self.thread = found, thread
        self.rows = [row for row in found.rows if row.kind == 'round' and row.what[1] == thread]
        self.core = found.contexts[found.threads[thread]['context']]['core']

    def waited(self, past: Past) -> Optional[int]:
        """Since when the thread waited for the word that began its latest round, where it was woken by it."""
        own = [row for row in past.of_thread(self.thread) if row.kind in ('got', 'wake', 'round', 'stop')]
        last = max((place for place, row in enumerate(own) if row.kind == 'round'), default=-1)
        begins = next((place for place, row in enumerate(own) if place > last and self.found.begins(row)), None)
        if self.found.first_wait(self.thread) is None or begins is None or own[begins].kind == 'got':
            return None
        return next((row.moment for row in reversed(own[:begins]) if row.kind == 'stop'), None)

    def ended(self, row: Row) -> Span:
        past, round_ = self.found.past(row), self.found.ended_by(row)
        begin = min(round_.since, since) if (since := self.waited(past)) is not None else round_.since
        return Span(int(row.what[2]), begin, row.moment, round_.activated, round_.begun, True)

    def pending(self) -> Optional[Span]:
        """The round that has not ended at the horizon, if there is one."""
        found, horizon = self.found, self.found.horizon
        number = int(self.rows[-1].what[2]) + 1 if self.rows else 1
        if found.whole.is_done(self.thread):
            return None
        if round_ := found.round_at(found.whole, self.thread, horizon):
            since, activated = self.waited(found.whole), round_.activated
            begin = round_.begun if activated is None else activated if since is None else min(activated, since)
            return Span(number, begin, horizon, activated, round_.begun, False) if round_.begun <= horizon else None
        note = found.first_wait(self.thread)
        since = found.whole.word(note)[1] if note and found.is_held(self.thread, note) else None
        if since is not None:
            return Span(number, since, horizon, since, None, False)
        stops = [row for row in found.whole.of_thread(self.thread) if row.tells]
        if stops and stops[-1].kind == 'stop' and stops[-1].what[2] == 'wait':
            return Span(number, stops[-1].moment, horizon, None, None, False)
        # on the way to its first wait
        since = self.rows[-1].moment if self.rows else found.threads[self.thread].get('start', 0)
        return Span(number, since, horizon, None, None, False) if since <= horizon else None

    def all(self) -> list[Span]:
        pending = self.pending()
        return [*map(self.ended, self.rows), *([pending] if pending else [])]

    def runners(self, span: Span) -> Iterator[Optional[str]]:
        """Who runs on the core in each tick of the span."""
        turns = [row for row in self.found.rows if row.core == self.core and row.kind in ('run', 'stop')]
        for tick in range(span.begin, span.end):
            last = next((row for row in reversed(turns) if row.moment <= tick), None)
            yield last.what[1] if last and last.kind == 'run' else None

    def told(self, span: Span) -> Iterator[Values]:
        """What is told of the round behind its rows."""
        end = span.end if span.has_ended else None
        yield {
            'kind': 'why', 'thread': self.thread, 'number': span.number, 'from': span.begin, 'to': span.end, 'waited': span.waited,
            'activated': span.activated, 'begun': span.begun, 'ended': end,
        }
        runners = list(self.runners(span))
        yield from ({'kind': 'ran', 'thread': name, 'ticks': runners.count(name)} for name in self.found.threads if name in runners)
        yield {'kind': 'idle', 'ticks': runners.count(None)}

    def written(self, span: Span, form: str) -> str:
        rows = [row for row in self.found.rows if row.core == self.core and span.begin <= row.moment <= span.end]
        if form == 'json':
            return ''.join(map(object_of, [*map(values_of, rows), *self.told(span)]))
        lines = [f'{row.moment} {row.core} {" ".join(row.what)}' for row in rows]
        return ''.join(f'{line}\n' for line in [*lines, *map(words_of, self.told(span))])


def values_of(row: Row) -> Values:
    """The values of a row by their names."""
    words = [word for word in row.what[1:] if word not in ('until', 'from')] if row.kind in ('stop', 'arrive') else row.what[1:]
    names = (*WORDS[row.kind], 'until') if len(words) > len(WORDS[row.kind]) else WORDS[row.kind]
    values = {name: word if name in NAMES else int(word) for name, word in zip(names, words, strict=True)}
    return {'moment': row.moment, 'core': row.core, 'kind': row.kind, **{name: values[name] for name in ORDER if name in values}}


def object_of(values: Values) -> str:
    return json.dumps({name: value for name, value in values.items() if value is not None}, separators=(',', ':')) + '\n'


def words_of(values: Values) -> str:
    """A line of text: its kind, the name of the thread if it is about one, and each other value behind its label."""
    owner = f' {values["thread"]}' if 'thread' in values else ''
    return f'{values["kind"]}{owner} ' + line_of({LABELS.get(name, name): value for name, value in values.items() if name != 'thread'})


def wanted(found: Reading, thread: str, number: str, form: str = 'text') -> Ran:
    """What a run that asks for a round has to come to."""
    if thread not in found.threads:
        return Ran(2, b'', unknown_name(thread, list(found.threads), found.chain_names).encode())
    rounds = Rounds(found, thread)
    spans = rounds.all()
    span = next((span for span in spans if str(span.number) == number), None)
    if span is None:
        many = len(spans)
        there = f'there are rounds 1 to {many}' if many > 1 else 'there is round 1' if many else 'there is none'
        return Ran(2, b'', f'mcscheck: --why: no round "{number}" of {thread}: {there}\n'.encode())
    return Ran(0, rounds.written(span, form).encode(), b'')


def unknown_name(name: str, threads: Sequence[str], chains: Sequence[str]) -> str:
    """What is said of a name that no thread and no chain has; `min` takes the first of the nearest."""
    names = [*threads, *chains]
    near = f'the nearest is {min(names, key=lambda other: distance(name, other))}' if names else 'there is none'
    return f'mcscheck: --why: no {"thread or chain" if chains else "thread"} is called "{name}": {near}\n'
