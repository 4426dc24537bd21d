#!/usr/bin/env python3
"""Checks that mcscheck writes what a second, plain reading of the rows finds, byte for byte, on 1,000 random systems.

Each random system has deadlines, signals that are lost or merged, orders, and contexts without a thread, and a few have no deadline or no thread; it is checked as it is, once more with some
of the words --workers, --strict and --allow-lost, and with the rounds that ended or figures in place of findings, and some with a notification that
it has not; and it is asked why a few of its rounds took so long. A system that mcsim refuses is refused with the same fault. Three laws of schedules are
tried meanwhile on what is written: the parts of a job are the ticks of its response, its row has the ticks since it began, the ticks in which the rows say that a thread runs are those of
the reports, and each thread with a deadline ended a round, or is overdue, never activated or unjudged. Then come systems of this repository whose findings are known. A kind of finding, of a part or of a status that was seen nowhere is a
failure: a test that sees nothing of it tells nothing."""
from __future__ import annotations

import collections
import pathlib
import random
import sys
import tempfile
import tomllib
from collections.abc import Iterator, Sequence
from typing import Any, NamedTuple

sys.dont_write_bytecode = True
sys.path[0] = str(pathlib.Path(__file__).resolve().parents[2])
from checks import common
from checks.common import DATA, TOP, Count, Ran
from checks.program import answers, chained, reading
from checks.program.reading import Reading, Tables, Wanted
from checks.random_systems import NEW, system_of, text_of, with_version_3

NAMES = ('tick', 'ticks', 'frames', '-n', 'irq', 'fire_irq', 'N', 'pet')
# systems, with the kinds of what is found in them
KNOWN: dict[pathlib.Path, set[str]] = {
    DATA / 'worked' / 'starved_thread.toml': {'overdue'},
    DATA / 'worked' / 'waits_for_ever.toml': {'never'},
    TOP / 'examples' / 'systems' / 'car_gateway_as_found.toml': {'missed', 'overdue', 'untaken', 'lost'},
    # where the responses of `round` rows are above the deadline, and those from the activation are not
    DATA / 'worked' / 'loop_that_yields.toml': set(),
    TOP / 'examples' / 'systems' / 'three_rate_monotonic_tasks.toml': set(),
    TOP / 'examples' / 'systems' / 'car_gateway_mended.toml': set(),
}
# a clock of one period and a thread that waits for it
CLOCK = '''version = 1
cores = 2
delay = 1
context = [{ name = "a", core = 0, budget = 4, period = 10 }, { name = "clock", core = 1, budget = 1, period = 10 }]
note = [{ name = "tick", core = 0 }]
thread = [
    { name = "Loop", context = "a", priority = 9, deadline = 5, script = ["wait tick", "compute 2"] },
    { name = "Clock", context = "clock", priority = 9, script = ["signal tick 1"] },
]
'''
# what the random systems have to show; a part is shown where it is not 0
SEEN = (
    *reading.KINDS, *(f'hint {kind}' for kind in reading.KINDS_OF_HINTS),
    'status 0', 'status 1', 'status 2', 'status 5', 'status 6', 'found by doubts alone', 'nothing is judged', 'found, and nothing is judged',
    'a spare worker', 'unjudged, and under way', 'lost only where it is allowed', 'the nearest is', 'there is none', 'activated late',
    *(f'{kind} {part}' for kind in ('miss', 'overdue', 'job') for part in ('queued', *reading.PARTS)), 'job preemptions', 'jobs that are preempted twice',
    *(f'{show} as {form}' for show in ('findings', 'jobs', 'table') for form in ('csv', 'json')), 'table as text', 'both as text', 'both as json', 'both as csv',
    'margin above 0', 'margin 0', 'margin below 0', 'no margin', 'late', 'missed and not late', 'unused', 'unused is not known', 'a percentile below the greatest',
    'an interrupt is lost', 'an interrupt is merged', 'a call waits', 'a caller is let in', 'a word is nobody\'s', 'a first word is taken',
    *(f'why {what}' for what in ('ended', 'waited', 'under way', 'not activated', 'word held', 'waits', 'no round', 'no thread', 'mixed', 'as json')),
)


def order_of(rng: random.Random, context: dict[str, Any]) -> dict[str, Any]:
    """An order for a context that may be refused, since its budget is too great, or it makes the context round robin."""
    period = rng.randint(2, 20)
    budget = period if context['budget'] == context['period'] else rng.randint(1, period)
    return {'at': rng.randint(0, 60), 'core': context['core'], 'context': context['name'], 'budget': budget, 'period': period}


def renamed(item: str, rng: random.Random) -> str:
    """The item with the name of its notification, and one of few badges."""
    word, *rest = item.split()
    if rest and rest[0].startswith('n'):
        rest[0] = NAMES[int(rest[0][1:])]
    if word == 'signal':
        rest[1] = str(2 ** rng.randrange(3))
    return ' '.join([word, *rest])


def judging_nothing(rng: random.Random, tables: Tables) -> None:
    """Leaves the system no deadline, or no thread."""
    if rng.random() < 0.3:
        tables['thread'] = []
    for thread in tables['thread']:
        thread['deadline'] = 0


def tables_of(rng: random.Random) -> Tables:
    """A random system with all that can be found."""
    tables = tomllib.loads(system_of(rng).text())
    cores = {context['name']: context['core'] for context in tables['context']}
    for place, note in enumerate(tables.get('note', [])):
        note['name'] = NAMES[place]
    for thread in tables['thread']:
        thread['deadline'] = rng.choice([0, rng.randint(1, 12), rng.randint(1, 60)])
        home = [note['name'] for note in tables.get('note', []) if note['core'] == cores[thread['context']]]
        first = [f'wait {rng.choice(home)}'] if home and rng.random() < 0.5 else []
        thread['script'] = [*first, *(renamed(item, rng) for item in thread['script'])]
    if rng.random() < 0.2:
        tables['thread'].pop(rng.randrange(len(tables['thread'])))
    if rng.random() < 0.2:
        tables['order'] = [order_of(rng, rng.choice(tables['context'])) for _ in range(rng.randint(1, 3))]
    if rng.random() < 0.05:
        judging_nothing(rng, tables)
    return with_version_3(rng, tables) if rng.random() < NEW else tables


def allowing(notes: Sequence[str]) -> list[str]:
    return [f'--allow-lost={note}' for note in notes]


class System(NamedTuple):
    """A system: its name here, its text, and the horizon to which it is run."""

    name: str
    text: str
    horizon: int

    def kept(self, is_wrong: object) -> str:
        """Its name; where something is wrong its text is kept, and the file is named."""
        if not is_wrong:
            return self.name
        file = pathlib.Path(tempfile.gettempdir(), f'verdicts-{self.name}.toml')
        file.write_text(self.text)
        return str(file)


class Trial:
    """The two programs, and what the systems have shown."""

    def __init__(self, simulator: pathlib.Path, checker: pathlib.Path) -> None:
        self.simulator, self.checker = simulator, checker
        self.count = Count()
        self.seen: collections.Counter[str] = collections.Counter()

    def check(self, system: System, words: Sequence[str] = ()) -> Ran:
        return common.run([self.checker, '--horizon', str(system.horizon), *words], system.text.encode())

    def wants(self, system: System, words: Sequence[str], wanted: Ran) -> None:
        ran = self.check(system, words)
        self.seen[f'status {ran.status}'] += 1
        differs = ran != wanted
        self.count.expect(f'{system.kept(differs)} --horizon {system.horizon} {" ".join(words)}: {differing(ran, wanted)}', not differs)

    def agrees(self, system: System, rng: random.Random) -> None:
        """Tries a system, in all ways that say something of it."""
        simulated = common.run([self.simulator, '--horizon', str(system.horizon), '--show', 'both'], system.text.encode())
        if simulated.status:
            self.wants(system, [], simulated._replace(stderr=simulated.stderr.replace(b'mcsim: ', b'mcscheck: ', 1)))
            return
        rows, reports = parted(simulated.stdout.decode())
        found = chained.reading_of(tomllib.loads(system.text), rows, system.horizon)
        wrong = list(broken(found, reports))
        self.count.expect(f'{system.kept(wrong)}: {wrong}', not wrong)
        plain = found.wanted()
        self.tell(plain, found)
        self.wants(system, ['--show=findings'], answer(plain))
        self.with_words(system, found, rng)
        self.with_jobs(system, found, rng)
        self.with_format(system, found, rng)
        self.with_table(system, found, rng)
        for _ in range(min(2, len(found.threads))):
            self.with_why(system, found, rng)
        if rng.random() < 0.2:
            self.unknown(system, found.notes, rng)

    def with_words(self, system: System, found: Reading, rng: random.Random) -> None:
        """Findings and figures, with some of the words that matter to what is found, or must not."""
        allowed = [note for note in found.notes if rng.random() < 0.6]
        is_strict = rng.random() < 0.5
        words = [*allowing(allowed), *['--strict'] * is_strict, *['--workers=2'] * (rng.random() < 0.7)]
        rng.shuffle(words)
        wanted = found.wanted(allowed, 'both')
        self.seen['allowed'] += wanted.counts['allowed']
        self.seen['found by doubts alone'] += wanted.status() != wanted.status(is_strict)
        self.seen['lost only where it is allowed'] += wanted.status() != found.wanted().status()
        self.wants(system, words, answer(wanted, is_strict))

    def with_jobs(self, system: System, found: Reading, rng: random.Random) -> None:
        """The rounds that ended, with some of the words that matter to what is found."""
        allowed = [note for note in found.notes if rng.random() < 0.3]
        is_strict = rng.random() < 0.3
        words = ['--show=jobs', *allowing(allowed), *['--strict'] * is_strict, *['--workers=2'] * (rng.random() < 0.3)]
        rng.shuffle(words)
        wanted = found.wanted(allowed, 'jobs')
        self.tell_parts(wanted)
        self.seen['jobs that are preempted twice'] += sum(job is not None and job.preemptions > 1 for job in found.ended.values())
        self.wants(system, words, answer(wanted, is_strict))

    def with_format(self, system: System, found: Reading, rng: random.Random) -> None:
        """Findings, jobs or figures as CSV or JSON."""
        show, form = rng.choice(['findings', 'jobs', 'table']), rng.choice(['csv', 'json'])
        allowed = [note for note in found.notes if rng.random() < 0.3]
        words = [f'--show={show}', f'--format={form}', *allowing(allowed)]
        rng.shuffle(words)
        wanted = found.wanted(allowed, show, form)
        self.seen[f'{show} as {form}'] += wanted.text.count('\n') > 1
        self.wants(system, words, answer(wanted))

    def with_table(self, system: System, found: Reading, rng: random.Random) -> None:
        """Figures, alone or behind findings, with some of the words that matter to what is found; rows of both are refused."""
        show, form = rng.choice(['table', 'both']), rng.choice(['text', 'text', 'text', 'json', 'csv'])
        allowed = [note for note in found.notes if rng.random() < 0.3]
        is_said = show == 'table' or rng.random() < 0.5
        words = [*[f'--show={show}'] * is_said, f'--format={form}', *allowing(allowed), *['--workers=2'] * (rng.random() < 0.3)]
        rng.shuffle(words)
        self.seen[f'{show} as {form}'] += 1
        if (show, form) == ('both', 'csv'):
            self.wants(system, words, Ran(2, b'', reading.MIXED.encode()))
            return
        self.tell_figures(found)
        self.wants(system, words, answer(found.wanted(allowed, show, form)))

    def tell_figures(self, found: Reading) -> None:
        """Counts what was seen in figures."""
        for values in found.table():
            if values['kind'] == 'context':
                self.seen['unused is not known' if values['unused'] is None else 'unused'] += 1
                continue
            if values['kind'] == 'chain':
                continue
            margin, greatest = values['margin'], values['greatest']
            sign = 'no margin' if margin is None else f'margin {"above 0" if margin > 0 else "below 0" if margin else "0"}'
            self.seen[sign] += 1
            self.seen['late'] += values['late'] > 0
            self.seen['missed and not late'] += values['missed'] > values['late']
            self.seen['a percentile below the greatest'] += greatest is not None and values['p50'] < greatest

    def with_why(self, system: System, found: Reading, rng: random.Random) -> None:
        """Why a round took so long: one that is there, mostly, or not; with some words that go with it, or do not."""
        thread = rng.choice(list(found.threads))
        spans = answers.Rounds(found, thread).all()
        number = str(rng.choice(spans).number) if spans and rng.random() < 0.9 else rng.choice(['0', '1', '2', str(len(spans) + 1), 'last'])
        form = rng.choice(['text', 'text', 'json'])
        words = [*['--workers=2'] * (rng.random() < 0.3), *[f'--format={form}'] * (form != 'text' or rng.random() < 0.3)]
        if rng.random() < 0.05:
            mixing = rng.choice([['--strict'], ['--show=findings'], ['--show', 'jobs'], ['--format=csv'], ['--allow-lost=none']])
            self.seen['why mixed'] += 1
            self.wants(system, ['--why', thread, '1', *mixing], Ran(2, b'', answers.MIXED.encode()))
            return
        if rng.random() < 0.05:
            thread += 'x'
            self.seen['why no thread'] += thread not in found.threads
        self.tell_why(next((span for span in spans if str(span.number) == number), None), form)
        self.wants(system, [*words, '--why', thread, number], answers.wanted(found, thread, number, form))

    def tell_why(self, span: answers.Span | None, form: str) -> None:
        """Counts what was seen of a round that is asked about."""
        if span is None:
            self.seen['why no round'] += 1
            return
        if span.has_ended:
            kind = 'ended'
        elif span.begun is not None:
            kind = 'under way' if span.activated is not None else 'not activated'
        else:
            kind = 'word held' if span.activated is not None else 'waits'
        self.seen[f'why {kind}'] += 1
        self.seen['why waited'] += span.has_ended and span.waited > 0
        self.seen['why as json'] += form == 'json'

    def unknown(self, system: System, notes: Sequence[str], rng: random.Random) -> None:
        """A notification that the system has not, behind one that it has: a name of another system, or one that is changed in a place."""
        near = rng.choice([*NAMES, *notes])
        place = rng.randrange(len(near))
        asked = rng.choice([near, near[:place] + rng.choice('nirq_\u00e9') + near[place + 1:], near[:place] + near[place + 1:]])
        if asked in notes:
            return
        self.seen['the nearest is' if notes else 'there is none'] += 1
        said = reading.unknown_note(asked, notes).encode()
        self.wants(system, allowing([*notes[:1], asked, 'another']), Ran(2, b'', said))

    def tell(self, wanted: Wanted, found: Reading) -> None:
        """Counts what was seen of each kind."""
        self.seen.update(wanted.counts)
        self.tell_parts(wanted)
        for thread in found.threads:
            if found.is_unjudged(thread):
                self.seen['unjudged, and under way' if found.round_at(found.whole, thread, found.horizon) else 'a spare worker'] += 1
        if not wanted.counts['judged']:
            self.seen['found, and nothing is judged' if wanted.status() == 5 else 'nothing is judged'] += 1
        self.seen.update(what for row, before in zip(found.rows[1:], found.rows) for what in told_by(row, before, found))
        self.seen['activated late'] += sum(ended is not None and (ended.activated or 0) > ended.begun for ended in found.ended.values())

    def tell_parts(self, wanted: Wanted) -> None:
        """Counts the lines that have some of each part, and the kinds of hints."""
        for line in wanted.text.splitlines():
            words = line.split()
            if words[0] == 'hint':
                self.seen[f'hint {reading.values_of_hint(line)["hint"]}'] += 1
            if 'activated' in words:
                pairs = words[words.index('activated'):]
                self.seen.update(f'{words[2]} {part}' for part, many in zip(pairs[::2], pairs[1::2]) if many != '0')

    def known(self) -> None:
        """The systems whose findings are known."""
        for file, kinds in KNOWN.items():
            self.of_system(System(file.stem, file.read_text(), 1000), kinds)
        self.of_system(System('clock', CLOCK, 1000), set())

    def of_system(self, system: System, kinds: set[str]) -> None:
        ran = self.check(system, ['--show=findings'])
        *lines, last = ran.stdout.decode().splitlines() or ['']
        words = last.split()
        found = {kind for kind, many in zip(words[::2], words[1::2]) if kind in reading.FOUND and many != '0'}
        self.count.expect(f'{system.name}: found {found}, status {ran.status}', (found, ran.status) == (kinds, 5 if kinds else 0))
        self.count.expect(f'{system.name}: {lines}', bool(kinds) or not lines)
        self.agrees(system, random.Random(system.name))


def told_by(row: reading.Row, before: reading.Row, found: Reading) -> Iterator[str]:
    """What a row of version 3 shows, behind the one before it."""
    if row.kind == 'hold' and before.kind == 'interrupt' and (what := found.found(row)):
        yield f'an interrupt is {what[0]}'
    if row.kind == 'stop' and row.what[2] == 'call':
        yield 'a call waits'
    if row.is_let_in:
        yield 'a caller is let in'
    if row.kind in ('got', 'wake') and found.first_wait(row.what[1]) == row.what[2] and not found.begins(row):
        yield 'a word is nobody\'s'
    if row.kind == 'got' and found.schedule.firsts[row.what[2]] and not any(past.kind == 'got' for past in found.past(row).of_note(row.what[2])):
        yield 'a first word is taken'


def parted(text: str) -> tuple[str, dict[str, dict[str, int]]]:
    """The rows of what --show both writes, and the numbers of each thread's report."""
    lines = text.splitlines(keepends=True)
    reports = [line.split() for line in lines if line.startswith('thread ')]
    numbers = {words[1]: {name: int(number) for name, number in zip(words[2::2], words[3::2])} for words in reports}
    return ''.join(line for line in lines if line[0].isdigit()), numbers


def broken(found: Reading, reports: dict[str, dict[str, int]]) -> Iterator[str]:
    """The laws of rows that do not hold."""
    for thread, report in reports.items():
        ran = found.whole.standings(thread, 0, found.horizon).count('running')
        if ran != report['ran']:
            yield f'{thread} runs for {ran} ticks by the rows, and {report["ran"]} by its report'
    for thread in found.with_deadline():
        if not (found.ends(thread) or found.overdue(thread) or found.is_unjudged(thread) or not found.was_activated(thread)):
            yield f'{thread} is activated, ended no round, and is neither overdue nor unjudged'
        if (late := found.overdue(thread)) and late.queued + len(late.standings) != found.horizon - late.since:
            yield f'{thread} is overdue, and the parts are not its age: {late}'
    for row in found.rows:
        if row.kind == 'round':
            ended = found.ended[row.place]
            if ended is None or ended.activated is None or not {*ended.standings} <= {*reading.PARTS}:
                yield f'{row}: {ended}'
            elif (ended.queued + len(ended.standings), int(row.what[3])) != (row.moment - ended.activated, row.moment - ended.begun):
                yield f'{row}: the parts are not the response, or it is not that of the row: {ended}'


def answer(wanted: Wanted, is_strict: bool = False) -> Ran:
    return Ran(wanted.status(is_strict), wanted.text.encode(), b'')


def differing(ran: Ran, wanted: Ran) -> str:
    """The first line that differs, and the statuses where they do."""
    if ran.status != wanted.status:
        return f'status {ran.status}, and not {wanted.status}: {ran.stderr.decode(errors="replace")!r}'
    got, good = ((each.stdout + each.stderr).decode(errors='replace').splitlines() + [''] for each in (ran, wanted))
    lines = next(((one, other) for one, other in zip(got, good) if one != other), (got[-1], good[-1]))
    return f'{lines[0]!r}, and not {lines[1]!r}'


def main() -> None:
    words = common.asking_random(__doc__, 1000).parse_args()
    simulator = common.built_program(words.program)
    trial = Trial(simulator, common.beside(simulator, 'mcscheck'))
    trial.known()
    # what the known systems show does not count
    trial.seen.clear()
    for number in range(words.systems):
        rng = random.Random(f'{words.seed} {number}')
        text = text_of(tables_of(rng))
        trial.agrees(System(f'{words.seed}-{number}', text, rng.choice([0, 1, 10, 60, 60, 200, 200, 400])), rng)
    trial.count.expect_all(trial.seen, SEEN)
    trial.count.end()


if __name__ == '__main__':
    main()
