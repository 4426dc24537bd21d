#!/usr/bin/env python3
"""Checks that the library for C gives the verdicts of mcscheck, and rows and findings in numbers that are those of the lines.

Each system of the corpus is checked by calls, in each part and format, in a room that is too small and in one that is larger than needed: the lines, or
the line of the fault, are those of the program, and the result says whether something was found. Rows in numbers, with names by mcs_name, are the rows of
mcsim, in an array that is too short, too, and those of threads that stop or are woken have the dates of budgets.py. Findings in numbers are those of
the JSON of mcscheck. Arguments that are out of range are refused, and no call
takes more than 32 KB of stack.

The same holds of the explanations of some rounds of each system (mcs_why), and of its checks for all time (mcs_forever); and of random systems, whose
verdicts, rounds and outlooks are those of mcscheck. Rows are there at once if the array is short, however far the horizon is.

It needs a C compiler (cc), and the library: that which was built here (crates/mcs_c/out/libmcs_c.a), or else bin/libmcs_c.a."""
from __future__ import annotations

import ctypes
import functools
import json
import pathlib
import random
import shutil
import sys
import tempfile
import time
import tomllib
from collections.abc import Callable, Iterable, Iterator
from typing import Any, NamedTuple

sys.dont_write_bytecode = True
sys.path[0] = str(pathlib.Path(__file__).resolve().parents[2])
from checks import common
from checks.common import TOP, Count, Ran
from checks.program import library, reading
from checks.program.library import OLD, TOO_FAR, Answer, Run, old
from checks.random_systems import random_text, text_of

PARTS = ('findings', 'jobs', 'table', 'both')
FORMATS = ('text', 'csv', 'json')
LINES, FAULT, ROOM, REFUSED, FOUND, UNJUDGED, PART = 0, 1, 2, 3, 5, 6, 7
# the results for the exit codes of mcscheck that come with lines
RESULTS = {0: LINES, 5: FOUND, 6: UNJUDGED}
NONE = 2**64 - 1
KINDS = ('release', 'run', 'stop', 'signal', 'arrive', 'wake', 'hold', 'got', 'round', 'order', 'interrupt')
WHYS = ('spent', 'yield', 'wait', 'call', 'done', 'preempt', 'order')
FINDINGS = ('miss', 'overdue', 'lost', 'never', 'untaken')
# how ticks of a round are told
STOOD = ('queued', 'ready', 'running', 'throttled', 'blocked', 'server')
THREAD, CONTEXT, NOTE, SOURCE, CHAIN = range(5)
# bytes of stack that a call may take
STACK = 32 * 1024
# rows of an array that is short
FEW = 7
# systems with more rows are tried with their lines alone
MANY = 20_000
# random systems
RANDOM = 40


class Row(ctypes.Structure):
    """struct mcs_row"""

    _fields_ = [(name, ctypes.c_uint64) for name in ('moment', 'core', 'kind', 'part', 'note', 'why', 'value', 'more')]


class Finding(ctypes.Structure):
    """struct mcs_finding"""

    _fields_ = [(name, ctypes.c_uint64) for name in (
        'moment', 'core', 'kind', 'thread', 'note', 'number', 'response', 'deadline', 'activated', 'queued', 'word',
        'ready', 'running', 'throttled', 'blocked', 'server',
    )]


class Told(NamedTuple):
    """What a call of mcs_rows answers: the result, the whole array, how many rows were written, and the time before which all are there."""

    result: int
    rows: Any
    many: int
    before: int


class Library:
    """The calls of the shared library, beside mcs_run."""

    def __init__(self, path: pathlib.Path) -> None:
        self.calls = ctypes.CDLL(str(path))
        size, number, time, text = ctypes.c_size_t, ctypes.c_uint32, ctypes.c_uint64, ctypes.c_char_p
        sized = ctypes.POINTER(size)
        self.calls.mcs_check.argtypes = [text, size, time, number, number, text, size, text, size, sized]
        self.calls.mcs_why.argtypes = [text, size, time, text, size, text, size, number, text, size, sized]
        self.calls.mcs_forever.argtypes = [text, size, time, number, text, size, text, size, sized]
        self.calls.mcs_rows.argtypes = [text, size, time, ctypes.POINTER(Row), size, sized, ctypes.POINTER(time)]
        self.calls.mcs_findings.argtypes = [text, size, time, ctypes.POINTER(Finding), size, sized]
        self.calls.mcs_name.argtypes = [text, size, number, time, text, size, sized]
        for name in ('version', 'check', 'why', 'forever', 'rows', 'findings', 'name'):
            getattr(self.calls, f'mcs_{name}').restype = number

    def written(self, name: str, room_bytes: int, *words: object) -> Answer:
        """What a call writes to a room."""
        # a byte more, since no pointer is null
        room = (ctypes.c_char * (room_bytes + 1)).from_buffer(bytearray([OLD]) * (room_bytes + 1))
        length = ctypes.c_size_t(OLD)
        result = getattr(self.calls, f'mcs_{name}')(*words, room, room_bytes, length)
        return Answer(result, length.value, room.raw)

    def check(self, text: bytes, horizon: int, part: int, how: int, allowed: bytes, room_bytes: int) -> Answer:
        return self.written('check', room_bytes, text, len(text), horizon, part, how, allowed, len(allowed))

    def why(self, text: bytes, horizon: int, thread: bytes, number: bytes, how: int, room_bytes: int) -> Answer:
        return self.written('why', room_bytes, text, len(text), horizon, thread, len(thread), number, len(number), how)

    def forever(self, text: bytes, horizon: int, how: int, allowed: bytes, room_bytes: int) -> Answer:
        return self.written('forever', room_bytes, text, len(text), horizon, how, allowed, len(allowed))

    def rows(self, text: bytes, horizon: int, many: int) -> Told:
        rows, written, before = (Row * (many + 1))(), ctypes.c_size_t(OLD), ctypes.c_uint64(OLD)
        result = self.calls.mcs_rows(text, len(text), horizon, rows, many, written, before)
        return Told(result, rows, written.value, before.value)

    def findings(self, text: bytes, horizon: int, many: int) -> tuple[int, Any, int]:
        findings, written = (Finding * (many + 1))(), ctypes.c_size_t(OLD)
        result = self.calls.mcs_findings(text, len(text), horizon, findings, many, written)
        return result, findings, written.value

    def name(self, text: bytes, kind: int, number: int, room_bytes: int = 32) -> Answer:
        return self.written('name', room_bytes, text, len(text), kind, number)

    def names(self, text: bytes) -> dict[int, list[str]]:
        """The names of the things of each kind."""
        found: dict[int, list[str]] = {}
        for kind in range(CHAIN + 1):
            found[kind] = []
            while (answer := self.name(text, kind, len(found[kind]))).result == LINES:
                found[kind].append(answer.room[:answer.length].decode())
        return found


class Reader:
    """Rows and findings in numbers, as lines have them."""

    def __init__(self, names: dict[int, list[str]], servers: int) -> None:
        self.names, self.first_server = names, len(names[NOTE]) - servers

    def words(self, row: Row) -> Iterator[object]:
        """The words of a row behind its kind."""
        kind = KINDS[row.kind]
        if kind in ('signal', 'wake', 'got', 'release', 'run', 'stop', 'round'):
            yield self.names[THREAD][row.part]
        if kind == 'order':
            yield self.names[CONTEXT][row.part]
        if kind == 'interrupt':
            yield self.names[SOURCE][row.part]
        if kind in ('signal', 'arrive', 'wake', 'hold', 'got', 'interrupt'):
            yield self.names[NOTE][row.note]
        if kind == 'stop':
            yield WHYS[row.why]
        if kind not in ('release', 'run', 'order'):
            yield row.value
        if kind == 'arrive':
            yield f'from {row.part}'
        if kind == 'round':
            yield row.more
        if kind == 'stop' and row.more != NONE:
            yield f'until {row.more}'

    def line(self, row: Row) -> str:
        """The line of a row. A thread that posts at a server leaves it, and one that takes its word enters it."""
        kind, words = KINDS[row.kind], [*self.words(row)]
        if row.note != NONE and row.note >= self.first_server and kind in ('signal', 'got', 'wake'):
            kind, words = 'leave' if kind == 'signal' else 'enter', words[:2]
        return ' '.join(map(str, (row.moment, row.core, kind, *words)))

    def finding(self, finding: Finding) -> dict[str, object]:
        """The values of a finding, without the names of those that may take a word."""
        kind = FINDINGS[finding.kind]
        values: dict[str, object] = {'kind': kind, 'moment': finding.moment, 'core': finding.core}
        if kind == 'lost':
            return {**values, 'note': self.names[NOTE][finding.note], 'word': finding.word}
        values |= {'deadline': finding.deadline}
        if kind == 'untaken':
            values |= {'note': self.names[NOTE][finding.note], 'word': finding.word}
            return {**values, 'age': finding.response, 'set': finding.activated}
        values |= {'thread': self.names[THREAD][finding.thread]}
        if kind == 'never':
            return values
        values |= {'number': finding.number, 'response' if kind == 'miss' else 'age': finding.response, 'activated': finding.activated}
        return values | {name: getattr(finding, name) for name in STOOD}


class Trial:
    """The library beside the programs."""

    def __init__(self, program: pathlib.Path, checker: pathlib.Path, shared: pathlib.Path) -> None:
        self.program, self.checker, self.library, self.count = program, checker, Library(shared), Count()

    def told(self, run: Run, *words: str) -> Ran:
        """What mcscheck tells of a run."""
        return common.run([self.checker, str(run.file), '--horizon', str(run.horizon), *words])

    def try_lines(self, run: Run, allowed: tuple[str, ...] = ()) -> None:
        """Each part in each format."""
        text, names = run.file.read_bytes(), '\n'.join(allowed).encode()
        for part, what in enumerate(PARTS):
            for how, form in enumerate(FORMATS):
                if (what, form) == ('both', 'csv'):
                    continue
                ran = self.told(run, '--show', what, '--format', form, *(f'--allow-lost={name}' for name in allowed))
                self.same(f'{run.name}: {what} as {form}', ran, functools.partial(self.library.check, text, run.horizon, part, how, names))

    def same(self, what: str, ran: Ran, call: Callable[[int], Answer]) -> None:
        """A call gives what mcscheck told, in a room that is too small and in one that is larger than needed."""
        lines = ran.stdout if ran.status in RESULTS else ran.stderr.removesuffix(b'\n')
        result = RESULTS.get(ran.status, FAULT)
        for room, wanted in (
            (len(lines) - 1, Answer(ROOM, len(lines), old(len(lines) - 1))),
            (len(lines) + 9, Answer(result, len(lines), lines + old(9))),
        ):
            got = call(room)
            self.count.expect(f'{what} in {room} bytes: {got.result}', got == wanted)

    def try_rounds(self, run: Run, threads: Iterable[str]) -> None:
        """Why rounds of some threads took so long: the first, the second, and what is no round."""
        text = run.file.read_bytes()
        for thread in (*threads, 'nobody'):
            for number in ('1', '2', '99999999', 'x'):
                for how, form in enumerate(FORMATS):
                    if form != 'csv':
                        ran = self.told(run, '--why', thread, number, '--format', form)
                        call = functools.partial(self.library.why, text, run.horizon, thread.encode(), number.encode(), how)
                        self.same(f'{run.name}: why {thread} {number} as {form}', ran, call)

    def try_outlook(self, run: Run, allowed: tuple[str, ...] = ()) -> None:
        """The check for all time."""
        text, names = run.file.read_bytes(), '\n'.join(allowed).encode()
        for how, form in enumerate(FORMATS):
            if form != 'csv':
                ran = self.told(run, '--forever', '--format', form, *(f'--allow-lost={name}' for name in allowed))
                self.same(f'{run.name}: for ever as {form}', ran, functools.partial(self.library.forever, text, run.horizon, how, names))

    def try_random(self, file: pathlib.Path, number: int) -> None:
        """All that is asked of a random system."""
        rng = random.Random(f'library {number}')
        tables = tomllib.loads(random_text(rng))
        file.write_text(text_of(tables))
        run = Run(f'random {number}', file, rng.randrange(1, 3000), 'schedule')
        self.try_lines(run)
        self.try_rounds(run, [rng.choice(tables['thread'])['name']] if tables.get('thread') else [])
        self.try_outlook(run, tuple(note['name'] for note in tables.get('note', []) if rng.random() < 0.3))

    def try_far(self, run: Run) -> None:
        """A short array is filled at once, however far the horizon is: a run up to 2^40 would take hours."""
        text = run.file.read_bytes()
        begun = time.process_time()
        near, far = self.library.rows(text, 1000, FEW), self.library.rows(text, 2**40, FEW)
        spent = time.process_time() - begun
        same = near.result == far.result == PART and bytes(near.rows) == bytes(far.rows) and near.before == far.before
        self.count.expect(f'a few rows of a run up to 2^40: {far.result}, {spent} s', same and spent < 1)

    def try_refusals(self, run: Run) -> None:
        """What is refused leaves the room as it was, and gives the length 0."""
        text = run.file.read_bytes()
        for horizon, part, how, allowed in (
            (TOO_FAR, 0, 0, b''), (2**64 - 1, 0, 0, b''), (9, 4, 0, b''), (9, 2**32 - 1, 0, b''), (9, 0, 3, b''), (9, 3, 1, b''), (9, 0, 0, b'\xff'),
        ):
            got = self.library.check(text, horizon, part, how, allowed, 100)
            self.count.expect(f'horizon {horizon}, part {part}, format {how}, allowed {allowed!r}: {got.result}', got == Answer(REFUSED, 0, old(100)))
        for horizon, thread, digits, how in (
            (TOO_FAR, b'Driver', b'1', 0), (2**64 - 1, b'Driver', b'1', 0), (9, b'Driver', b'1', 1), (9, b'Driver', b'1', 3), (9, b'\xff', b'1', 0), (9, b'Driver', b'\xff', 0),
        ):
            got = self.library.why(text, horizon, thread, digits, how, 100)
            self.count.expect(f'why {thread!r} {digits!r} to {horizon}, format {how}: {got.result}', got == Answer(REFUSED, 0, old(100)))
        for horizon, how, allowed in ((TOO_FAR, 0, b''), (2**64 - 1, 0, b''), (9, 1, b''), (9, 3, b''), (9, 2**32 - 1, b''), (9, 0, b'\xff')):
            got = self.library.forever(text, horizon, how, allowed, 100)
            self.count.expect(f'for ever to {horizon}, format {how}, allowed {allowed!r}: {got.result}', got == Answer(REFUSED, 0, old(100)))
        for kind, number in ((CHAIN + 1, 0), (THREAD, 2**64 - 1), (THREAD, 4096)):
            got = self.library.name(text, kind, number)
            self.count.expect(f'the name of kind {kind}, number {number}: {got.result}', got == Answer(REFUSED, 0, old(32)))
        self.count.expect('a name in a room that is too small', self.library.name(text, THREAD, 0, 0).result == ROOM)
        told = self.library.rows(text, TOO_FAR, FEW)
        self.count.expect('rows up to a horizon that is too far', told.result == REFUSED and told.many == told.before == 0)
        self.count.expect('findings up to a horizon that is too far', self.library.findings(text, TOO_FAR, FEW)[::2] == (REFUSED, 0))

    def try_numbers(self, run: Run) -> None:
        """Rows and findings in numbers."""
        text = run.file.read_bytes()
        ran = common.run([self.program, str(run.file), '--horizon', str(run.horizon)])
        if ran.status != 0:
            fault = (self.library.rows(text, run.horizon, FEW).result, self.library.findings(text, run.horizon, FEW)[0], self.library.name(text, 0, 0).result)
            self.count.expect(f'{run.name}: numbers of a text that is no system', fault == (FAULT,) * 3)
            return
        lines = ran.stdout.decode().splitlines()
        if len(lines) > MANY:
            return
        reader = Reader(self.library.names(text), len(tomllib.loads(text.decode()).get('server', ())))
        self.try_rows(run, text, lines, reader)
        self.try_findings(run, text, reader)

    def try_rows(self, run: Run, text: bytes, lines: list[str], reader: Reader) -> None:
        all_rows = self.library.rows(text, run.horizon, len(lines) + 9)
        whole = all_rows.result == LINES and all_rows.before == run.horizon + 1
        made = [reader.line(row) for row in all_rows.rows[:all_rows.many]]
        self.count.expect(f'{run.name}: rows in numbers', whole and made == lines)
        told = reading.rows_of('\n'.join(lines))
        dates = reading.dates_of(tomllib.loads(text.decode()), told)
        wanted = [NONE if date is None else date for row, date in zip(told, dates) if row.kind in ('stop', 'wake') or row.is_let_in]
        kept = [row.more for row in all_rows.rows[:all_rows.many] if KINDS[row.kind] in ('stop', 'wake')]
        self.count.expect(f'{run.name}: the dates of rows that stop or wake threads', kept == wanted)
        few = self.library.rows(text, run.horizon, FEW)
        if all_rows.many <= FEW:
            return
        same = all(bytes(one) == bytes(other) for one, other in zip(few.rows[:FEW], all_rows.rows[:FEW]))
        cut = few.result == PART and few.many == FEW and few.before == all_rows.rows[FEW].moment and bytes(few.rows[FEW]) == bytes(Row())
        self.count.expect(f'{run.name}: the first {FEW} rows in numbers', same and cut)

    def try_findings(self, run: Run, text: bytes, reader: Reader) -> None:
        told = self.told(run, '--format', 'json').stdout.splitlines()
        found_there = [values for values in map(json.loads, told) if values['kind'] in FINDINGS]
        wanted = [{name: value for name, value in values.items() if name != 'by'} for values in found_there]
        needed = self.library.findings(text, run.horizon, 0)
        result, findings, many = self.library.findings(text, run.horizon, len(wanted))
        found = [reader.finding(finding) for finding in findings[:many]]
        self.count.expect(f'{run.name}: findings in numbers', result == LINES and found == wanted)
        self.count.expect(f'{run.name}: how many findings there are', needed[0] == (ROOM if wanted else LINES) and needed[2] == len(wanted))

    def built(self, source: pathlib.Path, archive: pathlib.Path, folder: pathlib.Path) -> pathlib.Path:
        """A program in C with the library."""
        built = folder / source.stem
        made = common.run([library.COMPILER, '-std=c11', '-O2', '-pthread', '-I', TOP / 'include', '-o', built, source, archive])
        self.count.expect(f'{source.name} is built: {made}', made.status == 0)
        return built

    def try_example(self, archive: pathlib.Path, folder: pathlib.Path) -> None:
        """What the example in C prints is what mcscheck prints, and so is its exit code."""
        example = self.built(TOP / 'examples' / 'c' / 'verdict.c', archive, folder)
        for run in {run.file: run for run in library.runs()}.values():
            self.count.expect(f'{run.name}: the example in C', common.run([example, run.file, str(run.horizon)]) == self.told(run, '--show', 'findings'))

    def try_stack(self, archive: pathlib.Path, folder: pathlib.Path) -> None:
        """What calls take of a stack."""
        built = self.built(TOP / 'checks' / 'program' / 'library_stack.c', archive, folder)
        for system in (TOP / 'examples' / 'systems' / 'network_driver.toml', common.DATA / 'worked' / 'ring_of_three_cores.toml'):
            ran = common.run([built, system])
            taken = [int(line.split()[-1]) for line in ran.stdout.splitlines()]
            self.count.expect(f'{system.name}: {ran}', ran.status == 0 and len(taken) == 8 and max(taken) <= STACK)

    def all(self, folder: pathlib.Path) -> None:
        self.count.expect('the version of the library', self.library.calls.mcs_version() == header_version())
        found = {run.file: run for run in library.runs()}
        self.count.expect('the corpus has more than 40 systems', len(found) > 40)
        for run in found.values():
            self.try_lines(run)
            self.try_numbers(run)
            self.try_rounds(run, self.library.names(run.file.read_bytes())[THREAD][:1])
            self.try_outlook(run)
        allowing = library.Run('network_driver', TOP / 'examples' / 'systems' / 'network_driver.toml', 1000, 'schedule')
        for allowed in (('events',), ('events', 'events'), ('evnts',), ('events', 'nobody'), ('a"b',)):
            self.try_lines(allowing, allowed)
            self.try_outlook(allowing, allowed)
        self.try_refusals(allowing)
        self.try_far(allowing)
        for number in range(RANDOM):
            self.try_random(folder / 'random.toml', number)


def header_version() -> int:
    """The number of MCS_VERSION."""
    lines = (TOP / 'include' / 'mcsim.h').read_text().splitlines()
    major, minor = (next(int(line.split()[2]) for line in lines if line.startswith(f'#define MCS_VERSION_{part} ')) for part in ('MAJOR', 'MINOR'))
    return major * 65_536 + minor


def main() -> None:
    parser = common.asking_program(__doc__)
    parser.add_argument('--archive', type=pathlib.Path, metavar='PATH', help='the library (default: crates/mcs_c/out/libmcs_c.a, else bin/libmcs_c.a)')
    words = parser.parse_args()
    archive, count = library.archive_to_try(words.archive), Count()
    if archive is None or shutil.which(library.COMPILER) is None:
        count.skip('the verdicts of the library, since there is no ' + (f'C compiler {library.COMPILER}' if archive else 'libmcs_c.a'))
        count.end()
    program = common.built_program(words.program)
    with tempfile.TemporaryDirectory() as folder:
        made = library.Trial(program, archive.resolve(), pathlib.Path(folder))
        trial = Trial(program, common.beside(program, 'mcscheck'), made.shared)
        trial.all(pathlib.Path(folder))
        trial.try_example(archive.resolve(), pathlib.Path(folder))
        trial.try_stack(archive.resolve(), pathlib.Path(folder))
    trial.count.end()


if __name__ == '__main__':
    main()
