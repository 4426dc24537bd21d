#!/usr/bin/env python3
"""Checks the exit codes and error lines of mcscheck, the examples of its page, and that progress is shown on a terminal alone.

The cases are those of docs/CHECK.md, whose examples are run as they stand there. What is refused leaves nothing on standard output. A run of more than
a second whose standard error is a terminal shows a line of how far it is, and wipes it before findings are written, and before it ends, well or
not; a pipe sees nothing of that."""
from __future__ import annotations

import json
import pathlib
import re
import resource
import signal
import subprocess
import sys
import tempfile
from collections.abc import Iterator
from typing import NamedTuple

sys.dont_write_bytecode = True
sys.path[0] = str(pathlib.Path(__file__).resolve().parents[2])
from checks import common
from checks.common import TOP, Count, Ran, Word
from checks.measure import performance
from checks.pages.pages import TYPED, blocks_in
from checks.program.faults import DOUBLE_NAME, LONGEST, NOTHING, Case, begins, exactly, ran
from checks.program.progress import PATIENCE, WIPED, Command, terminal

NAME = 'mcscheck'
# the page, and the system of its examples
PAGE, SYSTEM = TOP / 'docs' / 'CHECK.md', TOP / 'docs' / 'late.toml'
CLEAN = 'missed 0 overdue 0 untaken 0 lost 0 never 0 merged 0 allowed 0 unjudged %d hints %d threads %d deadlines %d judged %d\n'
READ_FAILED, WRITE_FAILED = (exactly(f'{NAME}: {what} failed\n'.encode()) for what in ('read', 'write'))
NO_MEMORY = exactly(f'{NAME}: no memory\n'.encode())
MIXED_ROUND = f'{NAME}: --why: not with --show, --strict, --allow-lost or --format csv\n'
UNKNOWN = f'{NAME}: --allow-lost: no notification is called "%s": %s\n'
# a system without a thread, and one of two notifications of like names
EMPTY = b'version = 1\ncores = 1\ndelay = 1\ncontext = [{ name = "a", core = 0, budget = 2, period = 5 }]\n'
NOTES = EMPTY + b'note = [{ name = "tick", core = 0 }, { name = "tock", core = 0 }]\n'
# a job of A ends 2 ticks after each multiple of 5, which is its deadline; nobody has the context b
MET = b'''version = 1
cores = 1
delay = 1
context = [{ name = "a", core = 0, budget = 2, period = 5 }, { name = "b", core = 0, budget = 1, period = 5 }]
thread = [{ name = "A", context = "a", priority = 9, deadline = 5, script = ["compute 2"] }]
'''
# the hints of a system without a thread, before and behind those of its contexts
NO_THREAD, UNUSED = b'hint no thread\n', b'hint core 0 has no thread\n'
UNBOUND = b'hint context %s has no thread\n'
# so little that a text of this many bytes has no room
SPACE, LARGE = 48 * 2**20, 40 * 2**20
# a thread that misses its deadline once in some 10^6 ticks
SELDOM_LATE = '''
[[context]]
name = "seldom"
core = 0
budget = 1
period = 1048576

[[thread]]
name = "Seldom"
context = "seldom"
priority = 255
deadline = 10
script = ["compute 2"]
'''


class Shown(NamedTuple):
    """A run of the example that docs/CHECK.md shows: its words, and what it writes."""

    words: list[str]
    written: bytes


class Example(NamedTuple):
    """The system of docs/CHECK.md, as it stands there, with the runs that have findings, and the one that asks why a job took so long."""

    system: bytes
    runs: list[Shown]
    answered: Shown

    def shown(self, what: str) -> Shown:
        """The first run with this word after --show."""
        return next(run for run in self.runs if what in run.words)


def example() -> Example:
    blocks = blocks_in(PAGE.read_text())
    system = next(text for kind, text in blocks if kind == 'toml').encode()
    if system != SYSTEM.read_bytes():
        common.stop(f'{PAGE.name} shows another system than {SYSTEM.name}')
    # options that the launcher reads are for pages.py
    shown = [(text.split(), written.encode()) for (kind, text), (_, written) in zip(blocks, blocks[1:]) if kind == 'sh' and not any(word in text for word in TYPED)]
    runs = [Shown(words[2:], written) for words, written in shown if words[:2] == ['./mcscheck', f'docs/{SYSTEM.name}']]
    asking = [run for run in runs if '--why' in run.words]
    return Example(system, [run for run in runs if run not in asking], asking[0])


def unknown(name: str, said: str) -> bytes:
    return (UNKNOWN % (name, said)).encode()


def clean(*, unjudged: int = 0, hints: int = 0, threads: int = 0, deadlines: int = 0, judged: int = 0) -> bytes:
    """The line of counts where nothing is found."""
    return (CLEAN % (unjudged, hints, threads, deadlines, judged)).encode()


def cases_of_what_is_judged() -> Iterator[Case]:
    """Systems in which nothing is found: what was judged decides, and with --strict hints and unjudged threads."""
    findings = '--show=findings'
    hints = NO_THREAD + UNBOUND % b'a' + UNUSED
    yield Case('no thread', [findings], EMPTY, exactly(hints + clean(hints=3)), NOTHING, 6)
    yield Case('no thread, and hints that count', [findings, '--strict'], EMPTY, exactly(hints + clean(hints=3)), NOTHING, 5)
    yield Case('hints and figures', ['--horizon=5'], EMPTY, exactly(hints + b'context a unused 2\n' + clean(hints=3)), NOTHING, 6)
    yield Case('jobs of no thread', ['--show=jobs', '--strict'], EMPTY, exactly(clean(hints=3)), NOTHING, 5)
    yield Case('no row of CSV', ['--show=jobs', '--format=csv'], EMPTY, begins(b'moment,core,kind,thread,number,'), NOTHING, 6)
    first = b'{"kind":"hint","hint":"no_thread"}\n{"kind":"hint","hint":"unbound","context":"a"}\n{"kind":"hint","hint":"unused","core":0}\n{"kind":"counts",'
    yield Case('hints as JSON', [findings, '--format=json'], EMPTY, begins(first, b'"hints":3,"threads":0,"deadlines":0,"judged":0}\n'), NOTHING, 6)
    top = EMPTY.partition(b'context')[0]
    ways: tuple[tuple[list[str], int], ...] = (([], 6), (['--strict'], 5))
    for words, status in ways:
        yield Case(f'nothing with {words}', words, top, exactly(NO_THREAD + UNUSED + clean(hints=2)), NOTHING, status)
    unbound, twelve = UNBOUND % b'b', ['--horizon=12', findings]
    met = clean(hints=1, threads=1, deadlines=1, judged=3)
    yield Case('three jobs that end in time', twelve, MET, exactly(unbound + met), NOTHING, 0)
    yield Case('three jobs, and a hint that counts', [*twelve, '--strict'], MET, exactly(unbound + met), NOTHING, 5)
    alone = MET.replace(b', { name = "b", core = 0, budget = 1, period = 5 }', b'')
    yield Case('three jobs, and nothing in doubt', [*twelve, '--strict'], alone, exactly(clean(threads=1, deadlines=1, judged=3)), NOTHING, 0)
    none = b'hint no thread has a deadline\n' + clean(hints=1, threads=1)
    without = alone.replace(b' deadline = 5,', b'')
    yield Case('three jobs without a deadline', twelve, without, exactly(none), NOTHING, 6)
    yield Case('a hint of no deadline as JSON', [*twelve, '--format=json'], without, begins(b'{"kind":"hint","hint":"no_deadline"}\n'), NOTHING, 6)
    yield from cases_of_a_job_that_goes_on(alone)


def cases_of_a_job_that_goes_on(system: bytes) -> Iterator[Case]:
    """A horizon at which the first job has not ended, and still has time."""
    asked, counts = ['--horizon=1', '--show=findings'], clean(unjudged=1, threads=1, deadlines=1)
    line = b'1 0 unjudged A deadline 5 activated 0\n'
    yield Case('a job that goes on', asked, system, exactly(line + counts), NOTHING, 6)
    yield Case('a job that goes on, which counts', [*asked, '--strict'], system, exactly(line + counts), NOTHING, 5)
    yield Case('a job that goes on as CSV', [*asked, '--format=csv'], system, begins(b'moment,', b'\n1,0,unjudged,A,,,,,,5,0,,,,,,,\n'), NOTHING, 6)
    values = b'{"moment":1,"core":0,"kind":"unjudged","thread":"A","deadline":5,"activated":0}\n'
    yield Case('a job that goes on as JSON', [*asked, '--format=json'], system, begins(values, b'"unjudged":1,"hints":0,"threads":1,"deadlines":1,"judged":0}\n'), NOTHING, 6)
    # nine ticks of work need five budgets; at 5 the first of them is exhausted and the deadline is there
    late = system.replace(b'compute 2', b'compute 9')
    line = b'5 0 overdue A round 1 age 5 deadline 5 activated 0 queued 0 ready 0 running 2 throttled 3 blocked 0 server 0\n'
    judged = clean(threads=1, deadlines=1, judged=1).replace(b'overdue 0', b'overdue 1')
    yield Case('a job that can only be late', ['--horizon=5', '--show=findings'], late, exactly(line + judged), NOTHING, 5)


def shares(*parts: tuple[int, int]) -> bytes:
    """A system of one core, with a thread for each of these budgets and periods that computes once, for a tick, and has a long deadline."""
    context = ', '.join(f'{{ name = "c{place}", core = 0, budget = {budget}, period = {period} }}' for place, (budget, period) in enumerate(parts))
    end = 'priority = 5, rounds = 1, deadline = 99, script = ["compute 1"]'
    thread = ', '.join(f'{{ name = "T{place}", context = "c{place}", {end} }}' for place in range(len(parts)))
    return f'version = 1\ncores = 1\ndelay = 1\ncontext = [{context}]\nthread = [{thread}]\n'.encode()


def cases_of_exact_sums() -> Iterator[Case]:
    """Cores whose budgets over periods sum to just 1, to hardly more, and to hardly less."""
    p, q = 2**40 - 1, 2**40 - 3
    # a / p + b / q is 1 + 1 / (p * q)
    a = pow(q, -1, p)
    b = (p * q + 1 - a * q) // p
    sums = {
        'just 1': (((1, 3), (1, 3), (1, 3)), False), 'just 1 by long periods': (((a, p), (p - a, p)), False),
        'hardly more than 1': (((1, 3), (1, 3), (333_334, 1_000_000)), True), 'hardly less than 1': (((1, 3), (1, 3), (333_333, 1_000_000)), False),
        '2^-80 more than 1': (((a, p), (b, q)), True), 'less than 1': (((a, p), (b - 1, q)), False), 'all of many': (((1, 64),) * 64, False),
        '1 and 2^-40': (((1, 64),) * 64 + ((1, 2**40),), True),
    }
    for name, (parts, is_more) in sums.items():
        hint = b'hint core 0 grants 1000001 of 1000000\n' * is_more
        counts = clean(hints=int(is_more), threads=len(parts), deadlines=len(parts), judged=len(parts))
        yield Case(f'a sum of {name}', ['--horizon=80', '--show=findings'], shares(*parts), exactly(hint + counts), NOTHING, 0)


def cases_of_findings() -> Iterator[Case]:
    """A system with findings, in several ways."""
    shown = example()
    system = shown.system
    for words, written in shown.runs:
        yield Case(f'the example with {words}', words, system, exactly(written), NOTHING, 5)
        yield Case(f'two workers with {words}', [*words, '--workers', '2'], system, exactly(written), NOTHING, 5)
    words, written = shown.shown('findings')
    both = written[:written.rindex(b'missed ')] + shown.shown('table').written
    ways: tuple[list[str], ...] = ([], ['--show', 'both'], ['--workers', '2'])
    for asked in ways:
        yield Case(f'findings and figures with {asked}', ['--horizon', '30', *asked], system, exactly(both), NOTHING, 5)
    allowed = b''.join(line for line in written.splitlines(keepends=True) if b' lost tick ' not in line)
    allowed = allowed.replace(b'lost 2', b'lost 0').replace(b'allowed 0', b'allowed 2')
    yield Case('allowed', [*words, '--allow-lost', 'tick', '--allow-lost', 'fire'], system, exactly(allowed), NOTHING, 5)


def cases_of_files(folder: pathlib.Path) -> Iterator[Case]:
    """Files that are refused, or cannot be read."""
    cut = folder / 'cut.toml'
    cut.write_bytes(b'version = 1\n')
    asked = ['--allow-lost', 'none']
    yield Case('a file', [cut], b'', NOTHING, exactly(b'mcscheck: missing key at top cores\n'), 1)
    yield Case('a fault of a row', asked, DOUBLE_NAME, NOTHING, exactly(b'mcscheck: double name at context 2 name\n'), 1)
    yield Case('a fault of the text before a name', [*asked, cut], b'', NOTHING, exactly(b'mcscheck: missing key at top cores\n'), 1)
    yield Case('no such file before a name', [*asked, folder / 'none.toml'], b'', NOTHING, READ_FAILED, 3)
    yield Case('a folder', [folder], b'', NOTHING, READ_FAILED, 3)
    yield Case('a text that is too long', [], b'\n' * (LONGEST + 1), NOTHING, READ_FAILED, 3)


def cases_of_words(folder: pathlib.Path) -> Iterator[Case]:
    """Words that are refused, names that are not known, and the help."""
    not_text = b'error: invalid UTF-8 was detected in one or more arguments\n'
    for words in (['--workers', '65'], ['--horizon', '1099511627777'], ['--show', 'all'], ['--show'], ['--format', 'yaml'], ['--show', 'jobs', '--show', 'jobs'], ['--strict', '--strict'], ['--allow-lost'], ['a', 'b']):
        yield Case(f'{words}, and no such file', [folder / 'none.toml', *words], b'', NOTHING, begins(b'error: ', words[0].encode()), 2)
    mixed = b'mcscheck: --format csv: rows are of one kind: --show findings, jobs or table\n'
    for words in (['--show', 'both', '--format', 'csv'], ['--format', 'csv']):
        yield Case(f'rows of two kinds by {words}', words, NOTES, NOTHING, exactly(mixed), 2)
    yield Case('a word that is not UTF-8', [b'\xff'], b'', NOTHING, exactly(not_text), 2)
    for name, near in (('tack', 'tick'), ('tocks', 'tock'), ('', 'tick'), ('TOCK', 'tick'), ('-n', 'tick')):
        yield Case(f'an unknown name {name!r}', [f'--allow-lost={name}'], NOTES, NOTHING, exactly(unknown(name, f'the nearest is {near}')), 2)
    yield Case('a name of two lines', ['--allow-lost=a\nb'], NOTES, NOTHING, exactly(unknown('a\\nb', 'the nearest is tick')), 2)
    first = ['--allow-lost', 'tock', '--allow-lost', 'one', '--allow-lost', 'two']
    yield Case('the first unknown name', first, NOTES, NOTHING, exactly(unknown('one', 'the nearest is tock')), 2)
    yield Case('a name where there is none', ['--allow-lost', 'tick'], EMPTY, NOTHING, exactly(unknown('tick', 'there is none')), 2)
    # a name has at most 32 bytes, so none is near to a text of more than twice as many, which is refused at once
    for length, said in ((64, 'the nearest is tick'), (65, 'there is none'), (100_000, 'there is none')):
        name = 'x' * length
        yield Case(f'a name of {length} bytes', ['--allow-lost', name], NOTES, NOTHING, exactly(unknown(name, said)), 2)
    for word in ('--help', '-h'):
        yield Case(word, [word], b'', begins(b'', b'Usage: mcscheck [OPTIONS] [FILE]'), NOTHING, 0)


def cases_of_rounds(folder: pathlib.Path) -> Iterator[Case]:
    """Why a round took so long, and rounds that are not there; each fault comes before those behind it."""
    system, _, (words, written) = example()
    ways: tuple[list[str], ...] = ([], ['--workers', '2'], ['--format', 'text'])
    for more in ways:
        yield Case(f'a round with {more}', [*words, *more], system, exactly(written), NOTHING, 0)
    yield Case('a round as JSON', [*words, '--format', 'json'], system, begins(b'{"moment":8,', b'{"kind":"idle","ticks":10}\n'), NOTHING, 0)
    mixed = exactly(MIXED_ROUND.encode())
    for more in (['--strict'], ['--show=findings'], ['--show', 'jobs'], ['--format', 'csv'], ['--allow-lost', 'tick']):
        yield Case(f'a round and {more}', [*words, *more], system, NOTHING, mixed, 2)
    yield Case('no such file before a thread', ['--why', 'None', '1', folder / 'none.toml'], b'', NOTHING, READ_FAILED, 3)
    yield Case('a fault of the text before a thread', ['--why', 'None', '1'], DOUBLE_NAME, NOTHING, exactly(b'mcscheck: double name at context 2 name\n'), 1)
    for name, said in (('Lop', 'the nearest is Loop'), ('a\nb', 'the nearest is Loop'), ('clock', 'the nearest is Clock')):
        yield Case(f'a thread {name!r}', ['--why', name, 'none'], system, NOTHING, exactly(no_thread(name, said)), 2)
    yield Case('a thread where there is none', ['--why', 'A', '1'], EMPTY, NOTHING, exactly(no_thread('A', 'there is none')), 2)
    # a thread that has started is on the way to its first wait, which is its first round
    later = system.replace(b'priority = 9,', b'priority = 9, start = 2,')
    for number in ('0', '4', 'last', '18446744073709551617', ''):
        for text, horizon, said in ((system, 30, 'there are rounds 1 to 3'), (system, 3, 'there is round 1'), (system, 1, 'there is round 1'), (later, 1, 'there is none')):
            line = f'{NAME}: --why: no round "{number}" of Loop: {said}\n'.encode()
            asked = ['--horizon', str(horizon), '--why', 'Loop', number]
            yield Case(f'round {number!r} up to {horizon}: {said}', asked, text, NOTHING, exactly(line), 2)
    for wrong in (['--why', 'Loop'], ['--why=Loop'], ['--why', 'Loop', '1', '--why', 'Loop', '2']):
        yield Case(f'{wrong}', wrong, system, NOTHING, begins(b'error: ', b'--why'), 2)
    yield Case('a round on a full device', words, system, NOTHING, WRITE_FAILED, 3, '/dev/full')


def no_thread(name: str, said: str) -> bytes:
    return f'{NAME}: --why: no thread is called {json.dumps(name)}: {said}\n'.encode()


def cases_of_targets() -> Iterator[Case]:
    """A device that takes nothing."""
    system, runs, _ = example()
    for words, _ in runs:
        yield Case(f'{words} on a full device', words, system, NOTHING, WRITE_FAILED, 3, '/dev/full')
    yield Case('help on a full device', ['--help'], b'', NOTHING, WRITE_FAILED, 3, '/dev/full')
    yield Case('a fault of the file and a full device', [], b'', NOTHING, exactly(b'mcscheck: missing key at top version\n'), 1, '/dev/full')


def little_space() -> None:
    resource.setrlimit(resource.RLIMIT_AS, (SPACE, SPACE))


def try_without_memory(program: pathlib.Path, count: Count) -> None:
    ended = common.run([program], b'\n' * LARGE, preexec_fn=little_space)
    count.expect(f'little memory: {ended}', ended.status == 4 and NOTHING(ended.stdout) and NO_MEMORY(ended.stderr))


def limited() -> None:
    # a kilobyte; the kernel then sends SIGXFSZ, which Python would ignore
    signal.signal(signal.SIGXFSZ, signal.SIG_DFL)
    resource.setrlimit(resource.RLIMIT_FSIZE, (1024, 1024))


def last_line(text: bytes) -> bytes:
    """The last line of a text, or nothing if it has none."""
    return text.rpartition(b'\n')[0].rpartition(b'\n')[2]


def try_signals(program: pathlib.Path, folder: pathlib.Path, count: Count) -> None:
    """What a signal ends has written a first part, and no line of counts; its exit code, which a shell tells as 128 and more, is that of the signal."""
    file, out = folder / 'late.toml', folder / 'out'
    file.write_text(performance.crowd(1, 8) + SELDOM_LATE)
    for form in ('text', 'csv', 'json'):
        command: list[Word] = [program, file, '--horizon', '100000', '--show', 'jobs', '--format', form]
        whole = common.run(command).stdout
        with open(out, 'wb') as target:
            status = subprocess.run(command, stdin=subprocess.DEVNULL, stdout=target, preexec_fn=limited).returncode
        written = out.read_bytes()
        good = status == -signal.SIGXFSZ and whole.startswith(written) and 0 < len(written) < len(whole) and b'missed' not in written
        count.expect(f'a limit of the size of files, {form}: status {status}, {len(written)} bytes', good)
        with subprocess.Popen([*command[:3], str(2**40), *command[4:]], stdin=subprocess.DEVNULL, stdout=subprocess.PIPE) as running:
            assert running.stdout
            written = running.stdout.read(1 << 16)
            running.kill()
            written += running.stdout.read()
        good = running.returncode == -signal.SIGKILL and written.startswith(whole[:1000]) and b'missed' not in written
        count.expect(f'a run that is killed, {form}: status {running.returncode}, {len(written)} bytes', good)
    # the line of counts ends text and JSON, and CSV has none
    counts = [last_line(common.run([program, file, '--show', 'jobs', '--format', form]).stdout).count(b'missed') for form in ('text', 'csv', 'json')]
    count.expect(f'counts at the end of text, CSV and JSON: {counts}', counts == [1, 0, 1])


def try_progress_among_findings(program: pathlib.Path, folder: pathlib.Path, horizon: int, count: Count) -> None:
    """One terminal shows findings and how far the run is: each finding stands in a line of its own."""
    file = folder / 'seldom.toml'
    file.write_text(performance.crowd(1, 8) + SELDOM_LATE)
    command: list[Word] = [program, file, '--horizon', str(2 * horizon)]
    with terminal() as (theirs, seen):
        status = subprocess.run(command, stdin=subprocess.DEVNULL, stdout=theirs, stderr=theirs).returncode
    shown = seen.decode()
    lines, times = re.subn(rf'(?:\rmcscheck: \d+ of {2 * horizon}\x1b\[K)+{re.escape(WIPED)}', '', shown)
    wanted = common.run(command, seconds=PATIENCE)
    good = status == wanted.status == 5 and times > 0 and lines == wanted.stdout.decode().replace('\n', '\r\n')
    count.expect(f'findings among progress, {times} times, up to {2 * horizon}: {shown[:300]!r}', good)


def try_progress(program: pathlib.Path, folder: pathlib.Path, count: Count) -> None:
    file, out = folder / 'long.toml', folder / 'out'
    file.write_text(performance.crowd(1, 8))
    command = Command(program, file, ('--show', 'findings'))
    with open(out, 'wb') as target:
        count.expect('a short run shows something', command.on_terminal(1000, target) == (6, ''))
    long = command.long_run(out)
    wanted = b'hint no thread has a deadline\n' + clean(hints=1, threads=8)
    good = long.status == 6 and command.is_progress(long) and out.read_bytes() == wanted
    count.expect(f'progress up to {long.horizon}: {long.shown[:60]!r}..{long.shown[-60:]!r}', good)
    lost = command.long_run(pathlib.Path('/dev/full'), long)
    good = lost.status == 3 and command.is_progress(lost, 'mcscheck: write failed\r\n')
    count.expect(f'progress up to {lost.horizon} of a run that cannot write: {lost.shown[-80:]!r}', good)
    try_progress_among_findings(program, folder, min(long.horizon, lost.horizon), count)
    count.expect('a pipe sees progress', common.run(command.line(long.horizon), seconds=PATIENCE) == Ran(6, wanted, b''))


def main() -> None:
    simulator = common.built_program(common.asking_program(__doc__).parse_args().program)
    program, count = common.beside(simulator, NAME), Count()
    with tempfile.TemporaryDirectory() as name:
        folder = pathlib.Path(name)
        for case in (*cases_of_findings(), *cases_of_what_is_judged(), *cases_of_exact_sums(), *cases_of_files(folder), *cases_of_words(folder), *cases_of_rounds(folder), *cases_of_targets()):
            ended = ran(program, case)
            differs = case.differs(ended)
            count.expect(f'{case.name}: {differs} differ: {ended}', not differs)
        try_without_memory(program, count)
        try_signals(program, folder, count)
        try_progress(program, folder, count)
    count.end()


if __name__ == '__main__':
    main()
