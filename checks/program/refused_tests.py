#!/usr/bin/env python3
"""Checks that each test passes, or reports out of memory, wherever an allocation fails.

Its n-th growth is refused, for n = 1, 2, .. until a run meets none; past the thousandth n goes on by a hundredth of its thousands. `rt test` builds
the tests of a crate first, and proves what has changed (`rt try --test --fail-alloc N`, which does this of one growth, would build them anew for
each); with --built they are run as the gate or an earlier `rt test` left them. A test that ends otherwise is a failure, whose text is shown once for
each test. Each test has a line. It needs a C compiler, cc; without one all of it is skipped."""
from __future__ import annotations

import pathlib
import re
import subprocess
import sys
import tempfile

sys.dont_write_bytecode = True
sys.path[0] = str(pathlib.Path(__file__).resolve().parents[2])
from checks import common
from checks.common import TOP, Count
from checks.program import refusing

CRATES = TOP / 'crates'
WANT = re.compile(rb'NoMemory|AllocError|AllocFailed|OutOfMemory|no memory|out of memory')
# the statuses with which a test fails: a failed assertion, and an abort
FAILED = (1, 101, -6)
FULL = 1000
SHOWN = 20


def build(crate: pathlib.Path) -> None:
    made = subprocess.run(['rt', 'test', '--jobs', '1'], cwd=crate, stdout=subprocess.PIPE, stderr=subprocess.STDOUT)
    if made.returncode:
        sys.stderr.write(made.stdout.decode(errors='replace'))
        common.stop(f'the tests of {crate.name} do not pass')


def has_tests(crate: pathlib.Path) -> bool:
    return any('#[test]' in file.read_text() for file in crate.glob('src/**/*.rt'))


def tests_of(program: pathlib.Path) -> list[str]:
    listed = subprocess.run([program, '--list'], capture_output=True, check=True, text=True).stdout
    return re.findall(r'^(\S+): test$', listed, re.M)


def after(growth: int) -> int:
    """The next growth that is refused."""
    return growth + max(1, growth // FULL * FULL // 100)


class Found:
    """What the runs of a test came to: how many there were, how many ended without memory, the numbers of the wrong ones, and what the first of these
    said."""

    def __init__(self) -> None:
        self.runs = self.without = 0
        self.wrong: list[int] = []
        self.said = ''

    def take(self, growth: int, got: refusing.Answer | None) -> None:
        self.runs += 1
        if got is None:
            self.note(growth, f'had not ended after {common.SECONDS} seconds')
        elif got.status in FAILED and got.refused and WANT.search(got.stdout + got.stderr):
            self.without += 1
        elif got.status:
            self.note(growth, f'status {got.status}\n{(got.stdout + got.stderr).decode(errors="replace").strip()}')

    def note(self, growth: int, said: str) -> None:
        self.wrong.append(growth)
        self.said = self.said or said

    def __str__(self) -> str:
        wrong = f', {len(self.wrong)} wrong at {self.wrong[:SHOWN]}\n{self.said}' if self.wrong else ''
        return f'{self.runs} runs, {self.without} without memory{wrong}'


def tried(program: pathlib.Path, test: str, library: pathlib.Path) -> Found:
    """Runs a test until nothing is refused, or a run gives no answer."""
    found, growth = Found(), 1
    while True:
        got = refusing.answer([program, test], library, growth, growth, folder=program.parent)
        found.take(growth, got)
        if got is None or not got.refused:
            return found
        growth = after(growth)


def main() -> None:
    parser = common.asking(__doc__)
    parser.add_argument('--built', action='store_true', help='runs the tests as they were built')
    parser.add_argument('crates', nargs='*', metavar='CRATE')
    words = parser.parse_args()
    count = Count()
    if not refusing.is_there():
        count.skip('the refused growths, since there is no C compiler, cc')
        count.end()
    with tempfile.TemporaryDirectory() as folder:
        library = refusing.compiled(folder)
        for crate in filter(has_tests, [CRATES / name for name in words.crates] or sorted(CRATES.iterdir())):
            if not words.built:
                build(crate)
            program = crate / 'out' / f'{crate.name}_tests'
            for test in tests_of(program):
                found = tried(program, test, library)
                count.add(passed=found.runs - len(found.wrong), failed=len(found.wrong))
                print(f'{crate.name} {test}: {found}', flush=True)
    count.end()


if __name__ == '__main__':
    main()
