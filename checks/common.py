"""What the scripts of this folder share: where things stand, the built program, and the count with which each of them ends.

The last line of each script that tries something is 'N passed, M failed', with ', K skipped' where something that it needs is not there. Its
status is 0 where M is 0 and something passed or was skipped."""
from __future__ import annotations

import argparse
import contextlib
import os
import pathlib
import re
import signal
import subprocess
import sys
from collections.abc import Iterable, Iterator, Mapping, Sequence
from typing import Any, NamedTuple, NoReturn, Union

TOP = pathlib.Path(__file__).resolve().parent.parent
DATA = TOP / 'crates' / 'mcs_corpus' / 'data'
# the programs that come with the repository, the simulator first
PROGRAMS = ('mcsim', 'mcscheck')


def built_of(name: str) -> pathlib.Path:
    """Where the gate leaves a program."""
    return TOP / 'crates' / name / 'out' / name


# the program as the gate leaves it, and the one that comes with the repository
BUILT = built_of('mcsim')
SHIPPED = TOP / 'bin' / 'mcsim'
# mcscheck, the same way
BUILT_CHECKER = TOP / 'crates' / 'mcscheck' / 'out' / 'mcscheck'
SHIPPED_CHECKER = TOP / 'bin' / 'mcscheck'
# the library for C, the same way
LIBRARY = TOP / 'crates' / 'mcs_c' / 'out' / 'libmcs_c.a'
SHIPPED_LIBRARY = TOP / 'bin' / 'libmcs_c.a'
# a single run that takes longer has no answer
SECONDS = 60

Word = Union[str, bytes, 'os.PathLike[str]']


class Tally(NamedTuple):
    """How much passed, failed and was skipped."""

    passed: int = 0
    failed: int = 0
    skipped: int = 0

    def __str__(self) -> str:
        skipped = f', {self.skipped} skipped' if self.skipped else ''
        return f'{self.passed} passed, {self.failed} failed{skipped}'

    def plus(self, other: Tally) -> Tally:
        return Tally(self.passed + other.passed, self.failed + other.failed, self.skipped + other.skipped)

    @property
    def status(self) -> int:
        """The exit status: a script that tried nothing and skipped nothing has shown nothing."""
        return 0 if self.failed == 0 and self.passed + self.skipped > 0 else 1


def tally_of(line: str) -> Tally | None:
    """The count that a line tells, or None where it is another line."""
    found = re.fullmatch(r'(\d+) passed, (\d+) failed(?:, (\d+) skipped)?(?: \(.*\))?', line.strip())
    return Tally(*(int(number or 0) for number in found.groups())) if found else None


def last_tally(text: str) -> Tally:
    """The count of the last line, which has to tell one."""
    found = tally_of(text.splitlines()[-1])
    assert found, text
    return found


class Count:
    """Counts tries, and says at once what failed or was skipped."""

    def __init__(self) -> None:
        self.tally = Tally()

    def add(self, passed: int = 0, failed: int = 0) -> None:
        self.tally = self.tally.plus(Tally(passed, failed))

    def expect(self, what: str, good: bool) -> None:
        """A try, and what is said of it where it is not good."""
        self.add(passed=int(good), failed=int(not good))
        if not good:
            print(f'failed: {what}', flush=True)

    def expect_all(self, seen: Mapping[str, int], wanted: Sequence[str]) -> None:
        """Writes how often random systems showed each of these, and expects each at least once."""
        print(', '.join(f'{what} {seen[what]}' for what in wanted))
        for what in wanted:
            self.expect(f'no system shows: {what}', seen[what] > 0)

    def skip(self, what: str) -> None:
        print(f'skipped: {what}', flush=True)
        self.tally = self.tally.plus(Tally(skipped=1))

    def end(self) -> NoReturn:
        """Writes the last line, and ends the script."""
        print(self.tally)
        sys.exit(self.tally.status)


def stop(why: str) -> NoReturn:
    """Ends a script that cannot try anything, which is a failure."""
    print(f'{pathlib.Path(sys.argv[0]).name}: {why}', file=sys.stderr)
    print(Tally(failed=1))
    sys.exit(1)


def asking(doc: str | None) -> argparse.ArgumentParser:
    """A parser of the words of a script, whose help is the script's own text."""
    return argparse.ArgumentParser(description=doc, formatter_class=argparse.RawDescriptionHelpFormatter)


def asking_program(doc: str | None) -> argparse.ArgumentParser:
    """The same of a script that tries the built program."""
    parser = asking(doc)
    parser.add_argument('--program', type=pathlib.Path, metavar='PATH', help='the built program (default: crates/mcsim/out/mcsim, else bin/mcsim)')
    return parser


def asking_random(doc: str | None, many: int, what: str = 'systems') -> argparse.ArgumentParser:
    """The same of a script that makes random systems, or others, as many as --systems, or such a word, says."""
    parser = asking_program(doc)
    parser.add_argument(f'--{what}', type=int, default=many, help='how many random ones (default: %(default)s)')
    parser.add_argument('--seed', type=int, default=1, help='of the random ones (default: %(default)s)')
    return parser


def is_program(path: pathlib.Path) -> bool:
    return path.is_file() and os.access(path, os.X_OK)


def first_program(places: Iterable[pathlib.Path]) -> pathlib.Path | None:
    """The first of these places at which a program stands."""
    return next((place for place in places if is_program(place)), None)


def built_program(given: pathlib.Path | None) -> pathlib.Path:
    """The program that was given, or else the one that is found."""
    if given and not is_program(given):
        stop(f'{given} is no program')
    found = given or first_program((BUILT, SHIPPED))
    if found is None:
        stop('no built program was found: ./mcsim --prove builds one, and --program PATH gives one')
    return found.resolve()


def beside(program: pathlib.Path, name: str) -> pathlib.Path:
    """Another program of this repository: the one beside a program, or else the one that was built here, or that of bin/."""
    places = (program.parent / name, built_of(name), SHIPPED.parent / name)
    found = first_program(places)
    if found is None:
        stop(f'there is no program {name} beside {program}, and none in crates/{name}/out or in bin')
    return found.resolve()


def checker_of(program: pathlib.Path) -> pathlib.Path | None:
    """mcscheck: that which stands beside the program that is tried, or the one that was built here or comes with the repository."""
    return first_program((program.with_name('mcscheck'), BUILT_CHECKER, SHIPPED_CHECKER))


class Ran(NamedTuple):
    """What a run came to."""

    status: int
    stdout: bytes
    stderr: bytes


NO_ANSWER = Ran(-1, b'', b'no answer in time\n')


def run(command: Sequence[Word], stdin: bytes = b'', seconds: float = SECONDS, **how: Any) -> Ran:
    """Runs a command to its end, or as long as it may take."""
    try:
        ended = subprocess.run(command, input=stdin, capture_output=True, timeout=seconds, **how)
    except subprocess.TimeoutExpired:
        return NO_ANSWER
    return Ran(ended.returncode, ended.stdout, ended.stderr)


@contextlib.contextmanager
def started(command: Sequence[Word]) -> Iterator[subprocess.Popen[str]]:
    """A command at the top of the repository, whose output can be read while it runs; it ends where this script is stopped."""
    signal.signal(signal.SIGTERM, lambda *_: sys.exit(128 + signal.SIGTERM))
    how: dict[str, Any] = {'stdin': subprocess.DEVNULL, 'stdout': subprocess.PIPE, 'text': True, 'errors': 'replace'}
    with subprocess.Popen(command, cwd=TOP, **how) as running:
        try:
            yield running
        except BaseException:
            running.terminate()
            raise
        finally:
            signal.signal(signal.SIGTERM, signal.SIG_DFL)
