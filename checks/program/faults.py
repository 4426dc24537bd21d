#!/usr/bin/env python3
"""Checks the texts and exit codes of the programs if options, files, input or output are wrong, and the help.

Standard output, standard error and status of each run are compared with what docs/FORMAT.md says. Beside the faults there are its help, and the
schedule of a file that is named."""
from __future__ import annotations

import pathlib
import subprocess
import sys
import tempfile
from collections.abc import Callable, Iterator, Sequence
from typing import NamedTuple

sys.dont_write_bytecode = True
sys.path[0] = str(pathlib.Path(__file__).resolve().parents[2])
from checks import common
from checks.common import DATA, Count, Ran, Word

FIRST = DATA / 'examples' / 'depletes_and_refills.toml'
SHORT = FIRST.with_suffix('') / 'short.stdout'
WORDS = SHORT.with_suffix('.words').read_text().split()
LONGEST = 2**26
DOUBLE_NAME = b'''version = 1
cores = 1
delay = 1
context = [{ name = "a", core = 0, budget = 2, period = 5 }, { name = "a", core = 0, budget = 2, period = 5 }]
thread = [{ prio = 1, name = "A", context = "a", priority = 5, script = ["compute 5"] }]
'''

Wanted = Callable[[bytes], bool]


def exactly(wanted: bytes) -> Wanted:
    return lambda got: got == wanted


def begins(wanted: bytes, part: bytes = b'') -> Wanted:
    return lambda got: got.startswith(wanted) and part in got


NOTHING = exactly(b'')
SCHEDULE = exactly(SHORT.read_bytes())
READ_FAILED = exactly(b'mcsim: read failed\n')
WRITE_FAILED = exactly(b'mcsim: write failed\n')


class Case(NamedTuple):
    """A run: its words and its input, and what it must give. Where `target` is given, it writes there."""

    name: str
    words: Sequence[Word]
    stdin: bytes
    stdout: Wanted
    stderr: Wanted
    status: int
    target: str | None = None

    def differs(self, ran: Ran) -> str:
        """What of the run is not as it must be."""
        good = {'standard output': self.stdout(ran.stdout), 'standard error': self.stderr(ran.stderr), 'status': ran.status == self.status}
        return ', '.join(part for part, is_good in good.items() if not is_good)


def cases_of_files(folder: pathlib.Path) -> Iterator[Case]:
    """Files and inputs that are read, or cannot be."""
    cut = folder / 'cut.toml'
    cut.write_bytes(b'version = 1\n')
    yield Case('a file', [FIRST, *WORDS], b'', SCHEDULE, NOTHING, 0)
    yield Case('standard input', WORDS, FIRST.read_bytes(), SCHEDULE, NOTHING, 0)
    yield Case('no such file', [folder / 'none.toml'], b'', NOTHING, READ_FAILED, 3)
    yield Case('a folder', [folder], b'', NOTHING, READ_FAILED, 3)
    yield Case('a file in a file', [cut / 'system.toml'], b'', NOTHING, READ_FAILED, 3)
    yield Case('a file without its rest', [cut], b'', NOTHING, exactly(b'mcsim: missing key at top cores\n'), 1)
    yield Case('a double name', [], DOUBLE_NAME, NOTHING, exactly(b'mcsim: double name at context 2 name\n'), 1)
    yield Case('the longest text', [], b'\n' * LONGEST, NOTHING, exactly(b'mcsim: missing key at top version\n'), 1)
    yield Case('a longer text', [], b'\n' * (LONGEST + 1), NOTHING, READ_FAILED, 3)


def cases_of_words(folder: pathlib.Path) -> Iterator[Case]:
    """Words that are wrong, and the help."""
    many = ['--workers', '65']
    not_text = b'error: invalid UTF-8 was detected in one or more arguments\n'
    yield Case('too many workers', many, b'', NOTHING, begins(b'error: ', b'65'), 2)
    yield Case('a name before a fault of the words', [folder / 'none.toml', *many], b'', NOTHING, begins(b'error: ', b'65'), 2)
    yield Case('an option twice', ['--horizon', '1', '--horizon', '1'], b'', NOTHING, begins(b'error: ', b'--horizon'), 2)
    yield Case('a word that is not UTF-8', [b'\xff'], b'', NOTHING, exactly(not_text), 2)
    yield Case('help', ['--help'], b'', begins(b'', b'Usage: mcsim [OPTIONS] [FILE]'), NOTHING, 0)


def cases_of_targets() -> Iterator[Case]:
    """A device that takes nothing."""
    yield Case('a schedule on a full device', WORDS, FIRST.read_bytes(), NOTHING, WRITE_FAILED, 3, '/dev/full')
    yield Case('help on a full device', ['--help'], b'', NOTHING, WRITE_FAILED, 3, '/dev/full')


def ran(program: pathlib.Path, case: Case) -> Ran:
    if case.target is None:
        return common.run([program, *case.words], case.stdin)
    with open(case.target, 'wb') as target:
        ended = subprocess.run([program, *case.words], input=case.stdin, stdout=target, stderr=subprocess.PIPE, timeout=common.SECONDS)
    return Ran(ended.returncode, b'', ended.stderr)


def main() -> None:
    program = common.built_program(common.asking_program(__doc__).parse_args().program)
    count = Count()
    with tempfile.TemporaryDirectory() as name:
        folder = pathlib.Path(name)
        for case in (*cases_of_files(folder), *cases_of_words(folder), *cases_of_targets()):
            differs = case.differs(ran(program, case))
            count.expect(f'{case.name}: {differs} differ', not differs)
    count.end()


if __name__ == '__main__':
    main()
