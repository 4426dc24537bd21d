#!/usr/bin/env python3
"""Checks that the library for C returns what the program writes, from C, from Python and from several threads.

Each run of the corpus is made by a call, in a room that is too small, in one that just fits, and in a larger one, whose bytes behind the answer stay
as they were. The lines, or the line of the fault, are those of the program. The example in C and that in Python print the program's reports of each
system. And calls from several threads at once answer the same.

It needs a C compiler (cc), and the library: that which was built here (crates/mcs_c/out/libmcs_c.a), or else bin/libmcs_c.a. Without one of them all
is skipped."""
from __future__ import annotations

import argparse
import concurrent.futures
import ctypes
import pathlib
import shutil
import subprocess
import sys
import tempfile
from typing import NamedTuple

sys.dont_write_bytecode = True
sys.path[0] = str(pathlib.Path(__file__).resolve().parents[2])
from checks import common
from checks.common import DATA, TOP, Count, Ran

sys.path.insert(0, str(TOP / 'examples' / 'python'))
import reports

COMPILER = 'cc'
FLAGS = ('-std=c99', '-Wall', '-Wextra', '-Wpedantic', '-Werror', '-O2', '-I', str(TOP / 'include'))
# what stands in a room before a call
OLD = 0xa5
TOO_FAR = 2**40 + 1
THREADS = 4


class Run(NamedTuple):
    """A run of the corpus: the file, and the words that matter to the library."""

    name: str
    file: pathlib.Path
    horizon: int
    show: str


class Answer(NamedTuple):
    """What a call answers, the length that it gives, and the whole room after it."""

    result: int
    length: int
    room: bytes


def runs() -> list[Run]:
    """The runs of the corpus; the number of workers is no matter of the library's, nor of what is written."""
    parser = argparse.ArgumentParser()
    parser.add_argument('--horizon', type=int, default=1000)
    parser.add_argument('--show', default='schedule')
    parser.add_argument('--workers')
    found = []
    for path in sorted(DATA.glob('*/*/*.words')):
        words = parser.parse_args(path.read_text().split())
        file = path.parent.with_suffix('.toml')
        found.append(Run(str(path.relative_to(DATA).with_suffix('')), file, words.horizon, words.show))
    return found


class Library:
    """The shared library, called as a C program calls it."""

    def __init__(self, path: pathlib.Path) -> None:
        self.call_into = reports.Simulator(path).run_into

    def call(self, text: bytes, horizon: int, show: int, room_bytes: int) -> Answer:
        # a byte more, since no pointer is null
        room = (ctypes.c_char * (room_bytes + 1)).from_buffer(bytearray([OLD]) * (room_bytes + 1))
        length = ctypes.c_size_t(OLD)
        result = self.call_into(text, len(text), horizon, show, room, room_bytes, length)
        return Answer(result, length.value, room.raw)


def old(room_bytes: int) -> bytes:
    """A room, and the byte behind it, as they were before a call."""
    return bytes([OLD]) * (room_bytes + 1)


class Trial:
    """The library and the examples beside the program."""

    def __init__(self, program: pathlib.Path, archive: pathlib.Path, folder: pathlib.Path) -> None:
        self.program, self.count = program, Count()
        self.in_c, self.shared = folder / 'reports', folder / 'libmcs_c.so'
        whole = ('-Wl,--whole-archive', str(archive), '-Wl,--no-whole-archive')
        self.compile('-o', str(self.in_c), str(TOP / 'examples' / 'c' / 'reports.c'), str(archive))
        self.compile('-shared', '-o', str(self.shared), *whole)

    def compile(self, *words: str) -> None:
        if subprocess.run([COMPILER, *FLAGS, *words]).returncode:
            common.stop(f'{COMPILER} did not compile and link {" ".join(words)}')

    def told(self, run: Run, *words: str) -> Ran:
        """What the program tells of a run."""
        return common.run([self.program, str(run.file), '--horizon', str(run.horizon), *words])

    def wanted(self, run: Run) -> tuple[int, bytes]:
        """The answer that the program's run comes to, and the bytes of it."""
        ran = self.told(run, '--show', run.show)
        return (reports.LINES, ran.stdout) if ran.status == 0 else (reports.FAULT, ran.stderr.removesuffix(b'\n'))

    def try_run(self, library: Library, run: Run) -> None:
        """A run by calls, with rooms of three sizes."""
        result, answer = self.wanted(run)
        text, show = run.file.read_bytes(), reports.SHOWS[run.show]
        for room in (len(answer) - 1, len(answer), len(answer) + 100):
            if room < len(answer):
                wanted = Answer(reports.ROOM, len(answer), old(max(room, 0)))
            else:
                wanted = Answer(result, len(answer), answer + old(room - len(answer)))
            if room >= 0:
                self.count.expect(f'{run.name}: a call with a room of {room} bytes', library.call(text, run.horizon, show, room) == wanted)

    def try_refusals(self, library: Library, run: Run) -> None:
        """What is refused leaves the room as it was, and gives the length 0."""
        text, show = run.file.read_bytes(), reports.SHOWS[run.show]
        for horizon, which in ((TOO_FAR, show), (2**64 - 1, show), (run.horizon, 3), (run.horizon, 2**32 - 1)):
            answer = library.call(text, horizon, which, 100)
            self.count.expect(f'horizon {horizon}, show {which}: {answer.result}', answer == Answer(reports.REFUSED, 0, old(100)))

    def try_example(self, name: str, command: list[str], run: Run) -> None:
        """The reports of a run, as an example prints them."""
        wanted, got = self.told(run, '--show', 'reports'), common.run([*command, str(run.file), str(run.horizon)])
        self.count.expect(f'{run.name}: the reports of the example in {name}', got == wanted)

    def try_threads(self, library: Library, run: Run) -> None:
        """Calls at the same time, each with a room of its own: ctypes lets others run during a call."""
        result, answer = self.wanted(run)
        words = (run.file.read_bytes(), run.horizon, reports.SHOWS[run.show], len(answer))
        with concurrent.futures.ThreadPoolExecutor(THREADS) as pool:
            answers = [pool.submit(library.call, *words) for _ in range(100)]
        self.count.expect('calls at the same time', all(it.result() == Answer(result, len(answer), answer + old(0)) for it in answers))

    def all(self) -> None:
        library, found = Library(self.shared), runs()
        self.count.expect('the corpus has more than 100 runs', len(found) > 100)
        for run in found:
            self.try_run(library, run)
        for run in {run.file: run for run in found}.values():
            self.try_example('C', [str(self.in_c)], run)
        for run in {run.file.parent: run for run in found}.values():
            self.try_example('Python', [sys.executable, reports.__file__, str(self.shared)], run)
        self.try_refusals(library, found[0])
        self.try_threads(library, max(found, key=lambda run: run.horizon))


def archive_to_try(given: pathlib.Path | None) -> pathlib.Path | None:
    """The library that was given, or else the one that is found."""
    return given or next((path for path in (common.LIBRARY, common.SHIPPED_LIBRARY) if path.is_file()), None)


def main() -> None:
    parser = common.asking_program(__doc__)
    parser.add_argument('--archive', type=pathlib.Path, metavar='PATH', help='the library (default: crates/mcs_c/out/libmcs_c.a, else bin/libmcs_c.a)')
    words = parser.parse_args()
    archive = archive_to_try(words.archive)
    count = Count()
    if archive is None:
        count.skip('the library for C, since there is no libmcs_c.a, neither in crates/mcs_c/out nor in bin')
        count.end()
    if not archive.is_file():
        common.stop(f'{archive} is no file')
    if shutil.which(COMPILER) is None:
        count.skip(f'the library for C, since there is no C compiler {COMPILER}')
        count.end()
    with tempfile.TemporaryDirectory() as folder:
        trial = Trial(common.built_program(words.program), archive.resolve(), pathlib.Path(folder))
        trial.all()
    trial.count.end()


if __name__ == '__main__':
    main()
