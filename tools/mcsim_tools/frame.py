"""The frame around each tool: whatever goes wrong is one line on standard error and an exit code, and never a traceback.

Exit code 2: the options, a file or a program are at fault. 3: standard output is closed or full. 130 and 143: a signal. `python3 -X dev TOOL ..` shows
the traceback of a defect. Standard output is written through `StandardOutput`, so that its failures are told apart from those of files."""
from __future__ import annotations

import contextlib
import importlib
import io
import os
import pathlib
import signal
import sys
from collections.abc import Callable
from typing import NamedTuple, NoReturn, Optional

from .faults import STATUS, Fault
from .printable import printable

LEAST_PYTHON = (3, 11)
# the exit code when standard output takes no more, as that of mcsim
WRITE_FAILED = 3
INTERRUPTED = 130
# characters of a line on standard error
LONGEST_LINE = 2000

Main = Callable[[], Optional[int]]


class OutputLost(Exception):
    """Standard output takes no more."""


class Outcome(NamedTuple):
    """The exit code of a tool, and the line that says what went wrong, if anything did."""

    status: int
    said: str = ''


class StandardOutput(io.FileIO):
    """The descriptor 1, whose failures are an `OutputLost` and no `OSError` of a file."""

    def __init__(self) -> None:
        super().__init__(1, 'w', closefd=False)

    def write(self, data: object) -> int:
        try:
            return super().write(data)  # type: ignore[arg-type]
        except OSError as error:
            raise OutputLost(error.strerror or str(error)) from None


def name() -> str:
    """The name by which the tool was called."""
    return pathlib.Path(sys.argv[0]).stem


def say(text: object) -> None:
    """Writes one line to standard error, if that takes it."""
    with contextlib.suppress(OSError, ValueError):
        print(f'{name()}: {printable(text, LONGEST_LINE)}', file=sys.stderr, flush=True)


def outcome(main: Main) -> Outcome:
    """Runs a tool."""
    try:
        return Outcome(main() or 0)
    except SystemExit as ended:
        return Outcome(ended.code if isinstance(ended.code, int) else 0)
    except Fault as fault:
        return Outcome(fault.status, str(fault))
    except OutputLost as lost:
        return Outcome(WRITE_FAILED, f'standard output: {lost}')
    except KeyboardInterrupt:
        return Outcome(INTERRUPTED)
    except Exception as error:
        if sys.flags.dev_mode:
            raise
        return Outcome(STATUS, f'it failed: {type(error).__name__}: {error}')


def guarded(main: Main) -> int:
    """Runs a tool to its exit code, with all that it wrote to standard output written or told."""
    ended = outcome(main)
    try:
        sys.stdout.flush()
    except OutputLost as lost:
        ended = ended if ended.said else Outcome(WRITE_FAILED, f'standard output: {lost}')
    if ended.said:
        say(ended.said)
    return ended.status


def open_standard() -> None:
    """Opens the three streams. A descriptor that is closed gets a place, so that no file opened later has its number: input and output one that refuses,
    errors one that takes all."""
    for descriptor, mode in enumerate((os.O_WRONLY, os.O_RDONLY, os.O_WRONLY)):
        try:
            os.fstat(descriptor)
        except OSError:
            # the least number that is free
            os.open(os.devnull, mode)
    sys.stdin = sys.stdin or open(0, encoding='utf-8', closefd=False)
    sys.stderr = sys.stderr or open(2, 'w', encoding='utf-8', errors='backslashreplace', closefd=False)
    buffered = io.BufferedWriter(StandardOutput())
    sys.stdout = io.TextIOWrapper(buffered, encoding='utf-8', errors='backslashreplace', line_buffering=buffered.isatty())


def drop_output() -> None:
    """What is still to be written goes nowhere, without a word at the end of the program."""
    for stream, descriptor in ((sys.stdout, 1), (sys.stderr, 2)):
        try:
            stream.flush()
        except (OutputLost, OSError):
            os.dup2(os.open(os.devnull, os.O_WRONLY), descriptor)


def imported(tool: str) -> Optional[int]:
    """Runs the tool of a module of this package."""
    if sys.version_info < LEAST_PYTHON:
        raise Fault(f'Python {".".join(map(str, LEAST_PYTHON))} or later is needed, and this is {sys.version.split()[0]}')
    main: Main = importlib.import_module(f'mcsim_tools.{tool}').main
    return main()


def start(tool: str) -> NoReturn:
    """Runs a tool as a program: the way in of each."""
    # what was begun is ended too: a run of the program, a file that is half written
    signal.signal(signal.SIGTERM, lambda *_: sys.exit(128 + signal.SIGTERM))
    open_standard()
    status = guarded(lambda: imported(tool))
    drop_output()
    sys.exit(status)
