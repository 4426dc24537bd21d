#!/usr/bin/env python3
"""Starts scripts of this repository for tests, each in a process that is forked of one that has imported their modules.

Such a process has its own descriptors, folder, environment and exit code, as one that a shell starts. Only the start of Python and the imports are
saved, which are most of the seconds of a short run. The process that forks runs no script itself, so each meets modules as they are when imported.

    forked.tools().run([sys.executable, 'tools/view', 'one.toml'], capture_output=True)"""
from __future__ import annotations

import atexit
import contextlib
import functools
import gc
import importlib
import os
import pathlib
import pickle
import random
import runpy
import selectors
import signal
import socket
import subprocess
import sys
import tempfile
import threading
import traceback
from collections.abc import Mapping, Sequence
from typing import IO, Any, NamedTuple, NoReturn, Optional, Union

sys.dont_write_bytecode = True
TOP = pathlib.Path(__file__).resolve().parents[1]
TOOLS = TOP / 'tools'
# bytes of a message, above any environment and any words of a test
MESSAGE = 2**17
# a process closes the descriptors below this, which are those of the process that forked it
DESCRIPTORS = 256
Word = Union[str, bytes, 'os.PathLike[str]']
Stream = Union[int, IO[Any], None]


class Asked(NamedTuple):
    """What is to be run: a script and its words, the folder, the environment, and which of the first three descriptors are closed."""

    words: list[bytes]
    folder: bytes
    environment: dict[bytes, bytes]
    closes: tuple[int, ...]


# ---- in the process that forks


def serve(control: socket.socket) -> Optional[Asked]:
    """Forks a process for each message. Returns in each of them what it is to run, and None here when nobody asks any more and all have ended."""
    waits = selectors.DefaultSelector()
    waits.register(control, selectors.EVENT_READ)
    while waits.get_map():
        for key, _ in waits.select():
            if key.fileobj is not control:
                waits.unregister(key.fileobj)
                say_end(key.fd, *key.data)
                continue
            message, descriptors, *_ = socket.recv_fds(control, MESSAGE, 4)
            if not message:
                waits.unregister(control)
                continue
            told, *standard = descriptors
            child = os.fork()
            if child == 0:
                waits.close()
                return become(Asked(*pickle.loads(message)), standard)
            say(told, child)
            for descriptor in standard:
                os.close(descriptor)
            waits.register(os.pidfd_open(child), selectors.EVENT_READ, (child, told))
    return None


def say(told: int, number: int) -> None:
    """Says a number to whoever asked, unless he has gone."""
    with contextlib.suppress(OSError):
        os.write(told, f'{number}\n'.encode())


def say_end(ending: int, child: int, told: int) -> None:
    """Says how a process ended."""
    say(told, os.waitstatus_to_exitcode(os.waitpid(child, 0)[1]))
    os.close(told)
    os.close(ending)


def become(asked: Asked, standard: Sequence[int]) -> Asked:
    """Gives this process what one has that was started by itself."""
    for number, descriptor in enumerate(standard):
        os.dup2(descriptor, number)
    os.closerange(3, DESCRIPTORS)
    for number in asked.closes:
        os.close(number)
    # whoever runs the tests in the background has interrupts ignored
    signal.signal(signal.SIGINT, signal.default_int_handler)
    os.chdir(asked.folder)
    os.environb.clear()
    os.environb.update(asked.environment)
    sys.argv = [os.fsdecode(word) for word in asked.words]
    sys.path[0] = str(pathlib.Path(sys.argv[0]).resolve().parent)
    tempfile.tempdir = None
    random.seed()
    sys.stdin, sys.stdout, sys.stderr = stream(0, 'r'), stream(1, 'w'), stream(2, 'w', 'backslashreplace', 1)
    return asked


def stream(number: int, mode: str, errors: str = 'strict', buffering: int = -1) -> Any:
    """A standard stream as Python opens it at its start, or None if the descriptor is closed. Each line of errors is written at once."""
    try:
        os.fstat(number)
    except OSError:
        return None
    return open(number, mode, buffering, encoding='utf-8', errors=errors, closefd=False)


def main() -> None:
    """Imports the modules that are named, each behind the folder in which it is found, and runs scripts from then on."""
    control = socket.socket(fileno=0)
    paths = list(sys.path)
    for named in sys.argv[1:]:
        folder, _, module = named.rpartition(':')
        sys.path[0] = folder
        importlib.import_module(module)
        sys.path[:] = paths
    # what was imported stays in memory that all of them share
    gc.freeze()
    if asked := serve(control):
        # the descriptor 0 is another one now
        control.detach()
        end(ran(os.fsdecode(asked.words[0])))


def ran(script: str) -> int:
    """Runs a script; its exit code, by the rules of Python."""
    try:
        runpy.run_path(script, run_name='__main__')
    except SystemExit as ended:
        if ended.code is None or isinstance(ended.code, int):
            return ended.code or 0
        print(ended.code, file=sys.stderr)
        return 1
    except BaseException:
        traceback.print_exc()
        return 1
    return 0


def end(status: int) -> NoReturn:
    """Ends this process as Python does, but that it takes nothing down: that would copy all that the processes share."""
    for thread in threading.enumerate():
        if thread is not threading.main_thread() and not thread.daemon:
            thread.join()
    atexit._run_exitfuncs()
    for stream in (sys.stdout, sys.stderr):
        try:
            stream.flush()
        except (AttributeError, ValueError):
            # it was closed
            pass
        except OSError:
            status = 120
    os._exit(status & 255)


# ---- in the tests


class Process:
    """A process that runs a script."""

    def __init__(self, told: socket.socket, words: Sequence[Word]) -> None:
        self.told, self.words = told, words
        self.pid = int(self.line())

    def line(self) -> bytes:
        found = b''
        while not found.endswith(b'\n'):
            if not (more := self.told.recv(1)):
                raise RuntimeError(f'the process that forks has ended: {self.words}')
            found += more
        return found

    def wait(self, seconds: Optional[float] = None) -> int:
        """Its exit code, or below 0 the signal that ended it."""
        self.told.settimeout(seconds)
        try:
            status = int(self.line())
        except TimeoutError:
            raise subprocess.TimeoutExpired([os.fsdecode(word) for word in self.words], seconds or 0) from None
        self.told.close()
        return status


class Ends:
    """The descriptors of a process, and the ends of its pipes that are here."""

    def __init__(self, *streams: Stream) -> None:
        self.opened: list[int] = []
        self.ours: dict[int, int] = {}
        self.theirs = [self.end(number, given) for number, given in enumerate(streams)]

    def end(self, number: int, given: Stream) -> int:
        if given is None:
            return number
        if not isinstance(given, int):
            return given.fileno()
        if given == subprocess.DEVNULL:
            self.opened.append(os.open(os.devnull, os.O_RDWR))
            return self.opened[-1]
        if given != subprocess.PIPE:
            return given
        reads, writes = os.pipe()
        ours, theirs = (reads, writes) if number else (writes, reads)
        self.ours[number] = ours
        self.opened.append(theirs)
        return theirs

    def close(self) -> None:
        """Closes what the process has, here."""
        for descriptor in self.opened:
            os.close(descriptor)


class Forks:
    """A process that imports modules and forks. It begins with the first script, behind the words of a command that stand before it, and ends with
    the tests."""

    def __init__(self, modules: Sequence[str], before: Sequence[str] = ()) -> None:
        self.command = [*before, sys.executable, __file__, *modules]
        self.lock = threading.Lock()
        self.control: Optional[socket.socket] = None

    def started(self) -> socket.socket:
        with self.lock:
            if self.control is None:
                self.control, theirs = socket.socketpair(socket.AF_UNIX, socket.SOCK_SEQPACKET)
                with theirs:
                    server = subprocess.Popen(self.command, stdin=theirs.fileno())
                atexit.register(server.wait)
                atexit.register(self.control.close)
            return self.control

    def start(
        self, command: Sequence[Word], ends: Ends, *, cwd: Optional[Word] = None, env: Optional[Mapping[str, str]] = None, closes: Sequence[int] = (),
    ) -> Process:
        """Starts a script, with the command for which a shell would start Python."""
        assert command[0] == sys.executable
        environment = {os.fsencode(name): os.fsencode(value) for name, value in (os.environ if env is None else env).items()}
        asked = Asked([os.fsencode(word) for word in command[1:]], os.fsencode(cwd or os.getcwd()), environment, tuple(closes))
        ours, theirs = socket.socketpair()
        with theirs:
            socket.send_fds(self.started(), [pickle.dumps(tuple(asked))], [theirs.fileno(), *ends.theirs])
        ends.close()
        return Process(ours, command[1:])

    def run(
        self, command: Sequence[Word], *, input: Union[str, bytes, None] = None, stdin: Stream = None, stdout: Stream = None, stderr: Stream = None,
        capture_output: bool = False, text: bool = False, timeout: Optional[float] = None, check: bool = False, **how: Any,
    ) -> subprocess.CompletedProcess[Any]:
        """Runs a script to its end; the words are those of `subprocess.run`."""
        if capture_output:
            stdout = stderr = subprocess.PIPE
        ends = Ends(stdin if input is None else subprocess.PIPE, stdout, stderr)
        process = self.start(command, ends, **how)
        found: dict[int, Any] = {1: None, 2: None}

        def take(number: int) -> None:
            with open(ends.ours[number], 'rb') as pipe:
                found[number] = pipe.read()

        def give() -> None:
            with contextlib.suppress(BrokenPipeError), open(ends.ours[0], 'wb') as pipe:
                pipe.write(input.encode() if isinstance(input, str) else input or b'')

        at_work = [threading.Thread(target=take, args=[number], daemon=True) for number in (1, 2) if number in ends.ours]
        at_work += [threading.Thread(target=give, daemon=True)] if 0 in ends.ours else []
        for thread in at_work:
            thread.start()
        try:
            status = process.wait(timeout)
        except subprocess.TimeoutExpired:
            os.kill(process.pid, signal.SIGKILL)
            process.wait()
            raise
        for thread in at_work:
            thread.join()
        if check and status:
            raise subprocess.CalledProcessError(status, list(map(os.fsdecode, command)), found[1], found[2])
        read = [text_of(found[number]) if text else found[number] for number in (1, 2)]
        return subprocess.CompletedProcess(command, status, *read)


def text_of(written: Optional[bytes]) -> Optional[str]:
    """What was written, with the ends of lines that `subprocess.run` makes of text."""
    return None if written is None else written.decode().replace('\r\n', '\n').replace('\r', '\n')


@functools.cache
def tools(*before: str) -> Forks:
    """Forks of a process that has imported the tools, and that is started by a command whose words stand before Python's."""
    names = sorted(path.name for path in TOOLS.iterdir() if (TOOLS / 'mcsim_tools' / f'{path.name}.py').is_file())
    return Forks([f'{TOOLS}:mcsim_tools.{name}' for name in ('frame', *names)], before)


@functools.cache
def checks() -> Forks:
    """Forks of a process that has imported the checks."""
    from checks import everything

    scripts = [(check.folder, check.name) for check in everything.CHECKS if check.folder != 'proofs'] + [('program', 'same'), ('proofs', 'gate')]
    return Forks([f'{TOP}:checks.{folder}.{name}' for folder, name in scripts])


if __name__ == '__main__':
    main()
