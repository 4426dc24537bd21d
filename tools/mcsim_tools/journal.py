"""The results of a sweep that is under way, a line each beside the file that it is to become, so that it can go on.

The first line says of which sweep they are: the system, the settings, the horizon, the threads, and which programs gave them. A file that begins with
another line is not this sweep's, and stays as it is."""
from __future__ import annotations

import fcntl
import json
import os
import pathlib
from typing import Any

from .faults import Fault, why
from .verdict import Result

SUFFIX = '.part'
ANOTHER = 'what another sweep left: remove it, or give that one\'s words'


class Journal:
    """The journal beside a target. One sweep at a time has it."""

    def __init__(self, target: pathlib.Path, head: dict[str, Any]) -> None:
        self.path = target.with_name(f'{target.name}{SUFFIX}')
        self.head = head
        self.results: list[Result] = []

    def __enter__(self) -> Journal:
        try:
            self.descriptor, is_new = self.opened()
            try:
                self.begin(is_new)
            except BaseException:
                os.close(self.descriptor)
                raise
        except OSError as error:
            raise why(self.path, error) from None
        return self

    def __exit__(self, *_: object) -> None:
        os.close(self.descriptor)

    def opened(self) -> tuple[int, bool]:
        """The descriptor of the file, and whether it was not there before."""
        try:
            return os.open(self.path, os.O_RDWR | os.O_CREAT | os.O_EXCL, 0o666), True
        except FileExistsError:
            if not self.path.is_file():
                raise Fault(f'{self.path}: it is there, and no file of a sweep') from None
            return os.open(self.path, os.O_RDWR), False

    def begin(self, is_new: bool) -> None:
        """Takes the file for this sweep, with the results that it has."""
        try:
            fcntl.flock(self.descriptor, fcntl.LOCK_EX | fcntl.LOCK_NB)
        except BlockingIOError:
            raise Fault(f'{self.path}: another sweep writes it now') from None
        if is_new:
            self.write(self.head)
            return
        with open(self.descriptor, 'rb', closefd=False) as file:
            text = file.read()
        # a line that was cut off has no end
        lines = text.split(b'\n')
        cut = len(lines.pop())
        if not lines or self.head_of(lines[0]) != self.head:
            raise Fault(self.why_not(lines))
        self.results = [self.result(place, line) for place, line in enumerate(lines[1:], 2)]
        os.truncate(self.descriptor, len(text) - cut)
        os.lseek(self.descriptor, 0, os.SEEK_END)

    @staticmethod
    def head_of(line: bytes) -> object:
        try:
            return json.loads(line)
        except (ValueError, RecursionError):
            return None

    def why_not(self, lines: list[bytes]) -> str:
        """Why this sweep does not go on from what is there."""
        head = self.head_of(lines[0]) if lines else None
        if isinstance(head, dict) and {**head, 'programs': self.head['programs']} == self.head:
            return f'{self.path}: its results are of {other_program(head.get("programs"), self.head["programs"])}: remove it, or run it with that one'
        return f'{self.path}: {ANOTHER}'

    def result(self, place: int, line: bytes) -> Result:
        try:
            return Result.of(json.loads(line))
        except (ValueError, RecursionError):
            raise Fault(f'{self.path}:{place}: no result of a sweep: remove this line and those behind it, or the file') from None

    def write(self, told: dict[str, Any]) -> None:
        line = f'{json.dumps(told)}\n'.encode()
        try:
            written = os.write(self.descriptor, line)
        except OSError as error:
            raise why(self.path, error) from None
        if written < len(line):
            raise Fault(f'{self.path}: the disk is full')

    def add(self, result: Result) -> None:
        self.results.append(result)
        self.write(result.told())

    def remove(self) -> None:
        """Takes the file away, which this sweep has."""
        self.path.unlink(missing_ok=True)


def other_program(those: object, these: dict[str, str]) -> str:
    """Which program is another one than that by which results were made."""
    known = those if isinstance(those, dict) else {}
    names = [name for name, digest in these.items() if known.get(name) != digest]
    return 'another ' + ' and another '.join(names) if names else 'other programs'
