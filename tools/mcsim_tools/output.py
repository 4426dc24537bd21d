"""Where tools write: a regular file whole or not at all, all else as it comes, and never what the tool reads."""
from __future__ import annotations

import contextlib
import os
import pathlib
import re
import stat
import sys
import tempfile
from collections.abc import Iterator, Sequence
from typing import IO, Optional, TextIO, Union, cast

from .faults import Fault, why

STANDARD = pathlib.Path('-')
# the names of open files: what stands behind one is written where it is, and not replaced
DESCRIPTOR = re.compile(r'/(?:dev|proc/self)/fd/([0-9]{1,4})')
NAMED = {'/dev/stdout': 1, '/dev/stderr': 2}
PART = '.mcsim.'

# what a tool reads: a file, or a descriptor that is open
Source = Union[pathlib.Path, int]
Target = Optional[pathlib.Path]
# a file by its device and number, or by its path when it is not there yet
Identity = Union[tuple[int, int], str]


def is_standard(target: Target) -> bool:
    """Whether a target is standard output: no path, or `-`."""
    return target is None or target == STANDARD


def descriptor_of(path: pathlib.Path) -> Optional[int]:
    """The number of an open file that a path such as /dev/fd/3 names."""
    found = DESCRIPTOR.fullmatch(str(path))
    return int(found[1]) if found else NAMED.get(str(path))


def is_replaced(target: Target) -> bool:
    """Whether a new file takes the place of a target: it is a regular file, or not there yet."""
    if target is None or is_standard(target) or descriptor_of(target) is not None:
        return False
    try:
        return stat.S_ISREG(target.stat().st_mode)
    except FileNotFoundError:
        return True
    except OSError as error:
        raise why(target, error) from None


def identity(source: Source) -> Optional[Identity]:
    """Which file this is. None for a terminal and another device, which may be read and written at once."""
    try:
        found = os.fstat(source) if isinstance(source, int) else source.stat()
    except OSError:
        return None if isinstance(source, int) else os.path.realpath(source)
    is_kept = stat.S_ISREG(found.st_mode) or stat.S_ISFIFO(found.st_mode)
    return (found.st_dev, found.st_ino) if is_kept else None


def check(targets: Sequence[Target], sources: Sequence[Source]) -> None:
    """Refuses a target that the tool reads, two targets that are one file, and a file that may not be written."""
    read = {identity(source) for source in sources}
    written: set[Optional[Identity]] = set()
    for target in targets:
        found = identity(1 if target is None or is_standard(target) else target)
        said = 'standard output' if target is None or is_standard(target) else str(target)
        if found is not None and found in read:
            raise Fault(f'{said}: this is the file that is read: write to another one')
        if found is not None and found in written:
            raise Fault(f'{said}: two outputs go to this file: give each its own')
        written.add(found)
        if target is not None and is_replaced(target) and target.exists() and not os.access(target, os.W_OK):
            raise Fault(f'{target}: it may not be written')


@contextlib.contextmanager
def written(target: Target) -> Iterator[IO[str]]:
    """A text on its way to its target."""
    if target is None or is_standard(target):
        yield sys.stdout
        return
    how = replaced if is_replaced(target) else opened
    try:
        with how(target) as file:
            yield file
    except OSError as error:
        raise why(target, error) from None


@contextlib.contextmanager
def opened(path: pathlib.Path) -> Iterator[IO[str]]:
    """A device, a pipe or an open file, which is written as the text comes."""
    number = descriptor_of(path)
    descriptor = os.open(path, os.O_WRONLY) if number is None else os.dup(number)
    with open(descriptor, 'w', encoding='utf-8') as file:
        yield file


@contextlib.contextmanager
def replaced(path: pathlib.Path) -> Iterator[IO[str]]:
    """A regular file, which the text replaces once it is whole. Mode and owner stay; a new file has those of any new file."""
    place = path.resolve()
    old = place.stat() if place.exists() else None
    descriptor, name = tempfile.mkstemp(dir=place.parent, prefix=PART)
    try:
        with open(descriptor, 'w', encoding='utf-8', buffering=1 << 16) as file:
            yield file
        if old:
            with contextlib.suppress(PermissionError):
                os.chown(name, old.st_uid, old.st_gid)
        os.chmod(name, stat.S_IMODE(old.st_mode) if old else 0o666 & ~mask())
        os.replace(name, place)
    finally:
        with contextlib.suppress(FileNotFoundError):
            os.unlink(name)


def mask() -> int:
    """The mask of the modes of new files."""
    found = os.umask(0)
    os.umask(found)
    return found


def write(target: Target, text: str) -> None:
    """Writes a text to its target."""
    with written(target) as file:
        file.write(text)


def write_bytes(target: pathlib.Path, data: bytes) -> None:
    """Writes what is no text to its target."""
    with written(target) as file:
        cast(TextIO, file).buffer.write(data)
