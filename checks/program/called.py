"""Responses by calls of the library for C, in this process: a plain search makes ten thousands of runs, and starts no program for each."""
from __future__ import annotations

import ctypes
import pathlib
import shutil
import subprocess
import sys
from dataclasses import dataclass
from typing import Any

from checks import common
from checks.common import TOP
from checks.program.library import COMPILER
from checks.program.library_verdicts import FORMATS, PARTS, ROOM

sys.path.insert(0, str(TOP / 'tools'))
from mcsim_tools.settings import Tables
from mcsim_tools.trying import Responses

# bytes for what is written of a run; a longer text is asked for once more
BYTES = 2**16


def archive_of(program: pathlib.Path) -> pathlib.Path | None:
    """The library that was built with a program, if there is one: the gate leaves both, and so does bin/."""
    beside = common.LIBRARY if program == common.BUILT else program.with_name('libmcs_c.a')
    return beside if beside.is_file() and shutil.which(COMPILER) else None


def linked(program: pathlib.Path, folder: pathlib.Path) -> pathlib.Path | None:
    """The shared library that was made of that of a program, in a folder; None without one or without a compiler."""
    archive = archive_of(program)
    if archive is None:
        return None
    made = folder / 'libmcs_c.so'
    command = [COMPILER, '-shared', '-o', str(made), '-Wl,--whole-archive', str(archive), '-Wl,--no-whole-archive']
    if subprocess.run(command).returncode:
        common.stop(f'{COMPILER} did not link {archive}')
    return made


def library(shared: pathlib.Path) -> Any:
    """The call that checks a system."""
    call = ctypes.CDLL(str(shared)).mcs_check
    size, number, text = ctypes.c_size_t, ctypes.c_uint32, ctypes.c_char_p
    call.argtypes = [text, size, ctypes.c_uint64, number, number, text, size, text, size, ctypes.POINTER(size)]
    call.restype = number
    return call


@dataclass(frozen=True)
class Called(Responses):
    """The maximum response of a thread, as `Responses` has it, by calls. What a call does not answer the program is asked."""

    call: Any = None

    def found(self, tables: Tables) -> tuple[int, list[str], str]:
        text, allowed = self.text(tables), '\n'.join(row['name'] for row in tables.get('note', [])).encode()
        result, lines = self.answered(text, allowed)
        return (result, lines, '') if result in (0, 5, 6) else super().found(tables)

    def answered(self, text: bytes, allowed: bytes, room_bytes: int = BYTES) -> tuple[int, list[str]]:
        room, length = ctypes.create_string_buffer(room_bytes), ctypes.c_size_t()
        result = self.call(text, len(text), self.horizon, PARTS.index('both'), FORMATS.index('json'), allowed, len(allowed), room, room_bytes, length)
        if result == ROOM:
            return self.answered(text, allowed, length.value)
        return result, room.raw[:length.value].decode().splitlines()
