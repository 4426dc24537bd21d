#!/usr/bin/env python3
"""Prints the reports of a system, by the library alone: reports.py LIBRARY FILE [HORIZON], where LIBRARY is the shared library libmcs_c.so."""
from __future__ import annotations

import argparse
import ctypes
import pathlib
import sys

SHOWS = {'schedule': 0, 'reports': 1, 'both': 2}
LINES, FAULT, ROOM, REFUSED, NO_MEMORY = range(5)


class Fault(Exception):
    """The text is no system; this is the line of its first fault."""


class Simulator:
    """The library."""

    def __init__(self, path: pathlib.Path) -> None:
        size, number = ctypes.c_size_t, ctypes.c_uint32
        self.run_into = ctypes.CDLL(str(path.resolve())).mcs_run
        self.run_into.argtypes = [ctypes.c_char_p, size, ctypes.c_uint64, number, ctypes.c_char_p, size, ctypes.POINTER(size)]
        self.run_into.restype = number

    def run(self, text: bytes, horizon: int = 1000, show: str = 'schedule') -> bytes:
        """The lines that mcsim prints of a system."""
        if not 0 <= horizon <= 2**40:
            raise ValueError('the horizon is 0 to 2^40')
        room, length = ctypes.create_string_buffer(4096), ctypes.c_size_t()
        while True:
            result = self.run_into(text, len(text), horizon, SHOWS[show], room, len(room), length)
            if result != ROOM:
                break
            room = ctypes.create_string_buffer(length.value)
        answer = room.raw[:length.value]
        if result == FAULT:
            raise Fault(answer.decode())
        if result == NO_MEMORY:
            raise MemoryError
        return answer


def main() -> int:
    parser = argparse.ArgumentParser(description=__doc__)
    parser.add_argument('library', type=pathlib.Path, metavar='LIBRARY')
    parser.add_argument('file', type=pathlib.Path, metavar='FILE')
    parser.add_argument('horizon', type=int, nargs='?', default=1000, metavar='HORIZON')
    words = parser.parse_args()
    try:
        lines = Simulator(words.library).run(words.file.read_bytes(), words.horizon, 'reports')
    except (Fault, OSError, ValueError) as fault:
        print(fault, file=sys.stderr)
        return 1
    sys.stdout.buffer.write(lines)
    return 0


if __name__ == '__main__':
    sys.exit(main())
