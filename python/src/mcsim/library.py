"""The simulator and the checker, called as C calls them (include/mcsim.h)."""
from __future__ import annotations

import ctypes
import functools
from collections.abc import Callable, Sequence
from typing import NamedTuple

from . import places
from .faults import Fault

LAST_HORIZON = 2**40
SCHEDULE, REPORTS = 0, 1
# the parts of a check, and its format
PARTS = {'findings': 0, 'jobs': 1, 'table': 2}
JSON = 2
LINES, FAULT, ROOM, REFUSED, NO_MEMORY, FOUND, UNJUDGED = range(7)
# bytes of the room of a first call, in which most short runs fit
FIRST = 65_536
# how the line of a name or a round that is not there begins
OF_WORDS = ('--allow-lost: ', '--why: ')

Call = Callable[..., int]


class Calls(NamedTuple):
    """The calls of the shared library that write lines."""

    run: Call
    check: Call
    why: Call
    forever: Call


@functools.cache
def calls() -> Calls:
    """The calls, with the types of their arguments."""
    library = ctypes.CDLL(places.of(places.LIBRARY))
    size, number = ctypes.c_size_t, ctypes.c_uint32
    text = (ctypes.c_char_p, size)
    words = {
        'run': (number,), 'check': (number, number, *text), 'why': (*text, *text, number), 'forever': (number, *text),
    }
    found = []
    for name in Calls._fields:
        call = getattr(library, f'mcs_{name}')
        call.argtypes = [*text, ctypes.c_uint64, *words[name], *text, ctypes.POINTER(size)]
        call.restype = number
        found.append(call)
    return Calls(*found)


def need_horizon(horizon: int) -> None:
    if not isinstance(horizon, int) or not 0 <= horizon <= LAST_HORIZON:
        raise ValueError(f'the horizon is {horizon!r}, and a whole number of 0 to 2^40 is allowed')


def answer(call: Call, *words: object) -> tuple[int, bytes]:
    """What a call answers, in a room that is large enough. Other threads of Python run meanwhile."""
    room_bytes, length = FIRST, ctypes.c_size_t()
    while True:
        room = ctypes.create_string_buffer(room_bytes)
        result = call(*words, room, room_bytes, length)
        if result != ROOM:
            return result, ctypes.string_at(room, length.value)
        room_bytes = length.value


def run(text: bytes, horizon: int, show: int) -> bytes:
    """The lines that mcsim prints of a system."""
    need_horizon(horizon)
    result, written = answer(calls().run, text, len(text), horizon, show)
    if result == FAULT:
        raise Fault(written.decode().removeprefix('mcsim: '))
    if result != LINES:
        raise MemoryError(f'no memory for a run to {horizon}')
    return written


def check(text: bytes, horizon: int, part: str, allow_lost: Sequence[str] = ()) -> bytes:
    """The objects that mcscheck writes of a system, one a line."""
    need_horizon(horizon)
    allowed = names_of(allow_lost)
    return lines_of(answer(calls().check, text, len(text), horizon, PARTS[part], JSON, allowed, len(allowed)), horizon)


def forever(text: bytes, horizon: int, allow_lost: Sequence[str] = ()) -> bytes:
    """The objects that mcscheck --forever writes of a system, one a line."""
    need_horizon(horizon)
    allowed = names_of(allow_lost)
    return lines_of(answer(calls().forever, text, len(text), horizon, JSON, allowed, len(allowed)), horizon)


def why(text: bytes, horizon: int, thread: str, number: int) -> bytes:
    """The objects that mcscheck --why writes of a round, one a line."""
    need_horizon(horizon)
    name, digits = thread.encode(), str(number).encode()
    return lines_of(answer(calls().why, text, len(text), horizon, name, len(name), digits, len(digits), JSON), horizon)


def names_of(notes: Sequence[str]) -> bytes:
    """The names of notifications, one a line."""
    if unfit := [note for note in notes if not note or '\n' in note]:
        raise ValueError(f'--allow-lost: no notification is called {unfit[0]!r}')
    return '\n'.join(notes).encode()


def lines_of(answered: tuple[int, bytes], horizon: int) -> bytes:
    """The lines that a call of the checker answered; a name or a round that is not there is a ValueError, and a fault of the text a Fault."""
    result, written = answered
    if result in (LINES, FOUND, UNJUDGED):
        return written
    said = written.decode().removeprefix('mcscheck: ')
    if result == FAULT and said.startswith(OF_WORDS):
        raise ValueError(said)
    if result == FAULT:
        raise Fault(said)
    raise MemoryError(f'no memory for a check to {horizon}')
