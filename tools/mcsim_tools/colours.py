"""Colours of a text on a terminal, for light and dark grounds."""
from __future__ import annotations

import os
from typing import TextIO

AUTO, ALWAYS, NEVER = WHEN = ('auto', 'always', 'never')
# what is wrong, what may be wrong, what is well, a title and a head: as compilers show errors and warnings
WRONG, DOUBTFUL, WELL, TITLE, HEAD = '1;31', '35', '32', '1', '4'
# the variable that turns colours off in all programs, unless an option asks for them
OFF = 'NO_COLOR'
WITHOUT = 'dumb'


def are_wanted(when: str, stream: TextIO) -> bool:
    """Whether a text on its way to a stream has colours."""
    if when != AUTO:
        return when == ALWAYS
    return stream.isatty() and not os.environ.get(OFF) and os.environ.get('TERM') != WITHOUT


class Paint:
    """Puts colours round texts, or leaves them as they are."""

    def __init__(self, is_on: bool) -> None:
        self.is_on = is_on

    def __call__(self, text: str, colour: str) -> str:
        return f'\x1b[{colour}m{text}\x1b[0m' if self.is_on and colour and text else text
