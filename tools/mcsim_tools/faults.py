"""What is wrong with a tool's input, as one line with an exit code."""
from __future__ import annotations

import pathlib
from typing import Union

STATUS = 2


class Fault(Exception):
    """One line that says what is wrong, and the exit code of a tool that it ends."""

    def __init__(self, text: str, status: int = STATUS) -> None:
        super().__init__(text)
        self.status = status


def first_line(text: object) -> str:
    """The first line of a text that may have none."""
    return next(iter(str(text).splitlines()), '').strip()


def why(path: Union[str, pathlib.Path], error: OSError) -> Fault:
    """What the operating system says of a file."""
    return Fault(f'{path}: {error.strerror or error}')
