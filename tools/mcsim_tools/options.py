"""The options of a tool, with what it reads and what it writes."""
from __future__ import annotations

import argparse
import pathlib
import sys
from collections.abc import Callable
from typing import Any, NoReturn, Optional

from . import digits, output, version
from .faults import Fault

STANDARD_INPUT = pathlib.Path('-')


def number(wanted: str, least: int, most: int) -> Callable[[str], int]:
    """Returns the reader of a whole number, also of 1e6 and 1_000_000; `wanted` says what another text is not."""
    def read(text: str) -> int:
        found = digits.number(digits.typed(text), least, most)
        if found is None:
            raise argparse.ArgumentTypeError(f'{text!r} is {wanted}')
        return found

    return read


class Options(argparse.ArgumentParser):
    """The options of a tool. What is wrong with them is one line; no file is both read and written."""

    def __init__(self, doc: Optional[str]) -> None:
        super().__init__(prog=pathlib.Path(sys.argv[0]).stem, description=doc, formatter_class=argparse.RawDescriptionHelpFormatter)
        self.inputs: list[str] = []
        self.outputs: list[str] = []
        version.add_to(self)

    def reads(self, *names: str, **how: Any) -> None:
        """Adds a file that is read, or several; `-` is standard input."""
        self.inputs.append(self.add_argument(*names, type=pathlib.Path, **how).dest)

    def writes(self, *names: str, **how: Any) -> None:
        """Adds a file that is written; `-` is standard output."""
        self.outputs.append(self.add_argument(*names, type=pathlib.Path, **how).dest)

    def asked(self) -> argparse.Namespace:
        """Returns what was asked for, once it is clear that no output is an input."""
        found = self.parse_args()
        sources: list[output.Source] = []
        for name in self.inputs:
            value = getattr(found, name)
            paths = value if isinstance(value, list) else [] if value is None else [value]
            sources += [0 if path == STANDARD_INPUT else path for path in paths]
        if sources.count(0) > 1:
            self.error('- stands twice: standard input can be read once')
        given = [getattr(found, name) for name in self.outputs]
        # an output that was not asked for is none, but for the first, which then is standard output
        output.check([target for place, target in enumerate(given) if place == 0 or target is not None], sources)
        return found

    def error(self, message: str) -> NoReturn:
        raise Fault(message)
