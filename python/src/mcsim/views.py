"""Pictures of schedules, by the tool that comes with the package."""
from __future__ import annotations

import pathlib
import subprocess
import sys
import tempfile
from collections.abc import Sequence
from dataclasses import dataclass, field
from typing import Union

from . import places


@dataclass(frozen=True)
class View:
    """A picture, as SVG. A notebook shows it."""

    svg: str = field(repr=False)

    def _repr_svg_(self) -> str:
        return self.svg

    def save(self, path: Union[str, pathlib.Path]) -> None:
        """Writes the picture to a file."""
        pathlib.Path(path).write_text(self.svg, encoding='utf-8')


def view_of(name: str, text: bytes, rows: bytes, options: Sequence[str]) -> View:
    """Draws the rows of a schedule of a system."""
    with tempfile.TemporaryDirectory() as folder:
        file, picture = pathlib.Path(folder, f'{name}.toml'), pathlib.Path(folder, 'picture.svg')
        file.write_bytes(text)
        command = [sys.executable, places.of(places.VIEW), str(file), '--rows', '-', *options, '-o', str(picture)]
        ended = subprocess.run(command, input=rows, capture_output=True, check=False)
        if ended.returncode != 0:
            raise ValueError(ended.stderr.decode(errors='replace').strip())
        return View(picture.read_text(encoding='utf-8'))
