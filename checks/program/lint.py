#!/usr/bin/env python3
"""Checks the Python of checks, tools, examples and the package with mypy (--strict) and pyflakes.

Both are Debian's (apt-get install mypy pyflakes3); pyproject.toml has the settings. One that is not installed is skipped by its name. Each finding is
a failure, with its file and line; a file in which nothing is found is a pass."""
from __future__ import annotations

import os
import pathlib
import re
import shutil
import sys
from collections.abc import Sequence
from typing import NamedTuple

sys.dont_write_bytecode = True
sys.path[0] = str(pathlib.Path(__file__).resolve().parents[2])
from checks import common
from checks.common import TOP, Count

PACKAGES = {'checks': TOP / 'checks', 'mcsim_tools': TOP / 'tools' / 'mcsim_tools', 'mcsim': TOP / 'python' / 'src' / 'mcsim'}
FOLDERS = ('checks', 'tools', 'examples', 'python')
SECONDS = 600


class Linter(NamedTuple):
    """A linter: its names, the first of which tells how it is skipped, its words, and the files at which it looks."""

    names: tuple[str, ...]
    words: tuple[str, ...]
    files: tuple[pathlib.Path, ...]

    @property
    def program(self) -> str | None:
        return next(filter(None, map(shutil.which, self.names)), None)


def is_python(path: pathlib.Path) -> bool:
    """Whether a file is Python, by its ending or, where it has none, by its first line."""
    if path.suffix or not path.is_file() or path.is_symlink():
        return path.suffix == '.py'
    return path.read_bytes()[:64].split(b'\n')[0].endswith(b'python3')


def python_files(folders: Sequence[pathlib.Path]) -> tuple[pathlib.Path, ...]:
    return tuple(sorted(path for folder in folders for path in folder.rglob('*') if is_python(path)))


def linters() -> tuple[Linter, ...]:
    packages = [word for name in PACKAGES for word in ('-p', name)]
    files = python_files([TOP / folder for folder in FOLDERS])
    return (
        Linter(('mypy',), ('--strict', f'--cache-dir={os.devnull}', '--no-error-summary', '--no-color-output', *packages), python_files([*PACKAGES.values()])),
        Linter(('pyflakes3', 'pyflakes'), tuple(str(path.relative_to(TOP)) for path in files), files),
    )


def findings(text: str) -> dict[str, list[str]]:
    """The findings among the lines of a linter, by file; a note of mypy belongs to the error before it."""
    found: dict[str, list[str]] = {}
    for line in text.splitlines():
        if (place := re.match(r'([^:]+):\d+(?::\d+)?: ', line)) and ': note: ' not in line:
            found.setdefault(place[1], []).append(line)
    return found


def look(linter: Linter, count: Count) -> None:
    if linter.program is None:
        count.skip(f'{linter.names[0]}, which is not installed')
        return
    ran = common.run([linter.program, *linter.words], seconds=SECONDS, cwd=TOP)
    said = (ran.stdout + ran.stderr).decode(errors='replace')
    found = findings(said)
    for line in (line for lines in found.values() for line in lines):
        count.expect(line, False)
    if ran.status not in (0, 1) or bool(ran.status) != bool(found):
        count.expect(f'{linter.names[0]} ended with status {ran.status}: {said[-500:]}', False)
    count.add(passed=max(len(linter.files) - len(found), 0))


def main() -> None:
    common.asking(__doc__).parse_args()
    count = Count()
    for linter in linters():
        look(linter, count)
    count.end()


if __name__ == '__main__':
    main()
