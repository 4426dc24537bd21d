"""Which program this is: the digest that ties results to the program that gave them.

It is the SHA-256 of the program's file. The launcher of this repository runs one of several programs: then it is that of the program which it runs, or,
where it runs sources, the digest of the sources."""
from __future__ import annotations

import hashlib
import pathlib
import shutil
import subprocess

from .faults import Fault, first_line, why

SOURCES = 'sources '


def found(program: str) -> pathlib.Path:
    """The file of a program, as a shell finds it."""
    place = shutil.which(program)
    if place is None:
        raise Fault(f'{program}: there is no such program')
    # as a path with a folder, which no search by name follows
    return pathlib.Path(place).absolute()


def is_launcher(path: pathlib.Path) -> bool:
    """Whether a file is the launcher of this repository, or of what was installed from it."""
    real = path.resolve()
    return real.name == 'mcsim' and (real.parent / 'bin' / 'SOURCES').is_file()


def behind(launcher: pathlib.Path) -> str:
    """The digest of what the launcher runs by this name."""
    name, top = launcher.name, launcher.resolve().parent
    try:
        ended = subprocess.run([launcher, '--version'], stdin=subprocess.DEVNULL, capture_output=True, check=False)
    except OSError as error:
        raise why(launcher, error) from None
    lines = ended.stdout.decode(errors='replace').splitlines()
    if ended.returncode or not lines:
        raise Fault(first_line(ended.stderr.decode(errors='replace')) or f'{launcher} --version ended with {ended.returncode}')
    if 'unproved' in lines[0]:
        return next((line for line in lines if line.startswith(SOURCES)), f'{SOURCES}unknown')
    is_built_here = lines[0].endswith(' here')
    return of_file(top / 'crates' / name / 'out' / name if is_built_here else top / 'bin' / name)


def of_file(path: pathlib.Path) -> str:
    try:
        return hashlib.sha256(path.read_bytes()).hexdigest()
    except OSError as error:
        raise why(path, error) from None


def digest(program: str) -> str:
    """The digest of a program, as a command line names it."""
    path = found(program)
    return behind(path) if is_launcher(path) else of_file(path)
