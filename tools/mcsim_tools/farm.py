"""A sweep on many machines: a folder of systems, a result beside each, and the table of all.

The folder says which programs its results are to be of: those that --emit found. A result of another one is not made there, and not collected."""
from __future__ import annotations

import io
import json
import os
import pathlib
import shutil
import tempfile
import zipfile
from collections.abc import Iterator, Sequence
from dataclasses import dataclass
from typing import Any

from . import output, system
from .faults import Fault, why
from .journal import other_program
from .verdict import Programs, Result

HEAD, JOBS, KEPT, ARCHIVE = 'sweep.json', 'jobs', 'settings.json', 'sweep.pyz'
SUFFIX = '.result'
MAIN = "from mcsim_tools import frame\nframe.start('sweep')\n"


@dataclass(frozen=True)
class Head:
    """What all runs of a folder have in common."""

    horizon: int
    of: Sequence[str]
    columns: Sequence[str]
    programs: dict[str, str]

    @classmethod
    def read(cls, folder: pathlib.Path) -> Head:
        path, told = folder / HEAD, kept(folder, HEAD)
        if not isinstance(told, dict) or not isinstance(told.get('programs'), dict):
            raise Fault(f'{path}: it does not say of which programs its results are: --emit makes a folder that does')
        try:
            return cls(told['horizon'], told['of'], told['columns'], told['programs'])
        except KeyError as error:
            raise Fault(f'{path}: {error} is missing') from None

    def told(self) -> dict[str, Any]:
        return {'horizon': self.horizon, 'of': list(self.of), 'columns': list(self.columns), 'programs': self.programs}


def kept(folder: pathlib.Path, name: str) -> Any:
    """What a file of the folder says."""
    path = folder / name
    try:
        return json.loads(path.read_bytes())
    except FileNotFoundError:
        raise Fault(f'{path}: there is none: is {folder} a folder of --emit?') from None
    except OSError as error:
        raise why(path, error) from None
    except (ValueError, RecursionError):
        raise Fault(f'{path}: no JSON') from None


def archive() -> bytes:
    """This tool in one file."""
    own = pathlib.Path(__file__).resolve().parent
    packed = io.BytesIO()
    with zipfile.ZipFile(packed, 'w', zipfile.ZIP_DEFLATED) as file:
        file.writestr('__main__.py', MAIN)
        for path in sorted(own.glob('*.py')):
            file.write(path, f'mcsim_tools/{path.name}')
    return packed.getvalue()


def emit(folder: pathlib.Path, head: Head, combinations: Iterator[tuple[Sequence[object], bytes]]) -> int:
    """Makes a folder with all that a machine needs beside the two programs, whole or not at all; returns how many systems it has."""
    try:
        if folder.exists() and (not folder.is_dir() or any(folder.iterdir())):
            raise Fault(f'{folder}: it is there, and no empty folder')
        part = pathlib.Path(tempfile.mkdtemp(dir=folder.resolve().parent, prefix=output.PART))
    except OSError as error:
        raise why(folder, error) from None
    try:
        settings = {}
        for number, (values, text) in enumerate(combinations, 1):
            name = f'{number:06d}.toml'
            (part / name).write_bytes(text)
            settings[name] = values
        (part / HEAD).write_text(json.dumps(head.told()))
        (part / KEPT).write_text(json.dumps(settings))
        (part / ARCHIVE).write_bytes(archive())
        (part / JOBS).write_text(''.join(f'{name}\n' for name in settings))
        part.chmod(0o777 & ~output.mask())
        os.replace(part, folder)
    except OSError as error:
        raise why(folder, error) from None
    finally:
        shutil.rmtree(part, ignore_errors=True)
    return len(settings)


def result_of(path: pathlib.Path, programs: dict[str, str]) -> Result:
    """The result of a system beside it; a Fault where it is none of these programs."""
    target = path.with_suffix(SUFFIX)
    try:
        told = json.loads(target.read_bytes())
        result = Result.of(told)
    except OSError as error:
        raise why(target, error) from None
    except (ValueError, RecursionError):
        raise Fault(f'{target}: no result of a sweep: --run makes it anew') from None
    if told.get('programs') != programs:
        raise Fault(f'{target}: a result of {other_program(told.get("programs"), programs)}: --run makes it anew')
    return result


def has_result(path: pathlib.Path, programs: dict[str, str]) -> bool:
    """Whether a system has a result of these programs."""
    try:
        result_of(path, programs)
    except Fault:
        return False
    return True


def run(files: Sequence[pathlib.Path], programs: Programs, again: bool) -> None:
    """Leaves beside each file its result. What has none, or a part of one, or one of other programs, is run."""
    digests = programs.digests()
    for path in files:
        head = Head.read(path.parent)
        if head.programs != digests:
            which = other_program(head.programs, digests)
            raise Fault(f'{path.parent / HEAD}: the results of this folder are not of the programs here, which have {which}')
        output.check([path.with_suffix(SUFFIX)], [path])
        if again or not has_result(path, digests):
            try:
                result = programs.result(system.read_bytes(path), head.horizon, head.of)
            except Fault as fault:
                raise Fault(f'{path}: {fault}', fault.status) from None
            output.write(path.with_suffix(SUFFIX), json.dumps({**result.told(), 'programs': digests}))


def collected(folder: pathlib.Path) -> tuple[Head, list[tuple[Sequence[object], Result]]]:
    """The head of a folder, and the values and the result of each of its systems."""
    head, settings = Head.read(folder), kept(folder, KEPT)
    if not isinstance(settings, dict):
        raise Fault(f'{folder / KEPT}: no settings of a sweep')
    missing = [name for name in settings if not (folder / name).with_suffix(SUFFIX).exists()]
    if missing:
        raise Fault(f'{folder}: {len(missing)} of {len(settings)} results are missing, the first that of {missing[0]}')
    return head, [(values, result_of(folder / name, head.programs)) for name, values in settings.items()]
