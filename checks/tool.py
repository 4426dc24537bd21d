"""Runs of tools for checks: in processes that are forked of one that has imported them (checks/forked.py), and by a shell."""
from __future__ import annotations

import atexit
import functools
import os
import pathlib
import subprocess
import sys
import tempfile
from typing import Any

from checks import forked
from checks.common import NO_ANSWER, SECONDS, TOP, Ran, Word

# stands in such an environment, which the processes below it keep
HAS_PLACE = 'MCSIM_CHECKS_HAVE_A_PYTHON'


def run(name: str, *words: Word, stdin: bytes = b'', seconds: float = SECONDS, **how: Any) -> Ran:
    """Runs a tool to its end, or as long as it may take."""
    try:
        ended = forked.tools().run([sys.executable, TOP / 'tools' / name, *words], input=stdin, capture_output=True, timeout=seconds, **how)
    except subprocess.TimeoutExpired:
        return NO_ANSWER
    return Ran(ended.returncode, ended.stdout, ended.stderr)


@functools.cache
def place() -> pathlib.Path:
    """A folder with a `python3` that begins soon, since it looks for no packages. It is removed when this process ends."""
    folder = tempfile.TemporaryDirectory()
    atexit.register(folder.cleanup)
    found = pathlib.Path(folder.name)
    (found / 'python3').symlink_to(sys.executable)
    (found / 'pyvenv.cfg').write_text(f'home = {pathlib.Path(sys.executable).resolve().parent}\ninclude-system-site-packages = false\n')
    return found


def environment() -> dict[str, str]:
    """The environment of a shell that runs many tools. What Python compiles of them is kept outside the repository, for the next one."""
    if HAS_PLACE in os.environ:
        return dict(os.environ)
    path = f'{place()}:{os.environ["PATH"]}'
    found = {**os.environ, 'PATH': path, 'PYTHONPYCACHEPREFIX': str(place() / 'compiled'), HAS_PLACE: '1'}
    found.pop('PYTHONDONTWRITEBYTECODE', None)
    return found
