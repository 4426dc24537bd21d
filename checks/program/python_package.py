#!/usr/bin/env python3
"""Checks the package for Python: pip builds it, a wheel of it works without a compiler, and its tests pass under mypy --strict users' code.

It is built of a copy, with the library that was built here if there is one: from the source by pip, and as a wheel by python3 -m build. Each is put into a
virtual environment of its own. The unit tests of python/tests run with the wheel, where no command is on PATH. What a user writes (python/tests/typed_use.py)
has no finding of mypy --strict. 1,000 checks of a small system take at most half a second of processor time.

It takes the first Python with pip, setuptools, wheel and build, of the one that runs this and Debian's (python3-setuptools, python3-wheel, python3-build).
If none has build, it takes the first with the others, and skips the wheel; without one, or without a C compiler, all is skipped. What needs mypy is
skipped without it."""
from __future__ import annotations

import os
import pathlib
import re
import shutil
import sys
import tempfile

sys.dont_write_bytecode = True
sys.path[0] = str(pathlib.Path(__file__).resolve().parents[2])
from checks import common
from checks.common import TOP, Count, Ran

PYTHONS = (sys.executable, '/usr/bin/python3')
NEEDED = ('pip', 'setuptools', 'wheel', 'venv')
HAS_MODULES = 'import importlib.util, sys; sys.exit(not all(map(importlib.util.find_spec, sys.argv[1:])))'
SOURCE = TOP / 'python'
TESTS = SOURCE / 'tests'
EXAMPLES, PAGE = TOP / 'examples', TOP / 'docs' / 'LIBRARY.md'
# runs a notebook, and tells the responses of a driver that answers in time, and the misses of both designs
NOTEBOOK = """import runpy, sys
cells = runpy.run_path(sys.argv[1])
jobs, figures = cells['jobs'], cells['figures']
print(sorted(set(jobs[jobs.thread == 'Driver'].response), reverse=True), list(figures.missed))
"""
# the processor seconds of 1,000 checks of the system that the page shows, at best
SPEED = """
import time
def seconds():
    begun = time.process_time()
    for _ in range(1000):
        system.check(100)
    return time.process_time() - begun
print(min(seconds() for _ in range(3)))
"""
# what these may take
MOST_SECONDS = 0.5
# what the package is built of, beside its own folder
BELOW = ('bin', 'launcher', 'tools')
# bytes of the wheel
MOST = 2_000_000
NAME = re.compile(r'mcsim-(\d+\.\d+)-py3-none-manylinux_2_\d+_x86_64\.whl')
SECONDS = 600


def has(python: str, *modules: str) -> bool:
    """Whether a Python is there and has these modules."""
    return os.access(python, os.X_OK) and common.run([python, '-c', HAS_MODULES, *modules]).status == 0


class Trial:
    """The package in a folder: built, installed and used."""

    def __init__(self, python: str, folder: pathlib.Path) -> None:
        self.python, self.folder, self.count = python, folder, Count()
        self.source = folder / 'source' / 'python'
        for name in (*BELOW, 'python'):
            skipped = shutil.ignore_patterns('__pycache__', 'build', 'dist', '*.egg-info')
            shutil.copytree(TOP / name, folder / 'source' / name, ignore=skipped)
        if common.LIBRARY.is_file():
            shutil.copy(common.LIBRARY, folder / 'source' / 'bin')

    def run(self, *command: str | pathlib.Path, path: str | None = None) -> Ran:
        env = {**os.environ, 'PYTHONDONTWRITEBYTECODE': '1', **({} if path is None else {'PATH': path})}
        return common.run(command, seconds=SECONDS, cwd=self.folder, env=env)

    def expect(self, what: str, ran: Ran) -> bool:
        self.count.expect(f'{what}: {ran.status}\n{(ran.stdout + ran.stderr).decode(errors="replace")[-2000:]}', ran.status == 0)
        return ran.status == 0

    def environment(self, name: str, package: pathlib.Path) -> pathlib.Path | None:
        """The Python of a new virtual environment with a package."""
        place = self.folder / name
        # it sees what Debian's Python has: setuptools for a build, pandas for a test
        made = self.run(self.python, '-m', 'venv', '--system-site-packages', '--without-pip', place)
        inside = place / 'bin' / 'python3'
        options = ('--no-build-isolation', '--no-index', '--disable-pip-version-check', '--no-warn-script-location', '--root-user-action=ignore')
        installed = self.expect(f'venv {name}', made) and self.expect(f'pip install {package.name}', self.run(
            self.python, '-m', 'pip', '--python', inside, 'install', *options, package,
        ))
        return inside if installed else None

    def try_source(self) -> None:
        """What pip builds of the source."""
        if inside := self.environment('from source', self.source):
            said = self.run(inside, '-c', 'import mcsim; print(mcsim.System().check(9).is_clean)', path='')
            self.count.expect(f'a package that pip built says {said}', said.stdout == b'True\n')

    def wheel(self) -> pathlib.Path | None:
        """The wheel that build makes."""
        if not has(self.python, 'build'):
            self.count.skip('the wheel, since there is no module build (apt-get install python3-build)')
            return None
        if not self.expect('build', self.run(self.python, '-m', 'build', '--wheel', '--no-isolation', self.source)):
            return None
        wheel = next((self.source / 'dist').iterdir())
        self.count.expect(f'{wheel.name} is the name of no wheel for Linux', NAME.fullmatch(wheel.name) is not None)
        self.count.expect(f'{wheel.name} has {wheel.stat().st_size} bytes, and at most {MOST} are allowed', wheel.stat().st_size <= MOST)
        return wheel

    def try_wheel(self) -> None:
        """The unit tests and the types, with a wheel."""
        wheel = self.wheel()
        inside = wheel and self.environment('from the wheel', wheel)
        if not inside:
            return
        ran = self.run(inside, TESTS / 'test_mcsim.py', path='')
        passed = re.search(r'Ran (\d+) tests?', ran.stderr.decode())
        if self.expect('the unit tests', ran) and passed:
            self.count.add(passed=int(passed[1]))
        self.try_examples(inside)
        if shutil.which('mypy') is None:
            self.count.skip('mypy, which is not installed')
            return
        for file in ('typed_use.py', 'test_mcsim.py'):
            words = ('--strict', f'--cache-dir={os.devnull}', '--python-executable', inside, TESTS / file)
            self.expect(f'mypy --strict {file}', self.run('mypy', *words))

    def try_examples(self, inside: pathlib.Path) -> None:
        """The examples, on a driver that needs 14 ticks in each period: then its alarm of 12 is answered at 23."""
        ran = self.run(inside, EXAMPLES / 'python' / 'sweep.py', EXAMPLES / 'systems' / 'network_driver.toml')
        lines = ran.stdout.decode().splitlines()
        self.count.expect(f'the sweep: {ran}', len(lines) == 5 and lines[-1] == 'budget 14: worst response 11, 0 missed, 0 findings')
        self.count.expect(f'the page has other lines than the sweep: {lines}', '\n'.join(['```', *lines, '```', '']) in PAGE.read_text())
        shown, = re.findall(r'^```python\n(.*?)^```', PAGE.read_text(), re.M | re.S)
        shutil.copy(EXAMPLES / 'systems' / 'network_driver.toml', self.folder / 'system.toml')
        # the job of the tick at 0 begins when the wait ends, at 1, and ends at 4, a tick late; that of 10 ends at 13
        ran = self.run(inside, '-c', shown + 'print(system.check(14).counts.missed, len(same.threads))')
        self.count.expect(f'what the page shows: {ran}', ran.stdout == b'1 2\n')
        ran = self.run(inside, '-c', shown + SPEED)
        self.count.expect(f'1,000 checks of a small system: {ran}', ran.status == 0 and float(ran.stdout) <= MOST_SECONDS)
        if not has(str(inside), 'pandas'):
            self.count.skip('the notebook, since there is no pandas')
            return
        ran = self.run(inside, '-c', NOTEBOOK, EXAMPLES / 'python' / 'notebook.py')
        self.count.expect(f'the notebook: {ran}', ran.stdout == b'[11, 9] [18, 0, 0, 0]\n')

    def try_version(self) -> None:
        """The version, beside that of the header."""
        header = re.findall(r'^#define MCS_VERSION_(?:MAJOR|MINOR) (\d+)$', (TOP / 'include' / 'mcsim.h').read_text(), re.M)
        own = re.findall(r"^__version__ = '(.*)'$", (SOURCE / 'src' / 'mcsim' / '__init__.py').read_text(), re.M)
        self.count.expect(f'the package has the version {own}, and mcsim.h {header}', own == ['.'.join(header)])


def main() -> None:
    common.asking(__doc__).parse_args()
    python = next((python for modules in (('build',), ()) for python in PYTHONS if has(python, *NEEDED, *modules)), None)
    has_compiler = any(map(shutil.which, ('cc', 'gcc', 'clang')))
    if python is None or not has_compiler:
        count = Count()
        count.skip('the package for Python, since there is no ' + ('C compiler' if python else 'Python with pip, setuptools, wheel and venv'))
        count.end()
    with tempfile.TemporaryDirectory() as folder:
        trial = Trial(python, pathlib.Path(folder))
        trial.try_version()
        trial.try_source()
        trial.try_wheel()
    trial.count.end()


if __name__ == '__main__':
    main()
