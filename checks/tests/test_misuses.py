"""What the launcher of the repository prints: of what people do wrong, each line of the table misuses.toml, with and without a terminal; and to a pipe
what the program prints, byte for byte."""
from __future__ import annotations

import contextlib
import os
import pathlib
import pty
import subprocess
import sys
import tempfile
import tomllib
import unittest
from typing import Any

from checks import common
from checks.common import TOP

TABLE = pathlib.Path(__file__).with_name('misuses.toml')
SYSTEM = TOP / 'docs' / 'late.toml'
PAGE = '# Title\n\nIt is a page.\n'
LEAST = 40
# what the program and the launcher are asked, of each of these systems, and of one that is refused
SYSTEMS = (SYSTEM, *(TOP / 'examples' / 'systems' / f'{name}.toml' for name in ('network_driver', 'lock_and_inversion')), TOP / 'README.md')
ASKED: dict[str, tuple[str, ...]] = {
    'mcsim': ('--horizon 50', '--show=both --workers 2', '--horizon 30 --show reports', '--bogus', '--horizon 1099511627777'),
    'mcscheck': (
        '--horizon 50', '--horizon=60 --show findings --strict', '--show jobs --format csv --horizon 40', '--format json --horizon 40', '--forever --format json',
        '--why Driver 2 --horizon 100', '--format json --why Loop 1', '--allow-lost tick --show table', '--format yaml', '--show', '--why Nobody 1',
    ),
}
SECONDS = 600


def misuses() -> list[dict[str, Any]]:
    found: list[dict[str, Any]] = tomllib.loads(TABLE.read_text())['misuse']
    return found


class Misuses(unittest.TestCase):
    def setUp(self) -> None:
        place = tempfile.TemporaryDirectory()
        self.addCleanup(place.cleanup)
        self.folder = pathlib.Path(place.name)
        (self.folder / 'page.md').write_text(PAGE)
        path = os.pathsep.join([str(TOP), str(pathlib.Path(sys.executable).parent), '/usr/bin', '/bin'])
        self.how: dict[str, Any] = {'cwd': self.folder, 'env': {'PATH': path, 'PYTHONDONTWRITEBYTECODE': '1'}, 'stdin': subprocess.DEVNULL, 'timeout': SECONDS}

    def make(self, misuse: dict[str, Any]) -> None:
        """Writes system.toml, with the change of this misuse."""
        text = SYSTEM.read_text()
        if old_and_new := misuse.get('change'):
            old, new = old_and_new
            self.assertEqual(text.count(old), 1, misuse['what'])
            text = text.replace(old, new)
        (self.folder / 'system.toml').write_text(text)

    def at_terminal(self, command: str) -> list[str]:
        """The lines of standard error, which is a terminal."""
        mine, its = pty.openpty()
        subprocess.run(['sh', '-c', command], stdout=subprocess.PIPE, stderr=its, **self.how)
        os.close(its)
        text = b''
        with contextlib.suppress(OSError):
            while part := os.read(mine, 4096):
                text += part
        os.close(mine)
        return lines_of(text.decode().replace('\r', ''))

    def test_each_is_told(self) -> None:
        for misuse in misuses():
            with self.subTest(misuse['what']):
                self.make(misuse)
                ran = subprocess.run(['sh', '-c', misuse['command']], capture_output=True, text=True, **self.how)
                self.assertEqual((ran.returncode, ran.stdout, lines_of(ran.stderr)), (misuse['exit'], '', misuse['prints']))

    def test_a_terminal_has_more(self) -> None:
        for misuse in misuses():
            if 'shows' in misuse:
                with self.subTest(misuse['what']):
                    self.make(misuse)
                    self.assertEqual(self.at_terminal(misuse['command']), [*misuse['prints'], *misuse['shows']])

    def test_there_are_so_many_that_differ(self) -> None:
        commands = [(misuse['command'], str(misuse.get('change'))) for misuse in misuses()]
        self.assertEqual(len({*commands}), len(commands))
        self.assertGreaterEqual(len(commands), LEAST)


class Pipes(unittest.TestCase):
    def test_a_pipe_has_the_bytes_of_the_program(self) -> None:
        for name, asked in ASKED.items():
            program = next(filter(common.is_program, (common.built_of(name), TOP / 'bin' / name)))
            for system in SYSTEMS:
                for words in asked:
                    with self.subTest(name=name, system=system.name, words=words):
                        wanted, found = (common.run([command, system, *words.split()]) for command in (program, TOP / name))
                        self.assertEqual(found, wanted)

    def test_so_has_one_on_standard_input(self) -> None:
        for name, asked in ASKED.items():
            program = next(filter(common.is_program, (common.built_of(name), TOP / 'bin' / name)))
            with self.subTest(name=name):
                wanted, found = (common.run([command, *asked[0].split()], SYSTEM.read_bytes()) for command in (program, TOP / name))
                self.assertEqual(found, wanted)
                self.assertEqual(common.run([TOP / name, '-', *asked[0].split()], SYSTEM.read_bytes()), wanted)


def lines_of(text: str) -> list[str]:
    return [line for line in text.splitlines() if line]


if __name__ == '__main__':
    unittest.main()
