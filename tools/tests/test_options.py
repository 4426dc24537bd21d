"""What tools read: numbers as people type them, and standard input in place of a file."""
from __future__ import annotations

import argparse
import os
import pathlib
import sys
import tempfile
import unittest

from worked import ONE, TOOLS, run_tool
from mcsim_tools import digits, options

# a program that answers whatever it is given with the rows of ONE up to 2
PROGRAM = '#!/bin/sh\ncat >/dev/null\necho 0 0 release A\necho 0 0 run A\necho 2 0 stop A spent 2 until 5\n'


class Numbers(unittest.TestCase):
    def test_a_whole_number_may_be_written_shorter(self) -> None:
        for text, plain in (('1e6', '1000000'), ('1_000_000', '1000000'), ('1.5e3', '1500'), ('10.0', '10'), ('2E3', '2000'), ('0', '0')):
            self.assertEqual(digits.typed(text), plain)

    def test_other_texts_stay(self) -> None:
        for text in ('', '1.5', '1.55e1', '_1', '1_', '1__0', 'e6', '1e', '1e-3', '1e100', '.5', '5.', '-5', '+5', '1,000', '٣', '1e6\n'):
            self.assertEqual(digits.typed(text), text)

    def test_options_take_them_within_their_range(self) -> None:
        read = options.number('no number of 0 to 2000', 0, 2000)
        self.assertEqual(read('2e3'), 2000)
        for text in ('2.1e3', '2001', '1e99', '1.5'):
            with self.assertRaisesRegex(argparse.ArgumentTypeError, f'^{text!r} is no number of 0 to 2000$'):
                read(text)


class StandardInput(unittest.TestCase):
    def setUp(self) -> None:
        place = tempfile.TemporaryDirectory()
        self.addCleanup(place.cleanup)
        self.folder = pathlib.Path(place.name)
        self.program = self.folder / 'program'
        self.program.write_text(PROGRAM)
        self.program.chmod(0o755)

    def ran(self, tool: str, *words: str) -> tuple[int, str, str]:
        env = {**os.environ, 'MCSIM': str(self.program)}
        found = run_tool([sys.executable, str(TOOLS / tool), *words], input=ONE, cwd=self.folder, env=env, capture_output=True, text=True)
        return found.returncode, found.stdout, found.stderr

    def test_a_dash_is_the_file_of_a_system(self) -> None:
        (self.folder / 'system.toml').write_text(ONE)
        for tool, words in (('trace', ('-n', '2')), ('waves', ('--horizon', '2')), ('explain', ())):
            by_name = self.ran(tool, 'system.toml', *words)
            self.assertEqual(by_name[0], 0, by_name)
            self.assertEqual(self.ran(tool, '-', *words), (0, by_name[1].replace('system.toml', '-'), ''))

    def test_it_is_read_once(self) -> None:
        self.assertEqual(self.ran('trace', '-', '--rows', '-'), (2, '', 'trace: - stands twice: standard input can be read once\n'))

    def test_a_page_that_follows_a_file_needs_one(self) -> None:
        self.assertEqual(self.ran('live', '-'), (2, '', 'live: -: the page follows a file, and standard input is none\n'))


if __name__ == '__main__':
    unittest.main()
