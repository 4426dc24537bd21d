"""Tests of quick.py: how often sources are summed, and that an edit is noticed."""
from __future__ import annotations

import pathlib
import subprocess
import sys
import tempfile
import unittest
from collections import Counter

from checks.common import TOP
from checks.proofs import quick


class Crate:
    """A crate whose sum is that of its text and of the crates below it."""

    def __init__(self, folder: str, text: str, *below: Crate) -> None:
        self.folder, self.text, self.below = folder, text, below

    def stamp(self) -> str:
        summed[self.folder] += 1
        return self.text + ''.join(sorted(stamp(crate) for crate in self.below))


summed: Counter[str] = Counter()
stamp = quick.once_each(Crate.stamp)


class Sums(unittest.TestCase):
    """A crate that two others stand on, below a fourth."""

    def setUp(self) -> None:
        summed.clear()
        self.low = Crate('low', 'l')
        self.top = Crate('top', 't', Crate('left', 'a', self.low), Crate('right', 'b', self.low))

    def test_each_crate_is_summed_once_for_a_question(self) -> None:
        self.assertEqual(stamp(self.top), 'talbl')
        self.assertEqual(summed, {'top': 1, 'left': 1, 'right': 1, 'low': 1})

    def test_the_next_question_notices_an_edit(self) -> None:
        before = stamp(self.top)
        self.low.text = 'edited'
        self.assertNotEqual(stamp(self.top), before)
        self.assertEqual(summed['low'], 2)


class Run(unittest.TestCase):
    """A made-up rt."""

    def test_words_and_the_exit_code_are_those_of_rt(self) -> None:
        with tempfile.TemporaryDirectory() as folder:
            rt = pathlib.Path(folder, 'rt')
            rt.write_text('''#!/usr/bin/env python3
import sys, types
class Crate:
    def stamp(self): return ""
rtlib = types.SimpleNamespace(Crate=Crate)
def main(words):
    print(*words, sys.argv[0])
    return 3
''')
            rt.chmod(0o755)
            script = str(TOP / 'checks' / 'proofs' / 'quick.py')
            ran = subprocess.run([sys.executable, script, 'check', '--jobs', '2'], env={'PATH': folder}, capture_output=True, text=True)
        self.assertEqual((ran.returncode, ran.stdout), (3, 'check --jobs 2 rt\n'))
