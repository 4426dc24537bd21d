#!/usr/bin/env python3
"""Runs the unit tests of checks/tests and tools/tests."""
from __future__ import annotations

import pathlib
import sys
import unittest

sys.dont_write_bytecode = True
sys.path[0] = str(pathlib.Path(__file__).resolve().parents[2])
from checks import common
from checks.common import TOP, Count

# each folder, and that from which its tests are named
FOLDERS = ((TOP / 'checks' / 'tests', TOP), (TOP / 'tools' / 'tests', TOP / 'tools' / 'tests'))


def main() -> None:
    common.asking(__doc__).parse_args()
    count = Count()
    for folder, top in FOLDERS:
        if not folder.is_dir():
            continue
        found = unittest.TextTestRunner(verbosity=0).run(unittest.TestLoader().discover(str(folder), top_level_dir=str(top)))
        for test, why in found.skipped:
            count.skip(f'{test}: {why}')
        failed = len(found.failures) + len(found.errors) + len(found.unexpectedSuccesses)
        count.add(passed=found.testsRun - failed - len(found.skipped), failed=failed)
    count.end()


if __name__ == '__main__':
    main()
