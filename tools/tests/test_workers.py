"""Workers, which end with the tool whatever they do."""
from __future__ import annotations

import multiprocessing
import os
import pathlib
import signal
import subprocess
import sys
import time
import unittest
from unittest import mock

TOOLS = pathlib.Path(__file__).resolve().parent.parent
sys.path.insert(0, str(TOOLS))
from mcsim_tools import workers
from mcsim_tools.faults import Fault


def deaf() -> None:
    """A worker to which a signal is lost, as it is to one that has just been forked."""
    signal.signal(signal.SIGTERM, signal.SIG_IGN)


def size(number: int) -> int:
    return abs(number)


def halved(number: int) -> int:
    """Half of an even number; 5 ends the process."""
    if number == 5:
        os.kill(os.getpid(), signal.SIGKILL)
    if number % 2:
        raise Fault(f'{number} is odd', 4)
    return number // 2


# a tool whose worker runs a program that never ends, and says of which process
HANGS = """
import subprocess, sys, time
from mcsim_tools import workers
def work(item):
    return subprocess.run(['sh', '-c', 'echo $$; exec sleep 1000'])
with workers.in_order(work, range(3), 2) as results:
    next(results)
"""


class Ends(unittest.TestCase):
    def test_what_is_raised_comes_in_its_place(self) -> None:
        for jobs in (1, 2):
            with workers.in_order(halved, [2, 4, 7, 6], jobs) as results:
                self.assertEqual([next(results), next(results)], [1, 2])
                with self.assertRaisesRegex(Fault, '7 is odd') as found:
                    next(results)
                self.assertEqual(found.exception.status, 4)

    def test_a_worker_that_is_gone_is_a_fault(self) -> None:
        with workers.in_order(halved, [2, 5, 4], 2) as results:
            self.assertEqual(next(results), 1)
            with self.assertRaisesRegex(Fault, 'a process of the tool has ended'):
                next(results)

    def test_what_runs_ends_with_a_tool_that_is_killed(self) -> None:
        environment = {**os.environ, 'PYTHONPATH': str(TOOLS)}
        with subprocess.Popen([sys.executable, '-c', HANGS], env=environment, stdout=subprocess.PIPE, text=True) as tool:
            assert tool.stdout is not None
            running = [int(tool.stdout.readline()) for _ in range(2)]
            tool.kill()
            until = time.monotonic() + 60
            # nobody holds the pipe any more once all of them are gone
            self.assertEqual(tool.stdout.read(), '')
            self.assertLess(time.monotonic(), until, running)

    def test_results_come_in_order(self) -> None:
        for jobs in (1, 2, 5):
            with workers.in_order(size, range(-9, 0), jobs) as results:
                self.assertEqual(list(results), list(range(9, 0, -1)))

    def test_a_worker_that_does_not_hear_is_ended_too(self) -> None:
        began = time.monotonic()
        with mock.patch.object(workers, 'begin', deaf):
            with workers.in_order(size, range(100), 3) as results:
                self.assertEqual(next(results), 0)
        for child in multiprocessing.active_children():
            child.join(10)
        self.assertEqual(multiprocessing.active_children(), [])
        self.assertLess(time.monotonic() - began, 10)


if __name__ == '__main__':
    unittest.main()
