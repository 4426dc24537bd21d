"""Scripts that are forked, beside the same scripts that are started: they come to the same."""
from __future__ import annotations

import os
import pathlib
import signal
import subprocess
import sys
import tempfile
import unittest
from collections.abc import Sequence
from typing import Any

from checks import forked

# a script, with what it is to come to
SCRIPTS: dict[str, tuple[str, int]] = {
    'words, folder, environment and input': ('import os, sys\nprint(sys.argv[1:], os.getcwd(), os.environ["HERE"], sys.stdin.read(), sep="; ")\n', 0),
    'an exit code': ('import sys\nsys.exit(3)\n', 3),
    'a text in place of one': ('import sys\nsys.exit("no")\n', 1),
    'no Python at the end': ('import os\nprint("lost")\nos._exit(7)\n', 7),
    'a signal': ('import os, signal\nos.kill(os.getpid(), signal.SIGKILL)\n', -signal.SIGKILL),
    'both streams': ('import os, sys\nprint("out")\nsys.stdout.flush()\nprint("err", file=sys.stderr)\nos._exit(2)\n', 2),
    'what is done at the end': ('import atexit\natexit.register(print, "end")\nprint("begin")\n', 0),
    'a thread that goes on': (
        'import threading, time\nsoon = threading.Event()\n'
        'threading.Thread(target=lambda: (soon.wait(), time.sleep(0.05), print("late"))).start()\nprint("soon")\nsoon.set()\n', 0,
    ),
    'its own name': ('print(__name__)\n', 0),
    'a module beside it': ('import beside\nprint(beside.SAID)\n', 0),
    'a module that was changed': ('import json\njson.many = getattr(json, "many", 0) + 1\nprint(json.many)\n', 0),
    'a file of another script': ('import os\nprint([number for number in range(3, 64) if os.path.exists(f"/proc/self/fd/{number}")])\n', 0),
}
MODULES = (f'{forked.TOP}:json', f'{forked.TOP}:threading')


class Forked(unittest.TestCase):
    forks: forked.Forks

    @classmethod
    def setUpClass(cls) -> None:
        cls.forks = forked.Forks(MODULES)

    def setUp(self) -> None:
        folder = tempfile.TemporaryDirectory()
        self.addCleanup(folder.cleanup)
        self.folder = pathlib.Path(folder.name).resolve()
        self.script = self.folder / 'script.py'
        (self.folder / 'beside.py').write_text('SAID = "beside"\n')
        env = {name: value for name, value in os.environ.items() if name != 'PYTHONUNBUFFERED'}
        self.how: dict[str, Any] = {'cwd': self.folder, 'env': {**env, 'HERE': 'here'}, 'capture_output': True}

    def both(self, text: str, *words: forked.Word, **how: Any) -> tuple[subprocess.CompletedProcess[bytes], subprocess.CompletedProcess[bytes]]:
        self.script.write_text(text)
        command: Sequence[forked.Word] = [sys.executable, self.script, *words]
        return self.forks.run(command, **self.how, **how), subprocess.run(command, **self.how, **how)

    def test_it_is_as_one_that_was_started(self) -> None:
        for what, (text, status) in SCRIPTS.items():
            with self.subTest(what):
                found, wanted = self.both(text, 'a b', b'\xff', input=b'given')
                self.assertEqual((found.returncode, found.stdout, found.stderr), (wanted.returncode, wanted.stdout, wanted.stderr))
                self.assertEqual(found.returncode, status)

    def test_state_is_not_kept(self) -> None:
        text, _ = SCRIPTS['a module that was changed']
        self.assertEqual([self.both(text)[0].stdout for _ in range(2)], [b'1\n'] * 2)

    def test_what_is_raised_is_told(self) -> None:
        found, wanted = self.both('1 // 0\n')
        self.assertEqual((found.returncode, found.stderr.splitlines()[-1]), (wanted.returncode, wanted.stderr.splitlines()[-1]))
        self.assertEqual(found.stderr.splitlines()[-1], b'ZeroDivisionError: integer division or modulo by zero')

    def test_a_closed_output(self) -> None:
        self.script.write_text('import os, sys\nsys.exit(5 if sys.stdout is None and not os.path.exists("/proc/self/fd/1") else 6)\n')
        self.assertEqual(self.forks.run([sys.executable, self.script], closes=[1], stderr=subprocess.DEVNULL).returncode, 5)

    def test_an_interrupt_is_heard(self) -> None:
        # also if whoever started the tests has it ignored
        self.script.write_text('import signal\nprint(signal.getsignal(signal.SIGINT) is signal.default_int_handler)\n')
        self.assertEqual(self.forks.run([sys.executable, self.script], capture_output=True).stdout, b'True\n')

    def test_a_file_as_output(self) -> None:
        self.script.write_text('print("kept")\n')
        with (self.folder / 'out').open('wb') as file:
            self.assertEqual(self.forks.run([sys.executable, self.script], stdout=file).stdout, None)
        self.assertEqual((self.folder / 'out').read_text(), 'kept\n')

    def test_one_that_does_not_end(self) -> None:
        self.script.write_text('import os, time\nwith open("pid", "w") as file:\n    file.write(str(os.getpid()))\ntime.sleep(1000)\n')
        with self.assertRaises(subprocess.TimeoutExpired):
            self.forks.run([sys.executable, self.script], cwd=self.folder, timeout=5)
        with self.assertRaises(ProcessLookupError):
            os.kill(int((self.folder / 'pid').read_text()), 0)

    def test_text(self) -> None:
        self.script.write_text('import sys\nprint(sys.stdin.read() + "\\r")\n')
        self.assertEqual(self.forks.run([sys.executable, self.script], input='ä', capture_output=True, text=True).stdout, 'ä\n')

    def test_a_failure_is_raised_if_it_is_asked_for(self) -> None:
        self.script.write_text('import sys\nsys.exit(4)\n')
        with self.assertRaises(subprocess.CalledProcessError) as raised:
            self.forks.run([sys.executable, self.script], check=True)
        self.assertEqual(raised.exception.returncode, 4)


if __name__ == '__main__':
    unittest.main()
