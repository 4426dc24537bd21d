"""The comparison of two builds, with made-up programs: it has to see each byte and each exit code in which they differ."""
import os
import pathlib
import subprocess
import sys
import tempfile
import unittest

from checks import forked
from checks.common import NO_ANSWER, TOP, Ran
from checks.program import same
from checks.program.progress import terminal

# says its own name and its words, and shows the file
TRUE = 'echo "${0##*/} $*"; cat "$1"; echo said >&2; exit 5'
# the runs of each system
SIMULATIONS, CHECKS = 6, 31


class Same(unittest.TestCase):
    def setUp(self) -> None:
        folder = tempfile.TemporaryDirectory()
        self.addCleanup(folder.cleanup)
        self.folder = pathlib.Path(folder.name)
        for build in ('before', 'after'):
            for name in ('mcsim', 'mcscheck'):
                self.program(f'{build}/{name}', TRUE)

    def program(self, path: str, text: str) -> None:
        file = self.folder / path
        file.parent.mkdir(parents=True, exist_ok=True)
        file.write_text(f'#!/bin/sh\n{text}\n')
        file.chmod(0o755)

    def lies(self, name: str, when: str, how: str) -> None:
        """Another program, which does something else where its words have these."""
        self.program(f'after/{name}', f'case "$*" in *"{when}"*) {how};; esac; {TRUE}')

    def compared(self, *words: str) -> tuple[int, list[str], list[str]]:
        given = words or ('before', 'after', '--seeds', '2')
        command = [sys.executable, str(TOP / 'checks' / 'program' / 'same.py'), *given]
        ran = forked.checks().run(command, cwd=self.folder, capture_output=True, text=True, env={**os.environ, 'TMPDIR': str(self.folder)})
        return ran.returncode, ran.stdout.splitlines(), ran.stderr.splitlines()

    def difference(self, text: list[str]) -> list[str]:
        """What is said of the first difference, behind its file, which was kept."""
        head, system, *rest = text[1:-1]
        self.assertEqual(head, 'the first that differs:')
        file = pathlib.Path(system.removeprefix('the system: '))
        self.assertEqual(file.read_text(), same.system_of_seed(int(file.stem.removeprefix('seed_'))).text)
        return [line.replace(str(file), file.name) for line in rest]

    def test_two_builds_that_do_the_same(self) -> None:
        many = 2 * (SIMULATIONS + CHECKS)
        self.assertEqual(self.compared(), (0, [f'{many} runs of mcsim and mcscheck were compared, of 2 systems', f'{many} passed, 0 failed'], []))

    def test_one_byte_of_one_run_is_seen(self) -> None:
        self.lies('mcscheck', 'seed_2.toml --horizon', 'case "$*" in *"table --format csv --workers 4") printf x;; esac')
        status, lines, _ = self.compared()
        self.assertEqual((status, lines[-1]), (1, f'{2 * (SIMULATIONS + CHECKS) - 1} passed, 1 failed'))
        horizon = same.system_of_seed(2).horizon
        words = f'seed_2.toml --horizon {horizon} --show table --format csv --workers 4'
        self.assertEqual(self.difference(lines), [
            f'the command: mcscheck {words}', 'standard output, line 1:', f"  before: 'mcscheck {words}\\n'", f"  after: 'xmcscheck {words}\\n'",
        ])

    def test_the_line_that_differs_is_told(self) -> None:
        for how, wanted in (('echo said; echo more >&2', ["  before: 'said\\n'", "  after: 'more\\n'"]), ('trap "echo end >&2" EXIT', ['  before: (it has ended)', "  after: 'end\\n'"])):
            with self.subTest(how):
                self.lies('mcsim', '--show reports --workers 1', how if 'end' in how else 'echo more >&2')
                status, lines, _ = self.compared()
                self.assertEqual((status, self.difference(lines)[-2:]), (1, wanted))

    def test_an_exit_code_is_seen(self) -> None:
        self.lies('mcsim', '--show both --workers 1', 'trap "exit 0" EXIT')
        status, lines, _ = self.compared()
        self.assertEqual((status, lines[-1]), (1, f'{2 * (SIMULATIONS + CHECKS) - 2} passed, 2 failed'))
        self.assertEqual(self.difference(lines)[1:], ['exit code: 5 before, 0 after'])

    def test_one_program_may_be_given_or_a_checkout(self) -> None:
        self.program('old/mcsim-2', TRUE.replace('${0##*/}', 'mcsim'))
        self.program('top/crates/mcsim/out/mcsim', TRUE)
        # the launcher of a checkout is no build
        self.program('top/mcscheck', 'exit 9')
        status, lines, _ = self.compared('old/mcsim-2', 'top', '--seeds', '2:2', '--jobs', '1')
        self.assertEqual((status, lines[0]), (0, f'{SIMULATIONS} runs of mcsim were compared, of 1 systems'))

    def test_misuse(self) -> None:
        (self.folder / 'empty').mkdir()
        self.program('one/mcsim', TRUE)
        self.program('other/mcscheck', TRUE)
        self.program('else', TRUE)
        for words, said in (
            (('before',), 'AFTER'), (('before', 'empty'), 'empty is neither mcsim nor mcscheck'), (('else', 'after'), 'else is neither'),
            (('one', 'other'), 'there is nothing to compare'), (('before', 'after', '--seeds', '0'), '0 names no seeds'),
            (('before', 'after', '--seeds', '3:2'), '3:2 names no seeds'), (('before', 'after', '--jobs', '0'), '0 is no number from 1 to 1000'),
        ):
            with self.subTest(words):
                status, lines, faults = self.compared(*words)
                self.assertEqual((status, lines), (2, []))
                self.assertIn(said, faults[-1])

    def test_a_terminal_is_told_how_far_it_is(self) -> None:
        command = [sys.executable, str(TOP / 'checks' / 'program' / 'same.py'), 'before', 'after', '--seeds', '2']
        with terminal() as (theirs, seen):
            forked.checks().run(command, cwd=self.folder, stdout=subprocess.DEVNULL, stderr=theirs)
        self.assertIn(b'\rsame: 1 of 2 systems, 0 runs differ', bytes(seen))
        self.assertTrue(bytes(seen).endswith(b'\rsame: 2 of 2 systems, 0 runs differ\x1b[K\r\n'), bytes(seen))


class Systems(unittest.TestCase):
    def test_each_way_to_show_is_among_the_commands(self) -> None:
        commands = [' '.join(command) for command in same.commands_of(same.system_of_seed(1))]
        self.assertEqual(len(commands), SIMULATIONS + CHECKS)
        self.assertEqual(len(set(commands)), SIMULATIONS + CHECKS)
        for words in ('--show reports', '--show jobs --format json', '--show both --format csv --workers 4', '--forever --format text', '--why', '--strict'):
            self.assertTrue(any(words in command for command in commands), words)

    def test_seeds_give_the_same_systems_again(self) -> None:
        self.assertEqual(same.system_of_seed(7), same.system_of_seed(7))
        self.assertEqual(len({same.system_of_seed(seed).text for seed in range(1, 31)}), 30)

    def test_two_programs_that_do_not_end_are_told(self) -> None:
        told = same.Difference(same.system_of_seed(1), ['mcsim', 'a.toml', '--show', 'both'], NO_ANSWER, Ran(0, b'', b'')).told(pathlib.Path('/kept.toml'))
        self.assertEqual(told.splitlines(), ['the system: /kept.toml', 'the command: mcsim /kept.toml --show both', 'before: no answer in time', 'after: an answer'])


if __name__ == '__main__':
    unittest.main()
