"""The command ./test, in a folder with a made-up gate, made-up checks and a made-up program."""
import os
import pathlib
import shutil
import subprocess
import sys
import tempfile
import unittest
from collections.abc import Sequence
from typing import Any

CHECKS = pathlib.Path(__file__).resolve().parent.parent
from checks import common, everything

TOP = CHECKS.parent
# a folder has these of the checks unless all are wanted: of some that try the program, and of some that do not, the sums are as of all
FEW = tuple(check for check in everything.CHECKS if check.name in ('rules', 'pages', 'manual', 'early', 'prose'))
MANY, MANY_OF_ALL = len(FEW), len(everything.CHECKS)
# what is passed where there is no program to try
OTHERS, OTHERS_OF_ALL = (2 * sum(not check.tries_program for check in checks) for checks in (FEW, everything.CHECKS))
# what ./test, .ci/run and the made-up gate call
TOOLS = ('sh', 'bash', 'dirname', 'mkdir', 'chmod', 'sleep')
# the scripts that run the gate
GATE = ('edits_together', 'gate', 'gate_beside', 'gate_cost', 'gate_tasks', 'timed_rt')
# in place of the script that builds the library
BUILDS_LIBRARY = """import pathlib
file = pathlib.Path(__file__).parents[2] / 'crates' / 'mcs_c' / 'out' / 'libmcs_c.a'
file.parent.mkdir()
file.write_text('new\\n')
"""
# a made-up gate whose tasks can be timed
TIMED = """#!/usr/bin/env python3
import concurrent.futures, types
rtlib = types.SimpleNamespace(ThreadPoolExecutor=concurrent.futures.ThreadPoolExecutor)

def in_lanes(tasks):
    for waits, lines, needs, call in tasks.values():
        call({}, 1)

def main(words):
    in_lanes({('a', 'proof'): ([], 7, 1, lambda given, jobs: True)})
    print('rt: said')
    print('5 passed, 0 failed')
    return 0
"""
# what the made-up gate builds
BUILDS = 'mkdir -p crates/mcsim/out; echo "exit 0" >crates/mcsim/out/mcsim; chmod +x crates/mcsim/out/mcsim'


class Folder:
    """A folder with ./test and .ci/run, in which each check tells the same count."""

    def __init__(self, path: str) -> None:
        self.top = pathlib.Path(path)
        self.tools = self.top / 'tools_on_path'
        for part in ('checks', '.ci', 'bin', 'tools_on_path'):
            (self.top / part).mkdir()
        shutil.copy(TOP / 'test', self.top)
        shutil.copy(TOP / '.ci' / 'run', self.top / '.ci')
        (self.top / 'checks' / 'proofs').mkdir()
        for script in ('__init__.py', 'common.py', *(f'proofs/{name}.py' for name in GATE)):
            shutil.copy(CHECKS / script, self.top / 'checks' / script)
        self.have(FEW)
        for tool in TOOLS:
            (self.tools / tool).symlink_to(shutil.which(tool) or tool)
        (self.tools / 'python3').symlink_to(sys.executable)
        # without packages from elsewhere, which take most of the time of its start
        (self.tools / 'pyvenv.cfg').write_text(f'home = {pathlib.Path(sys.executable).resolve().parent}\ninclude-system-site-packages = false\n')
        for check in everything.CHECKS:
            self.check(f'{check.folder}/{check.name}', 'print("tries", *sys.argv[1:])\nprint("2 passed, 0 failed")')

    def have(self, checks: Sequence[everything.Check]) -> None:
        """Has these of the checks."""
        names, ends = [check.name for check in checks], '# what no gate runs\n'
        text = (CHECKS / 'everything.py').read_text()
        cut = text.replace(ends, f'CHECKS = tuple(check for check in CHECKS if check.name in {names})\n{ends}')
        assert cut != text
        (self.top / 'checks' / 'everything.py').write_text(cut)

    def check(self, name: str, text: str) -> None:
        file = self.top / 'checks' / f'{name}.py'
        file.parent.mkdir(exist_ok=True)
        file.write_text(f'import sys\n{text}\n')

    def script(self, path: str, text: str) -> pathlib.Path:
        file = self.top / path
        file.parent.mkdir(parents=True, exist_ok=True)
        file.write_text(f'#!/bin/sh\n{text}\n')
        file.chmod(0o755)
        return file

    def gate(self, text: str) -> None:
        """A made-up rt."""
        self.script('tools_on_path/rt', text)

    def run(self, *command: str) -> tuple[int, list[str]]:
        """The status of a command, and the lines that it writes."""
        how: dict[str, Any] = {'stdin': subprocess.DEVNULL, 'stdout': subprocess.PIPE, 'stderr': subprocess.STDOUT}
        ran = subprocess.run(command, cwd=self.top, env={'PATH': str(self.tools)}, text=True, **how)
        return ran.returncode, ran.stdout.splitlines()


class InFolder(unittest.TestCase):
    def setUp(self) -> None:
        path = tempfile.TemporaryDirectory()
        self.addCleanup(path.cleanup)
        self.folder = Folder(path.name)

    def counts(self, lines: list[str]) -> list[str]:
        return [line for line in lines if common.tally_of(line)]


class WithoutProofs(InFolder):
    def test_without_rt_the_program_of_the_repository_is_checked(self) -> None:
        self.folder.have(everything.CHECKS)
        program = self.folder.script('bin/mcsim', 'exit 0')
        status, lines = self.folder.run('./test')
        self.assertEqual((status, lines[-1]), (0, f'{2 * MANY_OF_ALL} passed, 0 failed, 1 skipped'))
        self.assertEqual(lines[0], f'processors: {len(os.sched_getaffinity(0))}')
        self.assertEqual(lines[1], 'nothing was proved: the command rt of the Rattle toolchain is not on PATH')
        # it stands at the end again, where nobody takes the count for that of a gate
        self.assertEqual(lines[-2], lines[1])
        self.assertIn(f'tries --program {program.resolve()}', lines)
        self.assertEqual(self.counts(lines), lines[-1:])

    def test_the_program_that_the_gate_left_comes_first(self) -> None:
        self.folder.script('bin/mcsim', 'exit 0')
        program = self.folder.script('crates/mcsim/out/mcsim', 'exit 0')
        _, lines = self.folder.run('./test')
        self.assertIn(f'tries --program {program.resolve()}', lines)

    def test_a_program_that_is_given_is_checked_and_no_gate_runs(self) -> None:
        self.folder.gate('echo the gate ran; echo 1 passed, 0 failed')
        program = self.folder.script('other', 'exit 0')
        status, lines = self.folder.run('./test', '--program', 'other')
        self.assertEqual((status, lines[-1]), (0, f'{2 * MANY} passed, 0 failed, 1 skipped'))
        self.assertEqual((lines[1], lines[-2]), ('nothing was proved: --program gives other',) * 2)
        self.assertIn(f'tries --program {program.resolve()}', lines)
        self.assertNotIn('the gate ran', lines)

    def test_no_proofs_runs_no_gate(self) -> None:
        self.folder.gate('echo the gate ran; echo 1 passed, 0 failed')
        self.folder.script('bin/mcsim', 'exit 0')
        status, lines = self.folder.run('./test', '--no-proofs', '--only', 'pages')
        self.assertEqual((status, lines[-1]), (0, '2 passed, 0 failed, 1 skipped'))
        self.assertNotIn('the gate ran', lines)

    def test_without_a_program_it_fails(self) -> None:
        for words in ((), ('--program', 'none')):
            status, lines = self.folder.run('./test', *words)
            self.assertEqual((status, lines[-1]), (1, f'{OTHERS} passed, 1 failed, 1 skipped'))
        self.folder.have(everything.CHECKS)
        status, lines = self.folder.run('./test')
        self.assertEqual((status, lines[-1]), (1, f'{OTHERS_OF_ALL} passed, 1 failed, 1 skipped'))

    def test_the_merge_gate_needs_rt(self) -> None:
        self.folder.script('bin/mcsim', 'exit 0')
        status, lines = self.folder.run('bash', '.ci/run')
        self.assertEqual((status, lines[-1]), (1, '0 passed, 1 failed'))


class WithAGate(InFolder):
    def test_the_count_is_over_the_gate_and_the_checks(self) -> None:
        self.folder.have(everything.CHECKS)
        self.folder.gate(f'{BUILDS}; echo rt: said; echo 5 passed, 0 failed')
        self.folder.script('bin/mcsim', 'exit 0')
        status, lines = self.folder.run('bash', '.ci/run')
        self.assertEqual((status, lines[-1]), (0, f'{5 + 2 * MANY_OF_ALL} passed, 0 failed'))
        self.assertTrue(lines[1].startswith('timed_rt.py: rt runs without clocks: '))
        self.assertEqual(lines[2:4], ['rt: said', 'rt ci: 5 passed, 0 failed'])
        self.assertFalse([line for line in lines if 'nothing was proved' in line])
        self.assertIn(f'tries --program {(self.folder.top / "crates/mcsim/out/mcsim").resolve()}', lines)
        self.assertEqual(self.counts(lines), lines[-1:])

    def with_library(self, gate: str, archive: str) -> tuple[int, str]:
        """The status and the last line where the repository has the library for C, and this is the script that builds it."""
        (self.folder.top / 'crates' / 'mcs_c').mkdir(parents=True)
        (self.folder.top / 'checks' / 'proofs' / 'archive.py').write_text(archive)
        self.folder.gate(f'{BUILDS}; {gate}')
        status, lines = self.folder.run('./test')
        return status, lines[-1]

    def test_the_library_is_built_after_the_gate(self) -> None:
        told = self.with_library('echo 5 passed, 0 failed', BUILDS_LIBRARY)
        self.assertEqual(told, (0, f'{6 + 2 * MANY} passed, 0 failed'))
        self.assertEqual((self.folder.top / 'crates/mcs_c/out/libmcs_c.a').read_text(), 'new\n')

    def test_a_library_that_is_not_built_is_a_failure(self) -> None:
        self.assertEqual(self.with_library('echo 5 passed, 0 failed', ''), (1, f'{5 + 2 * MANY} passed, 1 failed'))

    def test_no_library_is_built_after_a_gate_that_failed(self) -> None:
        self.assertEqual(self.with_library('echo 5 passed, 2 failed; exit 1', BUILDS_LIBRARY), (1, f'{5 + 2 * MANY} passed, 2 failed'))
        self.assertFalse((self.folder.top / 'crates/mcs_c/out').exists())

    def test_the_gate_is_asked_for_all_crates(self) -> None:
        self.folder.gate(f'{BUILDS}; echo "given $*"; echo 5 passed, 0 failed')
        self.assertIn('given ci', self.folder.run('./test')[1])
        self.assertIn('given ci --anew', self.folder.run('./test', '--anew')[1])

    def test_times_are_asked_of_the_script_that_times_the_gate(self) -> None:
        self.folder.gate('exit 1')
        self.folder.script('crates/mcsim/out/mcsim', 'exit 0')
        self.folder.check('proofs/gate', 'print("timed", *sys.argv[1:])\nprint("5 passed, 0 failed")')
        status, lines = self.folder.run('./test', '--anew', '--times', 'table')
        self.assertEqual((status, lines[-1]), (0, f'{5 + 2 * MANY} passed, 0 failed'))
        self.assertIn(f'timed --anew {(self.folder.top / "table").resolve()}', lines)

    def with_times(self, compares: str, times: str = '{}', *words: str) -> tuple[int, list[str]]:
        """What ./test says where the gate keeps its times, and this is what compares them."""
        keeps = f'pathlib.Path(sys.argv[-1]).with_suffix(".json").write_text("{times}")' if times else 'pass'
        self.folder.check('proofs/gate', f'import pathlib\nif "--compare" in sys.argv:\n    {compares}\nelse:\n    {keeps}\n    print("5 passed, 0 failed")')
        self.folder.script('crates/mcsim/out/mcsim', 'exit 0')
        self.folder.gate('exit 1')
        status, lines = self.folder.run('./test', *words)
        self.assertEqual(self.counts(lines), lines[-1:])
        return status, lines

    def test_the_cost_of_the_gate_is_said_near_the_end(self) -> None:
        status, lines = self.with_times('print("dear", *sys.argv[1:2]); print("1 passed, 0 failed")')
        self.assertEqual((status, lines[-3:]), (0, ['== the cost of the gate', 'dear --from', f'{6 + 2 * MANY} passed, 0 failed']))

    def test_a_gate_that_is_too_dear_fails_the_whole(self) -> None:
        status, lines = self.with_times('print("failed: dear"); print("0 passed, 1 failed"); sys.exit(1)')
        self.assertEqual((status, lines[-2:]), (1, ['failed: dear', f'{5 + 2 * MANY} passed, 1 failed']))

    def test_a_cost_that_cannot_be_compared_fails_nothing(self) -> None:
        for compares in ('raise ValueError("no table")', 'sys.exit(3)', 'print("0 passed, 0 failed")'):
            status, lines = self.with_times(compares)
            self.assertEqual((status, lines[-1]), (0, f'{5 + 2 * MANY} passed, 0 failed'))
            self.assertEqual('the cost of the gate is not compared' in lines, 'print' not in compares)

    def test_a_gate_without_times_is_not_compared(self) -> None:
        status, lines = self.with_times('print("9 passed, 9 failed")', '')
        self.assertEqual((status, lines[-1]), (0, f'{5 + 2 * MANY} passed, 0 failed'))
        self.assertFalse([line for line in lines if 'cost' in line])

    def test_times_stay_beside_the_report_that_is_asked_for(self) -> None:
        self.with_times('print("0 passed, 0 failed")', 'kept', '--times', 'table.md')
        self.assertEqual((self.folder.top / 'table.json').read_text(), 'kept')

    def test_times_as_json_are_refused(self) -> None:
        self.assertEqual(self.folder.run('./test', '--times', 'table.json')[0], 2)

    def test_a_gate_of_python_is_timed(self) -> None:
        self.folder.gate('')
        (self.folder.tools / 'rt').write_text(TIMED)
        self.folder.script('crates/mcsim/out/mcsim', 'exit 0')
        status, lines = self.folder.run('./test', '--times', 'table.md')
        self.assertEqual((status, lines[-1]), (0, f'{5 + 2 * MANY} passed, 0 failed'))
        self.assertEqual(lines[1:3], ['rt: said', 'rt ci: 5 passed, 0 failed'])
        self.assertEqual(lines[-3:-1], ['== the cost of the gate', 'the gate has no table of its cost: checks/proofs/gate.py --anew --write makes it'])
        self.assertIn('| `a` | - |', (self.folder.top / 'table.md').read_text())

    def test_a_source_that_is_edited_meanwhile_is_newer_than_the_program(self) -> None:
        self.folder.gate(f'sleep 0.1; echo x >source; {BUILDS}; echo 5 passed, 0 failed')
        self.folder.run('./test')
        source, program = self.folder.top / 'source', self.folder.top / 'crates' / 'mcsim' / 'out' / 'mcsim'
        self.assertLess(program.stat().st_mtime_ns, source.stat().st_mtime_ns)

    def test_a_gate_that_fails_fails_the_whole(self) -> None:
        for text, count in (('echo 5 passed, 2 failed; exit 1', (5, 2)), ('echo 5 passed, 0 failed; exit 1', (5, 1)), ('exit 0', (0, 1)), ('kill -9 $$', (0, 1))):
            self.folder.gate(f'{BUILDS}; {text}')
            status, lines = self.folder.run('./test')
            self.assertEqual((status, lines[-1]), (1, f'{count[0] + 2 * MANY} passed, {count[1]} failed'))

    def test_no_other_program_is_checked_in_place_of_the_gates(self) -> None:
        self.folder.gate('echo 5 passed, 0 failed')
        self.folder.script('bin/mcsim', 'exit 0')
        status, lines = self.folder.run('./test')
        self.assertEqual((status, lines[-1]), (1, f'{5 + OTHERS} passed, 1 failed'))


class OfChecks(InFolder):
    def setUp(self) -> None:
        super().setUp()
        self.folder.script('bin/mcsim', 'exit 0')

    def told(self, text: str) -> tuple[int, str]:
        self.folder.check('pages/pages', text)
        status, lines = self.folder.run('./test', '--only', 'pages', '--only', 'manual')
        return status, lines[-1]

    def test_what_is_skipped_is_added(self) -> None:
        self.assertEqual(self.told('print("1 passed, 0 failed, 2 skipped")'), (0, '3 passed, 0 failed, 3 skipped'))

    def test_a_failure_is_added(self) -> None:
        self.assertEqual(self.told('print("1 passed, 4 failed")\nsys.exit(1)'), (1, '3 passed, 4 failed, 1 skipped'))

    def test_a_check_without_a_count_has_failed(self) -> None:
        self.assertEqual(self.told('print("all is well")'), (1, '2 passed, 1 failed, 1 skipped'))

    def test_a_check_whose_count_is_not_last_has_failed(self) -> None:
        self.assertEqual(self.told('print("9 passed, 0 failed")\nraise ValueError'), (1, '2 passed, 1 failed, 1 skipped'))

    def test_a_status_that_says_otherwise_is_a_failure(self) -> None:
        self.assertEqual(self.told('print("9 passed, 0 failed")\nsys.exit(1)'), (1, '11 passed, 1 failed, 1 skipped'))


class AllEdits(InFolder):
    """--all-edits tries the edits and holds their table, and runs neither the gate nor other checks."""

    def told(self, *words: str, tried: str = '7 passed, 1 failed') -> tuple[int, list[str]]:
        self.folder.gate('echo the gate ran; echo 1 passed, 0 failed')
        for name, count in (('edits', tried), ('edits_table', '9 passed, 0 failed')):
            self.folder.check(f'proofs/{name}', f'print("{name}", *sys.argv[1:])\nprint("{count}")')
        return self.folder.run('./test', '--all-edits', *words)

    def test_all_are_tried_for_the_table_which_is_held_to_the_sources(self) -> None:
        lines = ['edits --table --all --together', 'edits: 7 passed, 0 failed', 'edits_table', 'edits_table: 9 passed, 0 failed', '16 passed, 0 failed']
        self.assertEqual(self.told(tried='7 passed, 0 failed'), (0, lines))

    def test_an_edit_that_is_not_refused_fails(self) -> None:
        status, lines = self.told()
        self.assertEqual((status, lines[-1]), (1, '16 passed, 1 failed'))

    def test_a_part_is_handed_on(self) -> None:
        self.assertIn('edits --table --all --together --shard 2/4', self.told('--shard', '2/4')[1])

    def test_a_part_of_something_else_is_refused(self) -> None:
        status, lines = self.folder.run('./test', '--shard', '1/4')
        self.assertEqual((status, lines[-1]), (2, 'test: error: --shard is for --all-edits'))


class Tables(unittest.TestCase):
    def test_the_page_of_checks_has_the_tables_of_today(self) -> None:
        page = everything.PAGE.read_text(encoding='utf-8')
        self.assertEqual(everything.with_tables(page), page, 'checks/everything.py --write')
        self.assertIn(everything.tables(), page)

    def test_each_script_is_in_them(self) -> None:
        scripts = {path.stem for folder in ('program', 'pages', 'proofs', 'measure') for path in (CHECKS / folder).glob('*.py') if '__main__' in path.read_text()}
        listed = [check.name for check in everything.CHECKS] + [name for _, name in everything.BY_HAND]
        # gate.py runs it
        self.assertEqual(sorted(listed), sorted(scripts - {'timed_rt'}))

    def test_a_script_does_what_its_first_paragraph_says(self) -> None:
        with tempfile.TemporaryDirectory() as folder:
            script = pathlib.Path(folder, 'script.py')
            for text, wanted in (('"""Checks one\nthing.\n\nAnd more."""\n', 'Checks one thing.'), ('"""Checks."""\n', 'Checks.'), ('import sys\n', '')):
                script.write_text(text)
                self.assertEqual(everything.does(script), wanted)

    def test_tables_stand_between_marks(self) -> None:
        page = f'before\n\n{everything.BEGINS}\n\nold\n\n{everything.ENDS}\nafter\n'
        self.assertEqual(everything.with_tables(page), page.replace('old\n', everything.tables()))


if __name__ == '__main__':
    unittest.main()
