"""Sweeps. mcscheck is a script here: its answer for each budget is written down, so that each line of a CSV is known beforehand."""
from __future__ import annotations

import contextlib
import fcntl
import json
import os
import pathlib
import subprocess
import sys
import tempfile
import tomllib
import unittest
from collections.abc import Callable, Iterator
from typing import Any
from unittest import mock

import worked
from worked import Ended
from mcsim_tools import identity, settings, sweep, verdict
from mcsim_tools.faults import Fault
from mcsim_tools.settings import Tables
from mcsim_tools.verdict import Programs

SYSTEM = '''
version = 2
cores = 2
delay = 2
context = [{ name = "a", core = 0, budget = 2, period = 5 }, { name = "b", core = 1, budget = 5, period = 5 }]
note = [{ name = "n", core = 0 }]
thread = [
    { name = "A", context = "a", priority = 5, deadline = 10, script = ["wait n", "compute 5"] },
    { name = "B", context = "b", priority = 4, script = ["signal n 1", "compute 3"] },
]
order = [{ at = 9, core = 0, context = "a", budget = 1, period = 5 }]
link = [{ maker = 1, home = 0, delay = 3 }]
'''
NEW_SYSTEM = '''
version = 3
cores = 1
delay = 1
context = [{ name = "a", core = 0, budget = 2, period = 5 }, { name = "b", core = 0, budget = 2, period = 5 }]
note = [{ name = "n", core = 0, word = 4 }]
server = [{ name = "v", core = 0, priority = 9, script = ["on 1", "compute 3"] }]
thread = [
    { name = "A", context = "a", priority = 5, deadline = 10, script = ["wait n", "on 2", "call v 1"] },
    { name = "B", context = "b", priority = 5, script = ["spin"] },
]
source = [{ name = "s", note = "n", badge = 1, period = 10 }, { name = "k", note = "n", badge = 2, period = 10, at = [0, 4] }]
chain = [{ name = "e", source = "s", thread = "A", deadline = 8 }, { name = "f", source = "s", thread = "B" }]
'''
# what is found of chains: the earliest origin of an answer that came late, and one that has none
CHAINED = ['12 0 slow e latency 9 deadline 8 origin 3', '22 0 slow e latency 9 deadline 8 origin 13', '30 0 unanswered f deadline 8 origin 4']
MISS = '11 0 miss A round 1 response 11 deadline 10 activated 0 queued 0 ready 0 running 5 throttled 6 blocked 0 server 0'
LOST = '12 0 lost n word 1'
UNTAKEN = '30 0 untaken n by A word 1 age 18 deadline 10 set 12'
OTHER = '20 1 overdue B round 1 age 20 deadline 5 activated 0 queued 0 ready 20 running 0 throttled 0 blocked 0 server 0'
COUNTS = 'missed 0 overdue 0 untaken 0 lost 0 never 0 merged 0 allowed 0 unjudged 0 hints 1 threads 2 deadlines 1 judged 1'
NOTHING_JUDGED = COUNTS.replace('judged 1', 'judged 0')
# A ended a job and has a deadline, B ended three and has none
FIGURES = ['thread A core 0 rounds 1 greatest 7 deadline 10', 'thread B core 1 rounds 3 greatest 5 deadline -']
HINT = 'hint note n is waited on and no script signals it'
# a hint, also one that has the name of a notification, is no finding
CLEAN: tuple[int, list[str], str] = (0, [HINT, *FIGURES, COUNTS], '')
# by the budget of a: what mcscheck answers
ANSWERS: dict[int, tuple[int, list[str], str]] = {
    1: (5, [MISS, LOST, LOST, *FIGURES, COUNTS], ''),
    2: (5, [MISS, OTHER, *FIGURES, COUNTS], ''),
    3: (5, [OTHER, *FIGURES, COUNTS], ''),
    4: CLEAN,
    5: (5, ['5 0 never A deadline 10', FIGURES[0].replace('rounds 1', 'rounds 0'), COUNTS], ''),
    6: (1, [], 'mcscheck: control: budget over period at context 1 budget\n'),
}
# and what it may answer where no job of A ended
UNJUDGED = [HINT, FIGURES[0].replace('rounds 1', 'rounds 0'), FIGURES[1]]


# what mcscheck says of the budget of a, the first time or always: a file BUDGET.out with its lines, BUDGET.err, BUDGET.status
CHECKER = """#!/bin/sh
cd "$(dirname "$0")" || exit 9
budget=$(sed -n 's/.*name = "a".*budget = \\([0-9]*\\),.*/\\1/p' | head -n 1)
echo "$budget" >>asked
if [ -e "$budget.fails" ]; then
    [ ! -e once ] || mv "$budget.fails" "$budget.failed"
    . "./$budget.fail" >&2
fi
cat "$budget.out"
cat "$budget.err" >&2
exit "$(cat "$budget.status")"
"""
# a round of A that took 7; under a budget of 5 it ends none
PROGRAM = """#!/bin/sh
case $* in *reports*) exit 0 ;; esac
printf '0 0 release A\\n0 0 run A\\n1 0 stop A wait 1\\n4 0 wake A n 1\\n'
grep -q 'name = "a".*budget = 5,' || echo '11 0 round A 1 7'
"""


class Case(unittest.TestCase):
    def setUp(self) -> None:
        place = tempfile.TemporaryDirectory()
        self.addCleanup(place.cleanup)
        self.folder = pathlib.Path(place.name).resolve()
        self.file = self.folder / 'system.toml'
        self.file.write_text(SYSTEM)
        self.programs = self.folder / 'programs'
        self.programs.mkdir()
        self.checker, self.program = self.script('mcscheck', CHECKER), self.script('mcsim', PROGRAM)
        for budget, (status, lines, said) in ANSWERS.items():
            for suffix, text in (('out', ''.join(f'{line}\n' for line in lines)), ('err', said), ('status', str(status))):
                (self.programs / f'{budget}.{suffix}').write_text(text)
        patch = mock.patch.dict('os.environ', {'MCSCHECK': str(self.checker), 'MCSIM': str(self.program)})
        patch.start()
        self.addCleanup(patch.stop)

    def script(self, name: str, text: str) -> pathlib.Path:
        path = self.programs / name
        path.write_text(text)
        path.chmod(0o755)
        return path

    def answers(self, budget: int, status: int, lines: list[str]) -> None:
        """Lets mcscheck answer this under a budget."""
        (self.programs / f'{budget}.status').write_text(str(status))
        (self.programs / f'{budget}.out').write_text(''.join(f'{line}\n' for line in lines))

    @contextlib.contextmanager
    def failing(self, budget: int, how: str, is_once: bool = False) -> Iterator[None]:
        """Within this mcscheck fails under a budget, by the words of a shell, always or the first time."""
        fails = self.programs / f'{budget}.fails'
        fails.touch()
        (self.programs / f'{budget}.fail').write_text(f'{how}\n')
        (self.programs / 'once').touch() if is_once else (self.programs / 'once').unlink(missing_ok=True)
        yield
        fails.unlink(missing_ok=True)

    def asked(self) -> list[int]:
        """The budgets for which mcscheck was asked since the last time."""
        log = self.programs / 'asked'
        found = [int(line) for line in log.read_text().split()] if log.exists() else []
        log.unlink(missing_ok=True)
        return found

    def ran(self, *words: object) -> Ended:
        ended = worked.ran('sweep', sweep.main, *words)
        return ended._replace(stderr=ended.stderr.replace(f'{self.folder}/', '').replace('programs/', ''))


class Lines(Case):
    def test_a_line_for_each_combination(self) -> None:
        told = self.ran(self.file, '--set', 'context.a.budget=1,6,4', '--set', 'context.b.core=1')
        self.assertEqual((told.status, told.stdout), (0, """context.a.budget,context.b.core,status,fault,missed,lost,overdue,untaken,never,greatest A
1,1,5,,1,2,0,0,0,7
6,1,1,control: budget over period at context 1 budget,,,,,,
4,1,0,,0,0,0,0,0,7
"""))

    def test_a_thread_that_ended_no_round_has_no_response(self) -> None:
        self.assertEqual(self.ran(self.file, '--set', 'context.a.budget=5').stdout.splitlines()[1], '5,5,,0,0,0,0,1,')

    def test_some_threads_alone(self) -> None:
        # B is overdue under 2 and 3; what is lost at n is lost to A
        told = self.ran(self.file, '--set', 'context.a.budget=1:3', '--of', 'A')
        self.assertEqual([line.split(',')[:6] for line in told.stdout.splitlines()[1:]],
                         [['1', '5', '', '1', '2', '0'], ['2', '5', '', '1', '0', '0'], ['3', '0', '', '0', '0', '0']])
        told = self.ran(self.file, '--set', 'context.a.budget=1:3', '--of', 'B')
        # B has no deadline, so nothing is judged of it
        self.assertEqual([line.split(',')[1] for line in told.stdout.splitlines()[1:]], ['6', '5', '5'])

    def test_nothing_is_judged(self) -> None:
        self.answers(3, 6, [*UNJUDGED, NOTHING_JUDGED])
        told = self.ran(self.file, '--set', 'context.a.budget=3:4')
        self.assertEqual((told.status, told.stdout.splitlines()[1:]), (0, ['3,6,,0,0,0,0,0,7', '4,0,,0,0,0,0,0,7']))
        # no job of A ended, though one of another thread with a deadline did
        self.answers(3, 0, [*UNJUDGED, COUNTS])
        for of, wanted in ((['A'], '6'), (['A', 'B'], '6'), ([], '0')):
            told = self.ran(self.file, '--set', 'context.a.budget=3', *(['--of', *of] if of else []))
            self.assertEqual(told.stdout.splitlines()[1].split(',')[1], wanted)

    def test_a_system_with_chains_has_columns_for_them(self) -> None:
        self.file.write_text(NEW_SYSTEM)
        counts = f'{COUNTS} slow 2 unanswered 1'
        (self.programs / '1.out').write_text(''.join(f'{line}\n' for line in [*CHAINED, counts]))
        (self.programs / '3.out').write_text(f'{COUNTS} slow 0 unanswered 0\n')
        # under a budget of 4 nothing is told of chains
        told = self.ran(self.file, '--set', 'context.a.budget=1,3,4,6')
        self.assertEqual((told.status, told.stdout), (0, """context.a.budget,status,fault,missed,lost,overdue,untaken,never,slow,unanswered,greatest A
1,5,,0,0,0,0,0,2,1,7
3,0,,0,0,0,0,0,0,0,7
4,0,,0,0,0,0,0,,,7
6,1,control: budget over period at context 1 budget,,,,,,,,
"""))
        for name, wanted in (('A', '1,5,,0,0,0,0,0,2,0,7'), ('B', '1,5,,0,0,0,0,0,0,1,7')):
            self.assertEqual(self.ran(self.file, '--set', 'context.a.budget=1', '--of', name).stdout.splitlines()[1], wanted)

    def test_some_chains_alone(self) -> None:
        self.file.write_text(NEW_SYSTEM.replace('thread = "B"', 'thread = "A", deadline = 8'))
        (self.programs / '1.out').write_text(''.join(f'{line}\n' for line in [MISS, LOST, UNTAKEN, *CHAINED, f'{COUNTS} slow 2 unanswered 1']))
        # a miss of A, a signal lost to A, a word that A does not take, 2 slow answers of e, and an interrupt that f has not answered
        for names, wanted in ((['e'], '1,5,,0,0,0,0,0,2,0,7'), (['f'], '1,5,,0,0,0,0,0,0,1,7'), (['e', 'f'], '1,5,,0,0,0,0,0,2,1,7'),
                              (['B'], '1,6,,0,0,0,0,0,0,0,7'), (['B', 'f'], '1,5,,0,0,0,0,0,0,1,7'), (['A'], '1,5,,1,1,0,1,0,2,1,7')):
            self.assertEqual(self.ran(self.file, '--set', 'context.a.budget=1', '--of', *names).stdout.splitlines()[1], wanted)

    def test_a_name_of_a_thread_and_of_a_chain_means_both(self) -> None:
        self.file.write_text(NEW_SYSTEM.replace('name = "e", source', 'name = "B", source'))
        lines = ['12 0 slow B latency 9 deadline 8 origin 3', CHAINED[2], f'{COUNTS} slow 1 unanswered 1']
        (self.programs / '1.out').write_text(''.join(f'{line}\n' for line in lines))
        # the chain B ends with A, and f with the thread B
        self.assertEqual(self.ran(self.file, '--set', 'context.a.budget=1', '--of', 'B').stdout.splitlines()[1], '1,5,,0,0,0,0,0,1,1,7')

    def test_a_checker_that_reports_no_chains_is_no_answer_about_one(self) -> None:
        self.file.write_text(NEW_SYSTEM)
        told = self.ran(self.file, '--set', 'context.a.budget=4', '--of', 'e')
        self.assertEqual(told, (2, '', 'sweep: context.a.budget=4: --of e: mcscheck reports nothing of chains: take a later one\n'))
        self.assertEqual(self.ran(self.file, '--set', 'context.a.budget=6', '--of', 'e').status, 0)

    def test_results_do_not_depend_on_the_jobs(self) -> None:
        words = (self.file, '--set', 'context.a.budget=1:6', '--set', 'delay=1:4', '--jobs')
        first, *others = [self.ran(*words, jobs) for jobs in (1, 2, 7)]
        self.assertEqual(len(first.stdout.splitlines()), 25)
        self.assertEqual(others, [first, first])

    def test_folders_give_the_same_lines(self) -> None:
        words, there = (self.file, '--set', 'context.a.budget=1:6'), self.folder / 'there'
        self.assertEqual(self.ran(*words, '--emit', there), (0, '', 'sweep: 6 systems\n'))
        names = (there / 'jobs').read_text().split()
        self.ran('--run', *(there / name for name in names[:4]))
        self.assertEqual(self.ran('--collect', there).stderr, 'sweep: there: 2 of 6 results are missing, the first that of 000005.toml\n')
        self.ran('--run', *(there / name for name in names))
        # those that are there are not run again
        self.assertEqual(self.asked(), [1, 2, 3, 4, 5, 6])
        self.assertEqual(self.ran('--collect', there).stdout, self.ran(*words).stdout)
        self.assertEqual(self.ran(*words, '--emit', there).stderr, 'sweep: there: it is there, and no empty folder\n')

    def test_the_tool_in_one_file(self) -> None:
        there = self.folder / 'there'
        self.ran(self.file, '--set', 'context.a.budget=1:2', '--emit', there)
        ended = subprocess.run([sys.executable, 'sweep.pyz', '--run', '000001.toml', '000002.toml'], cwd=there, capture_output=True, text=True)
        self.assertEqual((ended.returncode, ended.stdout, ended.stderr), (0, '', ''))
        self.assertEqual(self.ran('--collect', there).stdout, self.ran(self.file, '--set', 'context.a.budget=1:2').stdout)


# how mcscheck fails, what the sweep says of it, and its exit code
FAILURES = (
    ("echo 'mcscheck: no memory'; exit 4", 'mcscheck ended with 4: mcscheck: no memory', 4),
    ("echo 'mcscheck: read failed'; exit 3", 'mcscheck ended with 3: mcscheck: read failed', 3),
    ("echo 'mcscheck: unexpected argument'; exit 2", 'mcscheck ended with 2: mcscheck: unexpected argument', 2),
    ("echo 'mcscheck: bin/mcscheck was changed'; exit 127", 'mcscheck ended with 127: mcscheck: bin/mcscheck was changed', 2),
    ('kill -KILL $$', 'mcscheck ended by SIGKILL', 2),
    ('exit 7', 'mcscheck ended with 7', 2),
    ('exit 6', 'mcscheck gave no verdict', 2),
    ('exit 5', 'mcscheck gave no verdict', 2),
    ('exit 0', 'mcscheck gave no verdict', 2),
    ('exit 1', 'mcscheck refused the system and did not say why', 2),
)


class Failures(Case):
    """A run that failed is no answer about the system."""

    def test_a_failure_ends_a_table(self) -> None:
        for how, said, status in FAILURES:
            for jobs in (1, 2):
                with self.subTest(how, jobs=jobs), self.failing(3, how):
                    told = self.ran(self.file, '--set', 'context.a.budget=1:5', '--jobs', jobs)
                    self.assertEqual(told, (status, '', f'sweep: context.a.budget=3: {said}\n'))

    def test_a_failure_ends_a_search(self) -> None:
        for how, said, status in FAILURES:
            for jobs in (1, 2):
                # the first time alone: under 4 nothing is found, which is not the answer while 3 has none
                with self.subTest(how, jobs=jobs), self.failing(3, how, is_once=True):
                    told = self.ran(self.file, '--least', 'context.a.budget=3:6', '--jobs', jobs)
                    self.assertEqual(told, (status, '', f'sweep: context.a.budget=3: {said}\n'))

    def test_a_failure_behind_the_answer_is_none(self) -> None:
        for jobs in (1, 4):
            with self.failing(5, 'exit 4'):
                self.assertEqual(self.ran(self.file, '--least', 'context.a.budget=4:6', '--jobs', jobs).status, 0)

    def test_nothing_failed_is_kept_in_a_folder(self) -> None:
        there = self.folder / 'there'
        self.ran(self.file, '--set', 'context.a.budget=1:3', '--emit', there)
        files = [there / f'00000{number}.toml' for number in (1, 2, 3)]
        with self.failing(2, "echo 'mcscheck: no memory'; exit 4"):
            told = self.ran('--run', *files)
            self.assertEqual(told, (4, '', 'sweep: there/000002.toml: mcscheck ended with 4: mcscheck: no memory\n'))
        self.assertEqual(sorted(path.name for path in there.glob('*.result')), ['000001.result'])
        self.asked()
        self.assertEqual(self.ran('--run', *files).status, 0)
        self.assertEqual(self.asked(), [2, 3])

    def test_what_is_no_result_is_run_again_and_not_collected(self) -> None:
        there = self.folder / 'there'
        self.ran(self.file, '--set', 'context.a.budget=1', '--emit', there)
        file, result = there / '000001.toml', there / '000001.result'
        for text in ('', '{"status": 5, "fau', '{"status": 4, "fault": "no memory", "counts": {}, "greatest": {}}', '[]'):
            result.write_text(text)
            self.assertEqual(self.ran('--collect', there).stderr, 'sweep: there/000001.result: no result of a sweep: --run makes it anew\n')
            self.assertEqual(self.ran('--run', file), (0, '', ''))
            self.assertEqual(self.ran('--collect', there).status, 0)
        self.assertEqual(self.asked(), [1, 1, 1, 1])

    def test_a_base_that_is_refused_has_the_line_of_the_program(self) -> None:
        self.script('mcsim', "#!/bin/sh\necho 'mcsim: not TOML at file' >&2; exit 1\n")
        self.file.write_text('cores = 1\ndelay =\n')
        self.assertEqual(self.ran(self.file, '--set', 'delay=1'), (2, '', 'sweep: system.toml:2: not TOML at file\n'))


class Journals(Case):
    def setUp(self) -> None:
        super().setUp()
        self.target, self.part = self.folder / 'out.csv', self.folder / 'out.csv.part'
        self.words: tuple[object, ...] = (self.file, '--set', 'context.a.budget=1:5', '-o', self.target, '--jobs', 1)

    def begin(self) -> None:
        """Leaves a sweep that failed under 4."""
        with self.failing(4, 'exit 4'):
            self.assertEqual(self.ran(*self.words).status, 4)
        self.assertFalse(self.target.exists())
        self.asked()

    def refused(self, said: str) -> None:
        """The sweep is refused, and the file beside its target stays as it is."""
        before = self.part.read_bytes()
        self.assertEqual(self.ran(*self.words), (2, '', f'sweep: {said}\n'))
        self.assertEqual((self.part.read_bytes(), self.target.exists(), self.asked()), (before, False, []))

    def test_a_sweep_that_was_broken_off_goes_on(self) -> None:
        self.begin()
        # the end of a machine may cut a line off
        with self.part.open('a') as file:
            file.write('{"status"')
        self.assertEqual(self.ran(*self.words), (0, '', ''))
        self.assertEqual(self.asked(), [4, 5])
        self.assertFalse(self.part.exists())
        self.assertEqual(self.target.read_text(), self.ran(*self.words[:3]).stdout)

    def test_results_of_another_program_are_not_mixed_in(self) -> None:
        self.begin()
        self.script('mcscheck', CHECKER + '# another one\n')
        self.refused('out.csv.part: its results are of another mcscheck: remove it, or run it with that one')
        self.script('mcscheck', CHECKER)
        self.script('mcsim', PROGRAM + '# another one\n')
        self.refused('out.csv.part: its results are of another mcsim: remove it, or run it with that one')

    def test_what_is_not_of_this_sweep_stays(self) -> None:
        another = "out.csv.part: what another sweep left: remove it, or give that one's words"
        for text in ('{}\n', '', 'my notes', 'my notes\n', '{"system"', '[[[\n', '\0\xff'):
            self.part.write_text(text, encoding='latin-1')
            self.refused(another)
        self.part.unlink()
        self.part.mkdir()
        self.assertEqual(self.ran(*self.words), (2, '', 'sweep: out.csv.part: it is there, and no file of a sweep\n'))

    def test_other_words_and_another_system(self) -> None:
        self.begin()
        self.words = (*self.words, '--of', 'A')
        self.refused("out.csv.part: what another sweep left: remove it, or give that one's words")
        self.words = self.words[:-2]
        self.file.write_text(SYSTEM + '# saved\n')
        self.refused("out.csv.part: what another sweep left: remove it, or give that one's words")

    def test_a_broken_line(self) -> None:
        self.begin()
        lines = self.part.read_text().splitlines()
        for broken in ('{"status"', '{}', '{"status": 4, "fault": "no memory", "counts": {}, "greatest": {}}', '[' * 9000):
            self.part.write_text('\n'.join([*lines[:2], broken, *lines[3:], '']))
            self.refused('out.csv.part:3: no result of a sweep: remove this line and those behind it, or the file')

    def test_two_sweeps_at_once(self) -> None:
        self.begin()
        with self.part.open() as file:
            fcntl.flock(file, fcntl.LOCK_EX)
            self.refused('out.csv.part: another sweep writes it now')

    def test_what_is_no_file_has_no_journal(self) -> None:
        wanted = self.ran(*self.words[:3]).stdout
        self.assertEqual(self.ran(*self.words[:3], '-o', '-').stdout, wanted)
        self.assertEqual(self.ran(*self.words[:3], '-o', '/dev/null'), (0, '', ''))
        self.assertFalse(os.path.exists('/dev/null.part') or os.path.exists('-.part'))

    def test_a_folder_of_other_programs(self) -> None:
        there = self.folder / 'there'
        self.ran(self.file, '--set', 'context.a.budget=1:2', '--emit', there)
        files = [there / '000001.toml', there / '000002.toml']
        self.ran('--run', files[0])
        self.script('mcscheck', CHECKER + '# another one\n')
        said = 'sweep: there/sweep.json: the results of this folder are not of the programs here, which have another mcscheck\n'
        self.assertEqual(self.ran('--run', *files), (2, '', said))
        self.assertFalse((there / '000002.result').exists())
        # results that were brought from another folder
        head = json.loads((there / 'sweep.json').read_text())
        (there / 'sweep.json').write_text(json.dumps({**head, 'programs': {**head['programs'], 'mcsim': '0'}}))
        self.ran('--run', *files)
        (there / '000002.result').write_bytes((there / '000001.result').read_bytes())
        self.assertEqual(self.ran('--collect', there).stderr, 'sweep: there/000001.result: a result of another mcsim: --run makes it anew\n')


class Searches(Case):
    def test_each_value_is_tried_from_below(self) -> None:
        told = self.ran(self.file, '--least', 'context.a.budget=1:6', '--jobs', 1)
        self.assertEqual(told.stdout, 'context.a.budget 4: the least of 1 to 6 under which nothing is found\n')
        # under 5 something is found again, which the least one does not depend on
        self.assertEqual(self.asked(), [1, 2, 3, 4])

    def test_the_least_value_of_a_chain(self) -> None:
        # A misses its deadline under less than 4, and e is answered in time from 2 on
        self.file.write_text(NEW_SYSTEM)
        clean = f'{COUNTS} slow 0 unanswered 0'
        ended = [*FIGURES, 'chain e interrupts 3 answers 2 greatest 7 deadline 8']
        left = [MISS, CHAINED[2], *ended, f'{COUNTS} slow 0 unanswered 1']
        for budget, lines in ((1, [*CHAINED, f'{COUNTS} slow 2 unanswered 1']), (2, left), (3, [MISS, clean]), (4, [*ended, clean])):
            (self.programs / f'{budget}.out').write_text(''.join(f'{line}\n' for line in lines))
        for name, least in (('e', 2), ('A', 4)):
            told = self.ran(self.file, '--least', 'context.a.budget=1:4', '--of', name, '--jobs', 1)
            self.assertEqual((told.status, told.stdout), (0, f'context.a.budget {least}: the least of 1 to 4 under which nothing of {name} is found\n'))

    def test_each_value_is_tried_from_above(self) -> None:
        told = self.ran(self.file, '--greatest', 'context.a.budget=1:6', '--jobs', 1)
        self.assertEqual(told.stdout, 'context.a.budget 4: the greatest of 1 to 6 under which nothing is found\n')
        # 6 is refused, and under 5 A is never activated
        self.assertEqual(self.asked(), [6, 5, 4])

    def test_the_order_of_a_list_does_not_matter(self) -> None:
        for values in ('4,1,3,2', '3,3,1,4'):
            told = self.ran(self.file, '--least', f'context.a.budget={values}', '--of', 'A')
            self.assertEqual(told.stdout, 'context.a.budget 3: the least of 1 to 4 under which nothing of A is found\n')

    def test_the_answer_does_not_depend_on_the_jobs(self) -> None:
        for option, wanted in (('--least', '3: the least'), ('--greatest', '4: the greatest')):
            for jobs in (1, 2, 6):
                told = self.ran(self.file, option, 'context.a.budget=1:6', '--of', 'A', '--jobs', jobs)
                self.assertEqual((told.status, told.stdout), (0, f'context.a.budget {wanted} of 1 to 6 under which nothing of A is found\n'))

    def test_how_many_are_left_is_said_after_the_first_run(self) -> None:
        told = self.ran(self.file, '--least', 'context.a.budget=1:5')
        self.assertRegex(told.stderr, r'^sweep: 4 values are left at most, (less than 1 s|about \d+ s)\n$')
        # nothing is left behind an answer
        self.assertEqual(self.ran(self.file, '--least', 'context.a.budget=4:5').stderr, '')
        self.assertEqual(self.ran(self.file, '--least', 'context.a.budget=5').stderr, '')

    def test_where_there_is_none(self) -> None:
        told = self.ran(self.file, '--least', 'context.a.budget=1:2')
        self.assertEqual((told.status, told.stdout), (5, 'context.a.budget: under none of 1 to 2 nothing is found\n'))
        told = self.ran(self.file, '--greatest', 'context.a.budget=5:6')
        refused = '1 of 2 are refused, the first 6: control: budget over period at context 1 budget'
        self.assertEqual((told.status, told.stdout), (5, f'context.a.budget: under none of 5 to 6 nothing is found; {refused}\n'))

    def test_a_value_under_which_nothing_is_judged_is_no_answer(self) -> None:
        for budget in (2, 3):
            self.answers(budget, 6, [*UNJUDGED, NOTHING_JUDGED])
        self.assertEqual(self.ran(self.file, '--least', 'context.a.budget=1:5').stdout, 'context.a.budget 4: the least of 1 to 5 under which nothing is found\n')
        told = self.ran(self.file, '--least', 'context.a.budget=1:3')
        self.assertEqual((told.status, told.stdout), (5, 'context.a.budget: under none of 1 to 3 nothing is found; under 2 of 3 no deadline is judged, the first 2\n'))


VALUES = 'A:B, A:B:STEP with A at most B, or a list with commas, of numbers up to 2^63-1'


class Places(unittest.TestCase):
    def edited(self, text: str, system: str = SYSTEM) -> list[dict[str, Any]]:
        place, values = settings.setting(text, tomllib.loads(system))
        found = []
        for value in values:
            tables = tomllib.loads(system)
            place.put(tables, value)
            found.append(tables)
        return found

    def test_places(self) -> None:
        cases: tuple[tuple[str, Callable[[Tables], object], list[object]], ...] = (
            ('context.b.period=5:11:3', lambda tables: tables['context'][1]['period'], [5, 8, 11]),
            ('context.a.mode=sporadic,bandwidth', lambda tables: tables['context'][0]['mode'], ['sporadic', 'bandwidth']),
            ('thread.A.script.2=4', lambda tables: tables['thread'][0]['script'], [['wait n', 'compute 4']]),
            ('thread.B.script.1=2', lambda tables: tables['thread'][1]['script'], [['signal n 2', 'compute 3']]),
            ('order.1.at=3', lambda tables: tables['order'][0]['at'], [3]),
            ('link.1-0.delay=1:2', lambda tables: tables['link'][0]['delay'], [1, 2]),
            ('call=2', lambda tables: tables['call'], [2]),
        )
        for text, look, wanted in cases:
            self.assertEqual([look(tables) for tables in self.edited(text)], wanted)

    def test_places_of_version_3(self) -> None:
        cases: tuple[tuple[str, Callable[[Tables], object], list[object]], ...] = (
            ('note.n.word=0,7', lambda tables: tables['note'][0]['word'], [0, 7]),
            ('server.v.priority=3', lambda tables: tables['server'][0]['priority'], [3]),
            ('server.v.script.2=1:2', lambda tables: tables['server'][0]['script'], [['on 1', 'compute 1'], ['on 1', 'compute 2']]),
            ('thread.A.script.2=4', lambda tables: tables['thread'][0]['script'], [['wait n', 'on 4', 'call v 1']]),
            ('thread.A.script.3=2', lambda tables: tables['thread'][0]['script'], [['wait n', 'on 2', 'call v 2']]),
            ('source.k.at.2=5:6', lambda tables: tables['source'][1]['at'], [[0, 5], [0, 6]]),
            ('source.s.start=2', lambda tables: tables['source'][0], [{'name': 's', 'note': 'n', 'badge': 1, 'period': 10, 'start': 2}]),
            ('chain.e.deadline=5', lambda tables: tables['chain'][0]['deadline'], [5]),
        )
        for text, look, wanted in cases:
            self.assertEqual([look(tables) for tables in self.edited(text, NEW_SYSTEM)], wanted)
        with self.assertRaisesRegex(Fault, "thread.B.script.1: the item 'spin' has no number"):
            self.edited('thread.B.script.1=1', NEW_SYSTEM)
        with self.assertRaisesRegex(Fault, 'source.k.at.3: behind at stands the place of a number, 1 to 2'):
            self.edited('source.k.at.3=1', NEW_SYSTEM)
        with self.assertRaisesRegex(Fault, 'source.s.at.1: the source has no list `at`'):
            self.edited('source.s.at.1=1', NEW_SYSTEM)

    def test_no_place(self) -> None:
        for text, wanted in (
            ('budget=1', "budget: 'budget' is none of context, thread, note, order, link, server, source, chain, delay, call, min_budget"),
            ('context.a=1', 'context.a: a place is context.NAME.KEY'),
            ('context.aa.budget=1', "context.aa.budget: there is no context 'aa': the nearest is a"),
            ('context.a.budge=1', "context.a.budge: the key 'budge' of a context is none of core, budget, period, extra_refills, mode"),
            ('thread.A.script.3=1', 'thread.A.script.3: behind script stands the number of an item, 1 to 2'),
            ('thread.A.script.1=1', "thread.A.script.1: the item 'wait n' has no number"),
            ('order.2.at=1', "order.2.at: there is no order '2': there are 1"),
            ('context.a.budget=4:1', 'context.a.budget=4:1: values are ' + VALUES),
            ('context.a.budget=x', 'context.a.budget=x: values are ' + VALUES),
            ('context.a.budget=' + '9' * 5000, f'context.a.budget={"9" * 5000}: values are {VALUES}'),
            ('context.a.budget', 'context.a.budget: a setting is PLACE=VALUES'),
        ):
            with self.assertRaises(Fault) as found:
                self.edited(text)
            self.assertEqual(str(found.exception), wanted)


class Words(Case):
    def test_refused(self) -> None:
        wanted = 'one of --set PLACE=VALUES, --least PLACE=A:B and --greatest PLACE=A:B is wanted'
        for given, said in (
            ((), 'one of SYSTEM, --run FILE .. and --collect DIR is wanted'),
            ((self.file,), wanted),
            ((self.file, '--least', 'call=1', '--greatest', 'call=1'), wanted),
            ((self.file, '--set', 'call=1', '--of', 'C'), "--of C: there is no thread 'C': there are A, B"),
            ((self.file, '--set', 'call=1', '--set', 'call=2'), 'call: it is set twice'),
            ((self.file, '--set', 'call=1:9999999999'), '9999999999 combinations, of at most 1000000'),
            ((self.file, '--least', 'context.a.mode=sporadic'), 'context.a.mode: --least wants numbers'),
            ((self.file, '--set', 'call=1', '--jobs', 0), "argument --jobs: '0' is no number of jobs, of 1 to 1024"),
            ((self.file, '--set', 'call=1', '-o', self.file), 'system.toml: this is the file that is read: write to another one'),
            (('--run', self.folder / 'x.result'), 'sweep.json: there is none: is FOLDER a folder of --emit?'),
        ):
            told = self.ran(*given)
            self.assertEqual(told._replace(stderr=told.stderr.replace(str(self.folder), 'FOLDER')), (2, '', f'sweep: {said}\n'))
        self.assertEqual(self.asked(), [])

    def test_names_of_chains(self) -> None:
        self.file.write_text(NEW_SYSTEM)
        for given, said in (
            (('--set', 'call=1', '--of', 'C'), "--of C: there is no thread or chain 'C': there are A, B, e, f"),
            (('--set', 'call=1', '--of', 'f'), '--of f: the chain has no deadline, so nothing is found of it: set chain.f.deadline'),
        ):
            self.assertEqual(self.ran(self.file, *given), (2, '', f'sweep: {said}\n'))
        self.assertEqual(self.asked(), [])
        (self.programs / '2.out').write_text(f'{CHAINED[2]}\n{COUNTS} slow 0 unanswered 1\n')
        told = self.ran(self.file, '--set', 'chain.f.deadline=8', '--of', 'f')
        self.assertEqual((told.status, told.stdout.splitlines()[1]), (0, '8,5,,0,0,0,0,0,0,1,7'))

    def test_without_mcscheck(self) -> None:
        with mock.patch.object(verdict, 'default_checker', lambda program: None):
            told = self.ran(self.file, '--set', 'call=1')
        self.assertEqual(told.stderr, 'sweep: mcscheck, which gives the verdicts, was not found: --checker PATH or the variable MCSCHECK names it\n')


class Identities(unittest.TestCase):
    """What a program is: its own bytes, or behind the launcher those of what runs."""

    def setUp(self) -> None:
        place = tempfile.TemporaryDirectory()
        self.addCleanup(place.cleanup)
        self.top = pathlib.Path(place.name).resolve()
        for name, text in (('bin/mcscheck', 'shipped'), ('crates/mcscheck/out/mcscheck', 'built'), ('bin/SOURCES', ''), ('mcsim', '')):
            path = self.top / name
            path.parent.mkdir(parents=True, exist_ok=True)
            path.write_text(text)
            path.chmod(0o755)
        (self.top / 'mcscheck').symlink_to('mcsim')

    def told(self, version: str, status: int = 0) -> str:
        """The digest of what the launcher runs, which says this of its version."""
        (self.top / 'mcsim').write_text(f'#!/bin/sh\n[ "$*" = --version ] || exit 9\nprintf %s "{version}"\necho "mcscheck: changed" >&2\nexit {status}\n')
        return identity.digest(str(self.top / 'mcscheck'))

    def test_a_program_is_its_bytes(self) -> None:
        # printf shipped | sha256sum
        self.assertEqual(identity.digest(str(self.top / 'bin' / 'mcscheck')), '698310fadbfa5275b3cb493120be05841923760acc7d2dde8a8e26f38d125412')

    def test_the_launcher_is_what_it_runs(self) -> None:
        shipped, built = (identity.of_file(self.top / name) for name in ('bin/mcscheck', 'crates/mcscheck/out/mcscheck'))
        self.assertEqual(self.told('mcscheck, proved and built: bin/mcscheck\nsources 12\n'), shipped)
        self.assertEqual(self.told('mcscheck, proved and built\nsources 12\n'), shipped)
        self.assertEqual(self.told('mcscheck, proved and built here\nsources 12\n'), built)
        self.assertEqual(self.told('mcscheck, unproved: there is no bin/mcscheck\ntoolchain 1\nsources 12\n'), 'sources 12')

    def test_a_launcher_that_refuses(self) -> None:
        with self.assertRaisesRegex(Fault, '^mcscheck: changed$'):
            self.told('', 127)

    def test_no_program(self) -> None:
        with self.assertRaisesRegex(Fault, 'none: there is no such program'):
            identity.digest(str(self.top / 'none'))


class Checker(unittest.TestCase):
    """Which mcscheck is taken, and how it is asked."""

    def setUp(self) -> None:
        place = tempfile.TemporaryDirectory()
        self.addCleanup(place.cleanup)
        self.folder = pathlib.Path(place.name).resolve()

    def program(self, name: str, text: str = 'exit 0') -> str:
        path = self.folder / name
        path.parent.mkdir(exist_ok=True)
        path.write_text(f'#!/bin/sh\n{text}\n')
        path.chmod(0o755)
        return str(path)

    def test_what_the_variable_names_comes_first(self) -> None:
        program = self.program('mcsim')
        self.program('mcscheck')
        with mock.patch.dict('os.environ', {'MCSCHECK': 'other'}):
            self.assertEqual(verdict.default_checker(program), 'other')

    def test_beside_mcsim(self) -> None:
        program = self.program('there/mcsim')
        (self.folder / 'link').symlink_to(program)
        with mock.patch.dict('os.environ', {'MCSCHECK': ''}):
            beside = self.program('there/mcscheck')
            self.assertEqual([verdict.default_checker(name) for name in (program, str(self.folder / 'link'))], [beside, beside])

    def test_system_and_horizon_are_handed_over(self) -> None:
        checker = self.program('mcscheck', f'echo "$*"; cat; echo {COUNTS}; exit 5')
        self.assertEqual(Programs('mcsim', checker).check(b'version = 2\n', 7), (5, ['--horizon 7 --show findings', 'version = 2', COUNTS], ''))

    def test_one_that_gives_no_verdict_stops_a_sweep(self) -> None:
        for text in ('exit 0', 'echo wrong; exit 5'):
            with self.assertRaisesRegex(Fault, 'mcscheck gave no verdict'):
                Programs('mcsim', self.program('mcscheck', text)).check(b'', 7)

    def test_one_that_does_not_run_stops_a_sweep(self) -> None:
        checker = self.program('mcscheck', 'echo "mcscheck: no rt" >&2; exit 127')
        with self.assertRaisesRegex(Fault, 'mcscheck ended with 127: mcscheck: no rt'):
            Programs('mcsim', checker).check(b'', 7)
        with self.assertRaisesRegex(Fault, 'none: No such file or directory'):
            Programs('mcsim', str(self.folder / 'none')).check(b'', 7)


if __name__ == '__main__':
    unittest.main()
