"""What gate.py tells of the gate's tasks, how timed_rt.py measures them, and how a run is held to the table of the gate's cost."""
from __future__ import annotations

import contextlib
import io
import json
import os
import pathlib
import subprocess
import sys
import tempfile
import types
import unittest
from collections.abc import Sequence
from typing import Any
from unittest import mock

CHECKS = pathlib.Path(__file__).resolve().parent.parent
from checks import forked
from checks.common import Tally
from checks.proofs import edits_together, gate, gate_beside, gate_cost, gate_tasks, timed_rt
from checks.proofs.gate_cost import Cost, Row
from checks.proofs.gate_tasks import Measured, Task


def task(crate: str, part: str, seconds: float, waits: tuple[int, ...] = (), lines: int = 0, number: int | None = None) -> Task:
    return Task(crate, part, number, list(waits), lines, seconds, 0.0, 0.0)


# a low crate, and one above it with two edits
TASKS = [
    task('low', 'proof', 60, lines=10),
    task('high', 'proof', 30, (0,), lines=20),
    task('high', 'tests', 90, (0,), lines=20),
    task('high', 'seed', 40, (0,)),
    task('high', 'edits', 20, (1, 2, 3), lines=20, number=0),
    task('high', 'edits', 25, (1, 2, 3), lines=20, number=1),
    task('high', 'sound', 5, (4, 5, 3)),
    task('high', 'again', 0, (6,), number=0),
    task('high', 'again', 15, (6,), number=1),
]


RUN = Measured(TASKS, 15, 7, '2026-01-02', 'kit-1', 4, 1, '9 passed, 1 failed', 'rt: ok; all was done in this run')


class Tables(unittest.TestCase):
    def test_the_longest_chain_is_that_of_most_seconds(self) -> None:
        # 60 + 90 + 25 + 5 + 15
        self.assertEqual(gate_tasks.longest_chain(TASKS), [TASKS[place] for place in (0, 2, 5, 6, 8)])

    def test_a_column_sums_its_parts(self) -> None:
        self.assertEqual(gate.sums_of(TASKS), {'Proof': 90, 'Tests': 90, 'Edits': 105})

    def test_a_row_of_a_crate(self) -> None:
        self.assertEqual(gate.table(TASKS)[2:], [
            '| `low` | 60 | - | - | - | 1.0 | 5 |', '| `high` | 30 | 90 | 105 | 2 | 3.8 | 4 |', '| in all | 90 | 90 | 105 | 2 | 4.8 | 5 |'])

    def test_a_change_has_the_crates_above_tried_again(self) -> None:
        tasks = [*TASKS, task('beside', 'proof', 10, (0,))]
        self.assertEqual([gate.above(tasks, crate) for crate in ('low', 'high', 'beside')], [{'low', 'high', 'beside'}, {'high'}, {'beside'}])

    def test_an_edit_that_was_tried_again_counts_once(self) -> None:
        self.assertEqual(gate.dearest(TASKS), ['  40.0 s  high edit 1', '  20.0 s  high edit 0'])

    def test_a_task_for_all_edits_of_a_crate_counts_each(self) -> None:
        edits = gate_tasks.edits_of('mcs_refills')
        self.assertGreater(len(edits), 1)
        self.assertEqual(gate_tasks.edits_in([task('mcs_refills', 'edits', 9), task('mcs_refills', 'proof', 9), *TASKS]), len(edits) + 2)
        self.assertIn(f'| {len(edits)} |', gate.table([task('mcs_refills', 'edits', 9)])[2])

    def test_the_report_names_count_parts_walls_and_chain(self) -> None:
        text = gate.report(RUN)
        for part in ('9 passed, 1 failed', 'Processor minutes: 5.0: proof 1.5, tests 1.5, edits 1.8, runs of tests and programs 0.2',
                     'Minutes: 7.0 on 4 processors. By the model: 3.5 on 2, 3.5 on 4.', 'Longest chain: 3.5 minutes', 'Kit: kit-1', 'rt: ok; all was done'):
            self.assertIn(part, text)


class Model(unittest.TestCase):
    def test_on_one_processor_it_takes_all_seconds(self) -> None:
        self.assertEqual(gate_tasks.wall(TASKS, 1), sum(task.seconds for task in TASKS))

    def test_on_many_processors_it_takes_the_longest_chain(self) -> None:
        self.assertEqual(gate_tasks.wall(TASKS, 9), sum(task.seconds for task in gate_tasks.longest_chain(TASKS)))

    def test_on_two_processors_proofs_begin_before_seeds(self) -> None:
        # low 0 to 60; proof 60 to 90, tests 60 to 150, seed 90 to 130; edits 150 to 170 and 175; sound to 180; again to 195
        self.assertEqual(gate_tasks.wall(TASKS, 2), 195)

    def test_a_task_with_more_lines_behind_it_begins_first(self) -> None:
        tasks = [task('a', 'proof', 10, lines=1), task('b', 'proof', 10, lines=5), task('c', 'proof', 20, (1,), lines=5)]
        # b 0 to 10, c 10 to 30, and a beside c
        self.assertEqual(gate_tasks.wall(tasks, 1), 40)
        self.assertEqual(gate_tasks.order_of(tasks), [1, 2, 0])

    def test_no_task_takes_no_time(self) -> None:
        self.assertEqual((gate_tasks.wall([], 2), gate_tasks.longest_chain([])), (0.0, []))


class Kept(unittest.TestCase):
    """The table of the gate's cost: a file, and a section of a page."""

    def setUp(self) -> None:
        self.cost = gate_cost.of_report(gate.report(RUN), 'another kit')

    def test_a_report_has_all_of_the_table(self) -> None:
        self.assertEqual(self.cost.rows, [Row('low', '60', '', '', '', '5'), Row('high', '30', '90', '105', '2', '4')])
        self.assertEqual((self.cost.head['date'], self.cost.head['kit'], self.cost.head['processors'], self.cost.runs), ('2026-01-02', 'kit-1', '4', 15))
        self.assertEqual(self.cost.head['by the model'], '3.5 on 2, 3.5 on 4')

    def test_an_older_report_names_no_kit(self) -> None:
        report = gate.report(RUN._replace(kit=''))
        self.assertEqual(gate_cost.of_report(report, 'the kit here').head['kit'], 'the kit here')

    def test_what_is_written_is_read(self) -> None:
        cost = gate_cost.with_reasons(self.cost, {'high': '9 to 225 CPU seconds'}, {'high': 'it reads files, too'})
        with tempfile.TemporaryDirectory() as folder:
            table = pathlib.Path(folder, 'gate.csv')
            table.write_text(gate_cost.text_of(cost))
            self.assertEqual(gate_cost.read(table), cost)
            self.assertIsNone(gate_cost.read(table.with_name('none')))

    def test_a_crate_grew_by_half_and_by_ten_seconds(self) -> None:
        rows = [Row('low', '40'), Row('high', '151', edits='0')]
        self.assertEqual(gate_cost.grown(self.cost, Cost({}, rows)), {'low': '40 to 60 CPU seconds'})
        self.assertEqual(gate_cost.grown(Cost({}, [Row('low', '14'), Row('new', '99')]), Cost({}, [Row('low', '5')])), {})
        self.assertEqual(gate_cost.grown(self.cost, None), {})

    def test_a_crate_that_grew_needs_a_reason(self) -> None:
        grew = {'low': '40 to 60 CPU seconds', 'high': '9 to 225 CPU seconds'}
        self.assertEqual(gate_cost.without_reason(grew, {'high': 'why'}), ['low grew, 40 to 60 CPU seconds'])
        self.assertEqual(gate_cost.without_reason(grew, {'all': 'why'}), [])
        rows = gate_cost.with_reasons(self.cost, grew, {'high': 'why', 'all': 'the machine'}).rows
        self.assertEqual([row.why_it_grew for row in rows], ['40 to 60 CPU seconds: the machine', '9 to 225 CPU seconds: why'])

    def test_what_an_earlier_gate_kept_is_no_run_from_nothing(self) -> None:
        self.assertEqual(gate_cost.kept(self.cost), [])
        rows = [Row('low', ''), Row('high', '30', edits='', number_of_edits='2'), Row('whole', '9')]
        self.assertEqual(gate_cost.kept(Cost({}, rows)), ['low', 'high'])

    def test_the_section_has_sums_chain_table_and_reasons(self) -> None:
        text = gate_cost.section(gate_cost.with_reasons(self.cost, {'high': '9 to 225 CPU seconds'}, {'high': 'it reads files, too'}))
        self.assertIn('took 5 CPU minutes: 2 for proofs, 2 for tests, 2 for edits', ' '.join(text.split()))
        for line in ('It lasted 7.0 minutes on 4 processors. A model gives these minutes: 3.5 on 2, 3.5 on 4.', '- high tests 90', '- runs of tests and programs 15',
                     '| `high` | 30 | 90 | 105 | 2 | 4 |', '- `high`: 9 to 225 CPU seconds: it reads files, too'):
            self.assertIn(line, text.splitlines())

    def test_the_section_stands_between_marks(self) -> None:
        page = f'before\n\n{gate_cost.BEGINS}\n\nold\n\n{gate_cost.ENDS}\nafter\n'
        self.assertEqual(gate_cost.with_section(page, self.cost), page.replace('old\n', gate_cost.section(self.cost)))

    def test_the_page_has_the_table_of_today(self) -> None:
        self.assertEqual(gate_cost.page_differs(), '')


class Compared(unittest.TestCase):
    """A run beside the table."""

    ROWS = [Row(f'crate{number}', '100', '50', '20', '2', '9') for number in range(10)]
    COST = Cost({'date': '2026-01-02', 'kit': 'kit-1', 'runs': '30'}, ROWS)

    def run_of(self, ratio: float = 1, done: int = 10, **how: Any) -> Measured:
        """A run in which each task of the first crates takes so many times what the table has, and the others were kept."""
        tasks = []
        for number in range(10):
            times = ratio if number < done else 0
            name = f'crate{number}'
            tasks += [task(name, 'proof', 100 * times), task(name, 'tests', 50 * times), *(task(name, 'edits', 10 * times, number=edit) for edit in (0, 1))]
        given: dict[str, Any] = {'kit': 'kit-1', **how}
        return Measured(tasks, 30 * ratio, 5, '2026-02-03', **given)

    def told(self, found: Measured, cost: Cost | None = COST) -> tuple[Tally, list[str]]:
        with contextlib.redirect_stdout(io.StringIO()) as out:
            count = gate_beside.compare(found, cost)
        return count.tally, out.getvalue().splitlines()

    def test_five_parts_are_named_beside_the_table(self) -> None:
        tally, lines = self.told(self.run_of(1.1))
        self.assertEqual((tally, len(lines)), (Tally(1), 7))
        self.assertEqual(lines[0], 'the gate did 40 tasks, and took 0 from earlier gates on this machine. What took longest, beside the table of '
                         '2026-01-02, which lacks 0 of 31 parts:')
        self.assertEqual(lines[1], '   110 s  crate0 proof: 100 in the table, 1.10 times')
        self.assertEqual(lines[6], 'in all 1903 s, 1730 in the table, 1.10 times; the median ratio of 31 parts is 1.10')

    def test_a_slow_machine_fails_nothing_but_is_noted(self) -> None:
        tally, lines = self.told(self.run_of(2))
        self.assertEqual(tally, Tally(1))
        self.assertTrue(lines[-1].startswith('note: '))

    def with_dear_proofs(self, ratio: float, times: float) -> Measured:
        """A run in which the first four proofs are dearer."""
        found = self.run_of(ratio)
        dear = [it._replace(seconds=it.seconds * times) if it.part == 'proof' and it.crate < 'crate4' else it for it in found.tasks]
        return found._replace(tasks=dear)

    def test_a_whole_that_is_too_dear_fails(self) -> None:
        # 4 of 10 proofs cost 3 times as much: 1730 + 800 of 1730
        for ratio in (1, 2):
            tally, lines = self.told(self.with_dear_proofs(ratio, 3))
            self.assertEqual(tally, Tally(0, 1))
            self.assertTrue(lines[-1].startswith(f'failed: the gate costs {ratio * 2530 / 1730:.2f} times the table, and may cost {1.3 * ratio:.2f}'))

    def test_a_fast_machine_allows_what_the_table_does(self) -> None:
        # half as dear, but for some proofs: below the table in all
        self.assertEqual(self.told(self.with_dear_proofs(0.5, 3))[0], Tally(1))

    def test_what_was_kept_is_left_out_on_both_sides(self) -> None:
        tally, lines = self.told(self.run_of(1, done=7))
        self.assertEqual(tally, Tally(1))
        self.assertIn('did 28 tasks, and took 12 from', lines[0])
        self.assertIn('in all 1220 s, 1220 in the table', lines[-1])

    def test_few_tasks_have_no_limit(self) -> None:
        tally, lines = self.told(self.run_of(1, done=6))
        self.assertEqual(tally, Tally())
        self.assertIn('the median ratio of 19 parts is 1.00', lines[-1])

    def test_neither_a_failed_gate_nor_another_kit_has_a_limit(self) -> None:
        cases: list[dict[str, Any]] = [{'status': 1}, {'kit': 'kit-2'}, {'kit': ''}]
        for how in cases:
            self.assertEqual(self.told(self.run_of(1, **how))[0], Tally())
        self.assertEqual(self.told(self.run_of(1, kit=''), self.COST._replace(head={'date': 'then'}))[0], Tally())

    def test_a_part_that_the_table_lacks_is_named(self) -> None:
        found = self.run_of()
        _, lines = self.told(found._replace(tasks=[*found.tasks, task('new', 'proof', 900)]))
        self.assertIn('which lacks 1 of 32 parts', lines[0])
        self.assertEqual(lines[1], '   900 s  new proof: not in the table')
        self.assertIn('in all 1730 s, 1730 in the table', lines[-1])

    def test_edits_have_the_share_of_those_that_were_tried(self) -> None:
        found = self.run_of()
        tasks = [it._replace(seconds=0) if it.part == 'edits' and it.number else it for it in found.tasks]
        self.assertIn('1.00 times; the median ratio of 31', self.told(found._replace(tasks=tasks))[1][-1])

    def test_without_a_table_there_is_a_line(self) -> None:
        self.assertEqual(self.told(self.run_of(), None), (Tally(), ['the gate has no table of its cost: checks/proofs/gate.py --anew --write makes it']))

    def test_a_run_in_which_all_was_kept_has_no_ratio(self) -> None:
        self.assertEqual(self.told(self.run_of(0))[0], Tally())


class Edits(unittest.TestCase):
    """The edits of a crate: refused together, or else tried by the kit's own call, whose word decides."""

    CRATE = types.SimpleNamespace(name='low')
    EDITS = ['low/must-fail/a.edit', 'low/must-fail/b.edit']

    def tried(self, came: dict[str, str] | Exception, **more: Any) -> tuple[list[tuple[bool, str]], list[str], str]:
        """What is told of both edits if this came of them together, those that the kit tried, and what was printed."""
        by_kit: list[str] = []

        def must_fail_all(crate: Any, edits: Sequence[str], flags: list[str]) -> list[tuple[bool, str]]:
            by_kit.extend(edits)
            return [(False, f'{edit}: NOT REFUSED') for edit in edits]

        rt = types.SimpleNamespace(must_fail_all=must_fail_all, **more)
        how: dict[str, Any] = {'side_effect': came} if isinstance(came, Exception) else {'return_value': came}
        with mock.patch.object(edits_together, 'refused', **how), contextlib.redirect_stdout(io.StringIO()) as out:
            timed_rt.hook_edits(rt)
            told = rt.must_fail_all(self.CRATE, self.EDITS, ['--jobs', '1'])
        return told, by_kit, out.getvalue()

    def test_an_edit_that_is_not_refused_together_is_tried_by_the_kit(self) -> None:
        said = [(True, 'must-fail low/a.edit: refused, as it must be: a goal'), (False, 'low/must-fail/b.edit: NOT REFUSED')]
        self.assertEqual(self.tried({self.EDITS[0]: 'a goal'}), (said, self.EDITS[1:], ''))

    def test_the_kit_tries_none_if_all_are_refused(self) -> None:
        told, by_kit, _ = self.tried({edit: 'a goal' for edit in self.EDITS})
        self.assertEqual(([is_refused for is_refused, _ in told], by_kit), ([True, True], []))

    def test_edits_that_cannot_be_tried_together_are_tried_by_the_kit(self) -> None:
        told, by_kit, printed = self.tried(ValueError('no tokens'))
        self.assertEqual(([is_refused for is_refused, _ in told], by_kit), ([False, False], self.EDITS))
        self.assertEqual(printed, 'timed_rt.py: the edits of low are not tried together: ValueError: no tokens\n')

    def test_a_kit_without_the_call_tries_them_in_its_own_way(self) -> None:
        for rt in types.SimpleNamespace(), types.SimpleNamespace(Kept=object):
            before = dict(vars(rt))
            timed_rt.hook_edits(rt)
            self.assertEqual(vars(rt), before)


class KeptEdits(unittest.TestCase):
    """The same over a kit that keeps its work: one task for all edits of a crate, and what came of each is kept."""

    EDITS = ['low/must-fail/a.edit', 'low/must-fail/b.edit']

    def setUp(self) -> None:
        self.asked: list[str] = []
        self.stored: dict[str, tuple[str, str]] = {}
        self.is_untouched = True
        self.kept = types.SimpleNamespace(
            key=lambda crate: crate.name, of_edit=lambda edit, of_crate: f'{of_crate} {edit[-6]}', tried=self.stored.get,
            is_untouched=lambda crate: self.is_untouched, keep_tried=lambda name, *came: self.stored.update({name: came}),
        )

    def tried(self, came: dict[str, str] | Exception, by_kit: str = 'missed', is_well: bool = True) -> tuple[list[tuple[str, str]] | None, int]:
        """What the task tells of both edits if this came of them together and that of each by the kit, and how many an earlier gate had tried."""

        def must_fail(crate: Any, edit: str, flags: list[str]) -> tuple[str, str]:
            self.asked.append(edit)
            return by_kit, f'{edit}: by the kit'

        rt = types.SimpleNamespace(Kept=object, add_edits=None, must_fail=must_fail, need=lambda crate: 9, REFUSED='refused', SETTLED=('refused', 'bad'))
        crate = types.SimpleNamespace(name='low', count=lambda ends: 7)
        how: dict[str, Any] = {'side_effect': came} if isinstance(came, Exception) else {'return_value': came}
        with mock.patch.object(edits_together, 'refused', **how) as together, contextlib.redirect_stdout(io.StringIO()):
            timed_rt.hook_edits(rt)
            tasks: dict[Any, Any] = {}
            results, known = rt.add_edits(tasks, crate, self.EDITS, [], [('low', 'proof')], lambda given, new=0: is_well, self.kept)
            self.assertEqual([(key, *task[:3]) for key, task in tasks.items()], [(('low', 'edits'), [('low', 'proof')], 7, 9)])
            given = {key: task[3]({}, 1) for key, task in tasks.items()}
            self.together = together.call_args
        return results(given), len(known())

    def test_an_edit_that_is_not_refused_together_is_tried_by_the_kit(self) -> None:
        said = [('refused', 'must-fail low/a.edit: refused, as it must be: a goal'), ('missed', 'low/must-fail/b.edit: by the kit')]
        self.assertEqual(self.tried({self.EDITS[0]: 'a goal'}), (said, 0))
        # what is not settled is not kept
        self.assertEqual((self.asked, self.stored), (self.EDITS[1:], {'low a': said[0]}))

    def test_what_an_earlier_gate_tried_is_not_tried_again(self) -> None:
        self.stored['low b'] = 'refused', 'told before'
        self.assertEqual(self.tried({}, 'bad'), ([('bad', 'low/must-fail/a.edit: by the kit'), ('refused', 'told before')], 1))
        self.assertEqual((self.together[0][2], self.asked), (self.EDITS[:1], self.EDITS[:1]))
        self.assertEqual(self.stored['low a'], ('bad', 'low/must-fail/a.edit: by the kit'))
        self.assertEqual(self.tried({})[1], 2)
        self.assertIsNone(self.together)

    def test_nothing_is_kept_of_a_crate_that_was_touched(self) -> None:
        self.is_untouched = False
        self.tried({edit: 'a goal' for edit in self.EDITS})
        self.assertEqual(self.stored, {})

    def test_edits_that_cannot_be_tried_together_are_tried_by_the_kit(self) -> None:
        self.tried(ValueError('no tokens'))
        self.assertEqual(self.asked, self.EDITS)

    def test_no_edit_of_a_crate_that_is_not_proved_is_tried(self) -> None:
        self.assertEqual((self.tried({}, is_well=False), self.together, self.asked), ((None, 0), None, []))

    def test_a_crate_without_edits_has_no_task(self) -> None:
        tasks: dict[Any, Any] = {}
        results, known = timed_rt.add_edits(None, tasks, types.SimpleNamespace(name='low'), [], [], [], lambda given, new=0: True, self.kept)
        self.assertEqual((tasks, results({}), known()), ({}, [], {}))


# a command like rt: two tasks, of which the second starts its command in a pool of its own, and a run at the end; a command that ends with status N
# has taken N seconds by themselves and a half of the system, whatever the machine's clock says
RT = '''#!/usr/bin/env python3
import os, subprocess, sys, types
from concurrent.futures import ThreadPoolExecutor

rtlib = types.SimpleNamespace(ThreadPoolExecutor=ThreadPoolExecutor)
wait4 = os.wait4

def spent(process, flags):
    ended, status, _ = wait4(process, flags)
    return ended, status, types.SimpleNamespace(ru_utime=float(os.waitstatus_to_exitcode(status)), ru_stime=0.5)

os.wait4 = spent

def takes(seconds):
    return subprocess.run(["sh", "-c", f"exit {seconds}"]).returncode == seconds

def alone(given, jobs):
    return takes(3)

def pooled(given, jobs):
    with rtlib.ThreadPoolExecutor(1) as pool:
        return pool.submit(takes, 5).result()

def in_lanes(tasks):
    given = {}
    for key, (waits, lines, needs, call) in tasks.items():
        given[key] = call(given, 1)
    return given

class Kept:
    pass

def main(words):
    print("words", *words)
    given = in_lanes({("a", "proof"): ([], 7, 1, alone), ("b", "edits", 3): ([("a", "proof")], 9, 1, pooled)})
    takes(7)
    print(f"{sum(given.values())} passed, 1 failed")
    return 1
'''


class Timed(unittest.TestCase):
    """A made-up rt, timed and not."""

    def setUp(self) -> None:
        folder = tempfile.TemporaryDirectory()
        self.addCleanup(folder.cleanup)
        self.folder = pathlib.Path(folder.name)
        rt = self.folder / 'rt'
        rt.write_text(RT)
        rt.chmod(0o755)
        self.env = {'PATH': f'{self.folder}:{os.path.dirname(sys.executable)}:/usr/bin:/bin'}

    def ran(self, *words: str) -> subprocess.CompletedProcess[str]:
        return forked.checks().run([sys.executable, *words], env=self.env, capture_output=True, text=True)

    def test_seconds_are_those_of_the_task_whose_commands_took_them(self) -> None:
        ran = self.ran(str(CHECKS / 'proofs' / 'timed_rt.py'), str(self.folder / 'times'), '--anew', 'b')
        self.assertEqual((ran.returncode, ran.stdout), (1, 'words ci --anew b\n2 passed, 1 failed\n'))
        told = json.loads((self.folder / 'times').read_text())
        first, second = told['tasks']
        self.assertEqual([first['crate'], first['part'], first['number'], first['waits'], first['lines']], ['a', 'proof', None, [], 7])
        self.assertEqual([second['crate'], second['part'], second['number'], second['waits'], second['lines']], ['b', 'edits', 3, [0], 9])
        self.assertEqual((first['seconds'], second['seconds'], told['runs']), (3.5, 5.5, 7.5))
        self.assertLessEqual(first['ended'], second['began'])

    def test_a_kit_that_keeps_nothing_takes_no_words(self) -> None:
        (self.folder / 'rt').write_text(RT.replace('class Kept', 'class Other'))
        script, times = str(CHECKS / 'proofs' / 'timed_rt.py'), str(self.folder / 'times')
        self.assertEqual(self.ran(script, times, '--anew').stdout, 'words ci\n2 passed, 1 failed\n')
        refused = self.ran(script, times, '--anew', 'b')
        self.assertEqual((refused.returncode, refused.stdout), (1, ''))
        self.assertEqual(refused.stderr, 'timed_rt.py: `rt ci` of this kit is of all crates, so it cannot be asked for b alone\n')

    def test_the_gate_tries_edits_together(self) -> None:
        tries = 'must_fail_all(types.SimpleNamespace(name="a"), ["a.edit"], [])\n    print("words", *words)'
        rt = RT.replace('class Kept', 'class Other').replace('print("words", *words)', tries)
        (self.folder / 'rt').write_text(rt.replace('def main', 'def must_fail_all(crate, edits, flags):\n    print("by the kit", *edits)\n    return [(True, "")]\n\ndef main'))
        ran = self.ran(str(CHECKS / 'proofs' / 'timed_rt.py'), str(self.folder / 'times'))
        # there is no rt-plant in this kit, so its own call tries them
        told, *rest = ran.stdout.splitlines()
        self.assertTrue(told.startswith('timed_rt.py: the edits of a are not tried together: FileNotFoundError'), ran.stdout + ran.stderr)
        self.assertEqual(rest, ['by the kit a.edit', 'words ci', '2 passed, 1 failed'])

    def test_the_count_of_the_gate_is_the_last_line(self) -> None:
        ran = self.ran(str(CHECKS / 'proofs' / 'gate.py'), '--crate', 'b', str(self.folder / 'table'))
        self.assertEqual((ran.returncode, ran.stdout.splitlines()[-1]), (1, '2 passed, 1 failed'))
        self.assertEqual(ran.stdout.count('passed, 1 failed\n'), 1)
        self.assertIn('| `a` | 4 | - | - | - | 0.1 | 0 |', (self.folder / 'table').read_text())

    def test_what_the_tasks_took_is_kept_beside_the_report(self) -> None:
        self.ran(str(CHECKS / 'proofs' / 'gate.py'), str(self.folder / 'table.md'))
        told = json.loads((self.folder / 'table.json').read_text())
        found = gate_tasks.measured(told)
        self.assertEqual((found.status, found.tally, found.said, found.processors), (1, '2 passed, 1 failed', 'words ci', len(os.sched_getaffinity(0))))
        self.assertEqual(gate.report(found), (self.folder / 'table.md').read_text())
        compared = self.ran(str(CHECKS / 'proofs' / 'gate.py'), '--compare', '--from', str(self.folder / 'table.json'))
        self.assertEqual((compared.returncode, compared.stdout.splitlines()[-1]), (0, '0 passed, 0 failed'))
        self.assertIn('the gate did 2 tasks', compared.stdout)

    def with_rt(self, text: str) -> subprocess.CompletedProcess[str]:
        """The gate with another rt, over the times of an earlier run."""
        (self.folder / 'rt').write_text(text)
        (self.folder / 'table.json').write_text('of an earlier run')
        ran = self.ran(str(CHECKS / 'proofs' / 'gate.py'), str(self.folder / 'table.md'))
        self.assertEqual((ran.returncode, ran.stdout.splitlines()[-1]), (1, '2 passed, 1 failed'), ran.stdout + ran.stderr)
        return ran

    def test_an_rt_that_cannot_be_timed_runs_as_it_is(self) -> None:
        begins = '#!/usr/bin/env python3\nimport sys\n'
        ends = 'print("words", *sys.argv[1:])\nprint("2 passed, 1 failed")\nsys.exit(1)\n'
        for text in (
            '#!/bin/sh\necho words "$@"\necho 2 passed, 1 failed\nexit 1\n',
            # it ends as it is loaded, or has no tasks, or no pool, or no main
            begins + ends,
            f'{begins}if __name__ == "__main__":\n    {"; ".join(ends.splitlines())}\n',
            f'{begins}in_lanes = main = print\nif __name__ == "__main__":\n    {"; ".join(ends.splitlines())}\n',
            RT.replace('def main(words):', 'def begin(words):') + 'if __name__ == "__main__":\n    sys.exit(begin(sys.argv[1:]))\n',
        ):
            ran = self.with_rt(text)
            self.assertIn('timed_rt.py: rt runs without clocks: ', ran.stdout)
            self.assertIn('\nwords ci\n', ran.stdout)
            self.assertFalse((self.folder / 'table.json').exists())

    def test_tasks_of_another_form_have_no_clocks(self) -> None:
        ran = self.with_rt(RT.replace('[], 7, 1, alone', '7, 1, alone').replace('[("a", "proof")], 9, 1, pooled', '9, 1, pooled').replace('waits, lines', 'lines'))
        self.assertIn('timed_rt.py: the tasks have no clocks: IndexError', ran.stdout)
        self.assertEqual(json.loads((self.folder / 'table.json').read_text())['tasks'], [])

    def test_times_that_cannot_be_kept_change_nothing(self) -> None:
        ran = self.with_rt(RT.replace('("a", "proof"): (', '7: (').replace('[("a", "proof")], 9', '[], 9'))
        self.assertIn('timed_rt.py: no times are kept: TypeError', ran.stdout)
        self.assertFalse((self.folder / 'table.json').exists())

    def test_a_table_is_not_made_of_what_was_kept(self) -> None:
        self.ran(str(CHECKS / 'proofs' / 'gate.py'), str(self.folder / 'table.md'))
        # its crate b has an edit, and no proof
        for name in ('table.md', 'table.json'):
            ran = self.ran(str(CHECKS / 'proofs' / 'gate.py'), '--from', str(self.folder / name), '--write')
            self.assertEqual((ran.returncode, ran.stdout), (1, ''))
            self.assertIn('not from nothing: an earlier gate on this machine had kept something of b; use --anew', ran.stderr)

    def test_words_that_do_not_fit_are_refused(self) -> None:
        for words in (['x.json'], ['--compare'], ['--compare', '--from', 'x.md'], ['--write', '--crate', 'a'], ['--why', 'a'], ['--why', 'a= ']):
            self.assertEqual(self.ran(str(CHECKS / 'proofs' / 'gate.py'), *words).returncode, 2)


if __name__ == '__main__':
    unittest.main()
