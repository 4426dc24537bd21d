"""The scripts that try the built program, with programs that are wrong: each script has to see it."""
import collections
import contextlib
import io
import json
import os
import pathlib
import random
import sys
import tempfile
import tomllib
import unittest
from unittest import mock

from checks import common, everything, forked, random_systems, tool
from checks.pages import manual, mended, pages
from checks.program import analyses, bandwidth, faults, progress, readers, refused_runs, rules, stress, traces, views, waves
from checks.program.refusing import Answer
from checks.proofs import theorems

sys.path.insert(0, str(common.TOP / 'tools'))
from mcsim_tools.tasks import Form, Task


TWO = b'''
context = [{ name = "a", core = 0 }]
note = [{ name = "n", core = 0 }]
thread = [{ name = "A", context = "a", start = 12, script = ["compute 3"] }, { name = "B", context = "b", script = ["wait n", "compute 1"] }]
'''


class Views(unittest.TestCase):
    def up(self, rows: str, horizon: int) -> int:
        """How many activations a page is to show."""
        return views.Expected(TWO, rows, horizon).count['up']

    def test_no_tick_follows_the_horizon(self) -> None:
        # A is released at 12: a round is activated by the first tick in which its thread is ready or runs
        self.assertEqual(self.up('12 0 release A\n', 12), 0)
        self.assertEqual(self.up('12 0 release A\n', 13), 1)

    def test_a_held_word_activates_a_round_as_soon_as_a_thread_takes_it(self) -> None:
        self.assertEqual(self.up('8 0 hold n 1\n', 12), 0)
        self.assertEqual(self.up('8 0 hold n 1\n9 0 run B\n10 0 got B n 1\n', 12), 1)

    def test_a_wake_activates_at_the_horizon_too(self) -> None:
        self.assertEqual(self.up('0 0 run B\n1 0 stop B wait 0\n12 0 wake B n 1\n', 12), 1)


class WrongPrograms(unittest.TestCase):
    def setUp(self) -> None:
        folder = tempfile.TemporaryDirectory()
        self.addCleanup(folder.cleanup)
        # another user runs programs below it
        pathlib.Path(folder.name).chmod(0o755)
        self.program = pathlib.Path(folder.name, 'program')

    def tally(self, script: str, program: str, *words: str) -> common.Tally:
        """What a script counts of programs that are these lines of the shell; its status has to agree."""
        for file in (self.program, self.program.with_name('mcscheck')):
            file.write_text(f'#!/bin/sh\n{program}\n')
            file.chmod(0o755)
        file = next(check.script for check in everything.CHECKS if check.name == script)
        command = [sys.executable, str(file), '--program', str(self.program), *words]
        ran = forked.checks().run(command, capture_output=True, text=True, env={**tool.environment(), 'TMPDIR': str(self.program.parent)})
        found = common.last_tally(ran.stdout)
        self.assertEqual(ran.returncode, found.status, ran.stderr)
        return found

    def test_a_program_that_says_nothing_answers_no_fault(self) -> None:
        self.assertEqual(self.tally('faults', 'exit 0'), (0, 16, 0))

    def test_a_program_that_says_nothing_shows_no_progress(self) -> None:
        # it shows nothing of a short run, and writes the same with a terminal as without one
        self.assertEqual(self.tally('progress', 'exit 0'), (6, 6, 0))

    def test_a_checker_that_says_nothing_has_nothing_of_its_page(self) -> None:
        # all but a system, and a terminal, of which nothing is to be said
        found = self.tally('checker', 'exit 0')
        self.assertLessEqual(found.passed, 1)
        self.assertGreater(found.failed, 30)

    def test_a_checker_that_complains_on_a_short_run_fails(self) -> None:
        self.assertEqual(self.tally('checker', 'echo "mcscheck: 1 of 2" >&2').passed, 0)

    def test_a_program_that_says_nothing_has_no_manual(self) -> None:
        self.assertGreater(self.tally('manual', 'exit 0').failed, 4)

    def test_a_program_that_says_nothing_writes_no_page(self) -> None:
        self.assertGreater(self.tally('pages', 'exit 0', '--page', 'README.md', '--page', 'docs/CHECK.md').failed, 4)

    def test_a_program_that_complains_writes_no_page(self) -> None:
        # two commands of the pages run a tool alone; README shows a file; four jobs have a form, and one of them draws what the program says, which is nothing
        self.assertLessEqual(self.tally('pages', 'echo wrong >&2').passed, 8)

    def test_a_program_that_says_nothing_draws_no_picture(self) -> None:
        self.assertGreater(self.tally('pictures', 'exit 0').failed, 4)

    def test_a_program_that_takes_every_file_has_no_fault_of_the_page(self) -> None:
        # of each wrong file, and what tools/explain says of it, and of each wrong command
        parts = mended.parts_of(mended.PAGE.read_text(), mended.BASE.read_text())
        self.assertEqual(self.tally('mended', 'exit 0').failed, len(parts) + sum(part.is_file for part in parts) + 1)

    def test_a_program_without_help_is_not_run_with_refused_memory(self) -> None:
        self.assertEqual(self.tally('refused_runs', 'exit 0').failed, 1)

    def test_a_program_that_tells_its_workers_is_not_the_same_with_several(self) -> None:
        # five ways for each of two systems, of which no reader leaves
        found = self.tally('stress', 'echo "$6"', '--systems', '2', '--seed', '2')
        self.assertEqual((found.passed, found.failed), (0, 10))

    def test_a_program_that_is_the_same_with_several_workers_passes(self) -> None:
        found = self.tally('stress', 'echo the same', '--systems', '2', '--seed', '2')
        self.assertEqual((found.passed, found.failed), (10, 0))

    def test_a_program_that_does_not_end_with_many_workers_fails(self) -> None:
        def ran(command: list[common.Word], **_: object) -> common.Ran:
            return common.NO_ANSWER if '64' in command else common.Ran(0, b'', b'')

        self.program.touch(0o755)
        words, out = ['stress.py', '--program', str(self.program), '--systems', '1', '--seed', '2'], io.StringIO()
        with mock.patch('checks.common.run', ran), mock.patch('sys.argv', words), mock.patch('tempfile.tempdir', str(self.program.parent)):
            with contextlib.redirect_stdout(out), self.assertRaises(SystemExit) as ended:
                stress.main()
        self.assertEqual((out.getvalue().splitlines()[-1], ended.exception.code), ('4 passed, 1 failed', 1))

    def test_a_thread_that_always_runs_has_more_than_its_budget(self) -> None:
        found = self.tally('bandwidth', 'for n in 0 1 2 3 4 5 6 7 8 9; do echo 0 0 run "tc$n"; done', '--systems', '3')
        self.assertEqual(found, (1, 9, 0))

    def test_a_program_that_says_nothing_shows_no_response(self) -> None:
        # what is seen of each of two sets, and each table of them
        self.assertGreaterEqual(self.tally('analyses', 'exit 0', '--sets', '2').failed, 2 + len(analyses.AS_CLOCKS) + len(analyses.WITH_CLOCKS))

    def test_a_table_has_the_greatest_responses_of_the_analysis(self) -> None:
        # a takes 1 tick of each 4, and b 2 of each 6 behind one a, with a deadline of 2
        form = Form([Task('a', 1, 4, 4, priority=2), Task('b', 2, 6, 2, priority=1)], False)
        cases: tuple[tuple[list[str], int], ...] = (
            (['a,1,3,0', 'b,3,-1,2'], 0), (['b,3,-1,2', 'c,9,,0', 'a,1,3,0'], 0), (['a,1,3,0', 'b,2,0,0'], 1), (['a,1,3,0', 'b,4,-2,2'], 1),
            (['a,1,3,0', 'b,3,1,2'], 1), (['a,1,3,0', 'b,3,-1,0'], 1), (['a,1,3,1', 'b,3,-1,2'], 1), (['a,1,3,0', 'b,,,0'], 1), (['a,1,3,0'], 1), ([], 1),
        )
        for rows, failed in cases:
            self.program.write_text('\n'.join(['#!/bin/sh', 'cat <<END', 'thread,greatest,margin,missed', *rows, 'END', '']))
            self.program.chmod(0o755)
            trial = analyses.Trial(self.program, self.program)
            with contextlib.redirect_stdout(io.StringIO()):
                trial.try_table('two tasks', form, {'a': 1, 'b': 3}, 10)
            self.assertEqual(trial.count.tally.failed, failed, rows)

    def test_systems_that_show_nothing_are_a_failure(self) -> None:
        self.assertEqual(self.tally('bandwidth', 'exit 0', '--systems', '3'), (9, 1, 0))


class Rules(unittest.TestCase):
    def test_the_fullest_stretch_begins_with_a_tick_that_was_run(self) -> None:
        self.assertEqual(bandwidth.fullest([0, 1, 5, 6, 7, 12], 5), 3)
        self.assertEqual(bandwidth.fullest([0, 4, 5], 5), 2)
        self.assertEqual(bandwidth.fullest([], 5), 0)

    def test_between_orders_the_budget_in_force_counts(self) -> None:
        tables = {'context': [{'name': 'c', 'budget': 2, 'period': 5}], 'order': [{'at': 10, 'context': 'c', 'budget': 3, 'period': 5}]}
        first, last = bandwidth.spans_of(tables, tables['context'][0])
        self.assertEqual((first, last), ((0, 10, 2, 5), (10, bandwidth.HORIZON, 3, 5)))
        self.assertEqual([span.is_over_budget([8, 9, 10, 11, 12]) for span in (first, last)], [False, False])
        self.assertEqual([span.is_over_budget([4, 6, 8, 11, 12, 13, 15]) for span in (first, last)], [True, True])
        self.assertEqual([last.is_over_demand(ticks) for ticks in ([10, 11, 12, 15], [10, 11, 12, 14])], [False, True])

    def test_a_thread_runs_from_run_to_stop_and_else_to_the_horizon(self) -> None:
        rows = f'3 0 run A\n5 0 stop A spent 2 until 9\n{bandwidth.HORIZON - 2} 0 run A\n'
        self.assertEqual(bandwidth.ticks_run(rows), {'A': [3, 4, bandwidth.HORIZON - 2, bandwidth.HORIZON - 1]})

    def test_lines_are_in_others_only_in_their_order(self) -> None:
        self.assertTrue(pages.are_in(['a', 'c'], ['a', 'b', 'c']))
        self.assertFalse(pages.are_in(['c', 'a'], ['a', 'b', 'c']))
        self.assertFalse(pages.are_in(['a', 'a'], ['a', 'b']))
        self.assertFalse(pages.is_shown('..\n', ['a']))

    def test_a_block_ends_with_the_status_of_its_verdict(self) -> None:
        def counts_of(late: int = 0, unjudged: int = 0, hints: int = 0, judged: int = 3) -> str:
            return f'missed {late} overdue 0 untaken 0 lost 0 never 0 merged 1 allowed 1 unjudged {unjudged} hints {hints} threads 2 deadlines 1 judged {judged}'

        clean, hints, late, young, nothing = counts_of(), counts_of(hints=1), counts_of(late=1), counts_of(unjudged=1), counts_of(judged=0)
        for block, last, status in (
            ('./mcscheck one.toml', clean, 0), ('./mcscheck one.toml', hints, 0), ('./mcscheck one.toml --strict', hints, 5), ('./mcscheck one.toml', late, 5),
            ('./mcscheck one.toml', young, 0), ('./mcscheck one.toml --strict', young, 5), ('./mcscheck one.toml', nothing, 6),
            ('./mcscheck one.toml --strict', nothing, 6), ('./mcscheck one.toml', counts_of(late=1, judged=0), 5),
            ('sed s/1/2/ one.toml | ./mcscheck', late, 5), ('./mcscheck one.toml | tail -n 1', late, 0), ('./mcsim one.toml', late, 0),
            ('tools/sweep one.toml --least call=1:2', 'call: under none of 1 to 2 nothing is found', 5),
            ('tools/sweep one.toml --least call=1:2', 'call 1: the least of 1 to 2 under which nothing is found', 0),
        ):
            self.assertEqual(pages.status_of(block, ['first', last]), status, (block, last))
        for lines, status in (([late, clean], 5), ([late, nothing, clean], 6), ([nothing, late], 5), ([clean, 'first'], 0)):
            self.assertEqual(pages.status_of('./mcscheck one.toml || status=$?\nexit $status', lines), status)
        for counts, status in (('slow 0 unanswered 0', 0), ('slow 1 unanswered 0', 5), ('slow 0 unanswered 1', 5)):
            self.assertEqual(pages.status_of('./mcscheck one.toml', [f'{hints} {counts}']), status, counts)
        of_chains = '{"kind":"counts","missed":0,"overdue":0,"untaken":0,"lost":0,"never":0,"merged":0,"allowed":0,"unjudged":0,"hints":0,"threads":1,"deadlines":1,' \
            '"judged":1,"slow":0,"unanswered":1}'
        for line, status in ((of_chains, 5), (of_chains.replace('1}', '0}'), 0), (of_chains.replace('1}', '0}').replace('"judged":1', '"judged":0'), 6)):
            self.assertEqual(pages.status_of('./mcscheck one.toml --format json', [line]), status)

    def test_a_block_ends_with_the_status_of_its_verdict_for_all_time(self) -> None:
        last = 'sets {} repeating {} findings {} threads 3 deadlines {}'
        for line, status in (
            (last.format(1, 1, 0, 1), 0), (last.format(2, 2, 0, 2), 0), (last.format(2, 1, 0, 1), 6), (last.format(2, 1, 3, 1), 5), (last.format(1, 1, 0, 0), 6),
            ('nothing is ever found', 5), ('{"kind":"sets","sets":1,"repeating":1,"findings":0,"threads":2,"deadlines":0}', 6),
        ):
            self.assertEqual(pages.status_of('./mcscheck one.toml --forever', ['first', line]), status, line)
        for block in ('./mcscheck one.toml --forever | tail -n 1', './mcscheck one.toml --forever || test $? -eq 6'):
            self.assertEqual(pages.status_of(block, [last.format(1, 0, 0, 1)]), 0)

    def test_what_a_block_needs_is_named_where_it_is_not_there(self) -> None:
        frames = 'examples/python/responses.py one.toml'
        self.assertTrue(pages.runs_a_system(frames))
        for has_pandas in (True, False):
            with mock.patch('checks.pages.pages.has_pandas', lambda: has_pandas):
                self.assertEqual(pages.missing(frames, True), None if has_pandas else 'the package pandas of Python')
                self.assertEqual([pages.missing(block, False) for block in (frames, './mcscheck one.toml', './mcsim one.toml')], ['mcscheck', 'mcscheck', None])

    def test_a_row_of_questions_has_a_command_and_words_of_its_answer(self) -> None:
        head, other = '| Question | Command |\n|---|---|\n', '| Command | What it does |\n|---|---|\n| `./mcsim two.toml` | runs |\n'
        rows = '| is it? | `./mcscheck one.toml`: by its status |\n| what? | `./mcscheck one.toml --show both`: `miss`, `margin` of `A` |\n| who? | nobody |\n'
        wanted = [('./mcscheck one.toml', []), ('./mcscheck one.toml --show both', ['miss', 'margin', 'A'])]
        self.assertEqual(list(pages.questions_in(f'{other}\n{head}{rows}\n{other}')), wanted)
        # a row for a file of the reader's own is not run
        self.assertFalse(pages.runs_a_system('./mcscheck FILE --horizon N'))

    def test_a_word_that_no_answer_has_is_a_failure(self) -> None:
        counts = b'missed 0 overdue 0 untaken 0 lost 0 never 0 merged 0 allowed 0 unjudged 0 hints 0 threads 1 deadlines 1 judged 1\n'
        answer = common.Ran(0, b'margin 3\n' + counts, b'')
        for named, failed in (('margin', 0), ('unused', 1)):
            count = common.Count()
            with tempfile.TemporaryDirectory() as folder, mock.patch('checks.pages.pages.ran', lambda *_: answer), mock.patch('checks.common.checker_of', lambda program: program):
                page = pathlib.Path(folder, 'page.md')
                page.write_text(f'| Question | Command |\n|---|---|\n| what? | `./mcscheck one.toml --show table`: `{named}` |\n')
                with contextlib.redirect_stdout(io.StringIO()), mock.patch('checks.pages.pages.TOP', page.parent):
                    pages.try_questions(pathlib.Path('mcsim'), page, count)
            self.assertEqual((count.tally.passed, count.tally.failed), (2 - failed, failed))

    def test_a_file_that_a_page_names_and_shows_is_what_it_shows(self) -> None:
        for shown, failed in (('version = 3\ncores = 1\n', 0), ('version = 3\ncores = 2\n', 1)):
            count = common.Count()
            with tempfile.TemporaryDirectory() as folder:
                page = pathlib.Path(folder, 'page.md')
                pathlib.Path(folder, 'one.toml').write_text('#:schema s\n# One.\nversion = 3\n\ncores = 1\n')
                page.write_text(f'Here is [one.toml](one.toml), as it is:\n\n```toml\n{shown}```\n\nAnd [another](two.toml).\n\n```toml\ncall = 1\n```\n')
                with contextlib.redirect_stdout(io.StringIO()), mock.patch('checks.pages.pages.TOP', page.parent):
                    pages.try_files(page, count)
            self.assertEqual((count.tally.passed, count.tally.failed), (1 - failed, failed))

    def test_the_lines_of_a_job_are_those_for_a_shell(self) -> None:
        job = {'name': 'one', 'steps': [{'uses': 'other'}, {'run': 'a'}, {'name': 'two', 'run': 'b'}]}
        self.assertEqual(list(pages.script_lines({'jobs': job})), ['a', 'b'])
        self.assertEqual(list(pages.script_lines({'job': {'before_script': ['a'], 'script': ['b', 'c'], 'image': 'd'}})), ['a', 'b', 'c'])

    def test_a_case_names_what_differs(self) -> None:
        case = faults.Case('one', [], b'', faults.NOTHING, faults.exactly(b'said\n'), 3)
        self.assertEqual(case.differs(common.Ran(3, b'', b'said\n')), '')
        self.assertEqual(case.differs(common.Ran(1, b'x', b'said\n')), 'standard output, status')

    def test_a_run_without_memory_gives_a_first_part(self) -> None:
        kind = refused_runs.Kind('mcsim', 'one', [], b'', 0, b'lines', b'')
        without = (4, b'li', b'mcsim: no memory\n')
        self.assertTrue(kind.is_cut_well(Answer(*without, b'sr')))
        # only a thread's start was refused
        self.assertFalse(kind.is_cut_well(Answer(*without, b's')))
        self.assertFalse(kind.is_cut_well(Answer(4, b'lies', b'mcsim: no memory\n', b'r')))
        self.assertFalse(kind.is_cut_well(Answer(3, b'li', b'mcsim: no memory\n', b'r')))

    def test_a_reader_that_leaves_is_told_or_has_all(self) -> None:
        alone = stress.Left(b'line\n', 3, b'mcsim: write failed\n')
        self.assertTrue(stress.Left(b'line\n', 0, b'').is_like(alone))
        self.assertFalse(stress.Left(b'line\n', 1, b'').is_like(alone))
        self.assertFalse(stress.Left(b'other\n', 3, b'mcsim: write failed\n').is_like(alone))
        self.assertFalse(alone.is_like(None))

    def test_a_random_system_waits_at_home_and_never_last(self) -> None:
        for seed in range(50):
            notes = [random_systems.Note('n0', 0), random_systems.Note('n1', 1)]
            items = random_systems.script_of(random.Random(seed), notes, 1)
            self.assertNotIn('wait n0', items)
            self.assertFalse(items[-1].startswith('wait'))

    def test_random_systems_of_version_3_have_all_that_it_adds(self) -> None:
        seen: collections.Counter[str] = collections.Counter()
        for seed in range(200):
            rng = random.Random(seed)
            tables = random_systems.with_version_3(rng, tomllib.loads(random_systems.system_of(rng).text()))
            self.assertEqual((tables['version'], tomllib.loads(random_systems.text_of(tables))), (3, tables))
            home = {note['name']: note['core'] for note in tables.get('note', [])}
            place = {context['name']: context['core'] for context in tables['context']}
            for thread in tables['thread']:
                script = thread['script']
                bare = [item for item, after in zip(script[1:], [*script[2:], 'on 1']) if item.startswith('wait ') and after.startswith('on ')]
                self.assertEqual(bare, [])
                self.assertTrue(all(home[item.split()[1]] == place[thread['context']] for item in script if item.startswith('wait ')))
                self.assertTrue(script[0].startswith('wait ') or not any(item.startswith('on ') for item in script))
            seen.update(item.split()[0] for thread in tables['thread'] for item in thread['script'])
            seen.update(f'server {item.split()[0]}' for server in tables.get('server', []) for item in server['script'])
            seen.update(name for name in ('server', 'source', 'chain') for _ in tables.get(name, []))
            seen.update(key for rows in (tables.get('source', []), tables.get('note', [])) for row in rows for key in row)
            seen.update(str(context.get('mode')) for context in tables['context'])
        words = ('on', 'call', 'spin', 'server on', 'server call', 'server wait', 'server yield', 'server', 'source', 'chain', 'at', 'count', 'start', 'word')
        self.assertEqual([word for word in (*words, 'sporadic', 'bandwidth', 'None') if not seen[word]], [])

    def test_the_rules_see_a_row_that_differs(self) -> None:
        text = (common.DATA / 'events' / 'handlers.toml').read_text()
        good = (common.DATA / 'events' / 'handlers' / 'schedule.stdout').read_bytes()
        for rows, status, failed in ((good, 0, 0), (good.replace(b'round D 1 2', b'round D 1 3'), 0, 1), (good[:-9], 0, 1), (good + good, 0, 1), (good, 4, 1),
                                     (b'', 1, 0)):
            trial = rules.Trial(pathlib.Path('mcsim'))
            with tempfile.TemporaryDirectory() as folder, mock.patch('checks.common.run', lambda *_: common.Ran(status, rows, b'')):
                with contextlib.redirect_stdout(io.StringIO()), mock.patch('tempfile.tempdir', folder):
                    trial.look('handlers', text, 12)
            self.assertEqual((trial.count.tally.failed, trial.count.tally.passed), (failed, int(not failed and status == 0)))

    def test_the_readers_see_what_differs(self) -> None:
        text = (common.DATA / 'events' / 'handlers.toml').read_text().replace('priority = 5', 'priority = 5\ndeadline = 5')
        rows = (common.DATA / 'events' / 'handlers' / 'schedule.stdout').read_bytes()
        # the second round was activated at 2 and ended at 8; D ran from 0 to 1 and from 2 to 9, and was blocked else
        miss = '8 0 miss D round 2 response 6 deadline 5 activated 2 queued 3 ready 0 running 3 throttled 0 blocked 0 server 0\n'
        stood = ' '.join(f'ticks_{what} {ticks}' for what, ticks in (('pending', 0), ('ready', 0), ('running', 8), ('throttled', 0), ('blocked', 4), ('server', 0), ('done', 0)))
        good = f'{miss}thread D core 0 {stood}\ncontext d unused 1\nmissed 1 overdue 0 untaken 0 lost 0 never 0 merged 0 allowed 0 ' \
            'unjudged 0 hints 0 threads 1 deadlines 1 judged 1\n'
        for told, failed in ((good, 0), (good.replace(' 6 deadline', ' 3 deadline'), 1), (good.replace(miss, ''), 1), (good + '5 0 lost n word 1\n', 1),
                             (good.replace('merged 0', 'merged 1'), 1), (good.replace('running 8', 'running 7'), 1), (good.replace('ticks_ready 0', 'ticks_ready 1'), 1)):
            trial = readers.Trial(pathlib.Path('mcsim'), pathlib.Path('mcscheck'))
            answers = iter([common.Ran(0, rows, b''), common.Ran(5, told.encode(), b'')])
            with tempfile.TemporaryDirectory() as folder, mock.patch('checks.common.run', lambda *_: next(answers)):
                with contextlib.redirect_stdout(io.StringIO()), mock.patch('tempfile.tempdir', folder):
                    trial.look('handlers', text, 12)
            self.assertEqual(trial.count.tally.failed, failed, told)

    def test_a_program_that_says_nothing_shows_no_kind_of_row(self) -> None:
        self.assertGreaterEqual(self.rules_of('exit 0').failed, 1)
        # all is refused, and nothing is seen
        self.assertEqual(self.rules_of('exit 1'), (0, len(rules.SEEN), 0))

    def rules_of(self, program: str) -> common.Tally:
        with tempfile.TemporaryDirectory() as folder:
            file = pathlib.Path(folder, 'mcsim')
            file.write_text(f'#!/bin/sh\n{program}\n')
            file.chmod(0o755)
            command = [sys.executable, rules.__file__, '--program', str(file), '--systems', '2']
            return common.last_tally(common.run(command, env={**os.environ, 'TMPDIR': folder}).stdout.decode())

    def test_the_options_of_a_help(self) -> None:
        text = 'Options:\n  -h, --help  Help\n      --workers <W>  Threads, 1 to 64\n                     [default: 1]\n      --allow-lost <NOTE>  Lost\n\nRest'
        wanted = {'help': (None, None, None), 'workers': ('W', '1', '1 to 64'), 'allow-lost': ('NOTE', None, None)}
        self.assertEqual(manual.options_of_help(text), wanted)

    def test_a_line_of_a_manual_may_be_two(self) -> None:
        self.assertEqual(manual.written_in('$ mcsim x\na b\n  c d   (one line)\ne\n'), ('mcsim x', 'a b c d\ne\n'))

    def test_progress_goes_on_and_is_wiped(self) -> None:
        def good(text: str, horizon: int = 90, after: str = '') -> bool:
            return progress.is_progress('mcscheck', horizon, text, after)

        first, second = '\rmcscheck: 5 of 90\x1b[K', '\rmcscheck: 60 of 90\x1b[K'
        self.assertTrue(good(f'{first}{second}\r\x1b[K'))
        self.assertTrue(good(f'{first}\r\x1b[Ksaid\r\n', after='said\r\n'))
        for text in ('', first, f'{second}{first}\r\x1b[K', f'{first}\r\x1b[Kmore', f'{first}{first}\r\x1b[K'):
            self.assertFalse(good(text))
        self.assertFalse(good(f'{first}\r\x1b[K', 91))

    def test_waves_that_are_read_back(self) -> None:
        dump = '$scope module core0 $end\n$var string 1 ! runs $end\n$upscope $end\n$dumpvars\ns- !\n$end\n#3\nsA !\n#5\ns- !\n'
        waves_found = waves.waves_of(dump)
        self.assertEqual(waves_found, {'core0.runs': [(-1, '-'), (3, 'A'), (5, '-')]})
        self.assertEqual([waves.value_at(waves_found['core0.runs'], moment) for moment in (0, 3, 4, 9)], ['-', 'A', 'A', '-'])

    def trace_faults(self, *events: dict[str, object]) -> int:
        named = {'ph': 'M', 'name': 'thread_name', 'pid': 0, 'tid': 1, 'args': {'name': 'A'}}
        return len(traces.faults(json.dumps({'traceEvents': [named, *events]}).encode()))

    def test_rules_of_traces(self) -> None:
        one = {'ph': 'X', 'name': 'running', 'cat': 'c', 'pid': 0, 'tid': 1, 'ts': 1, 'dur': 2}
        begin = {'ph': 's', 'name': 'n', 'cat': 'c', 'id': 1, 'pid': 0, 'tid': 1, 'ts': 1.5}
        end = {**begin, 'ph': 'f', 'bp': 'e', 'ts': 2.5}
        self.assertEqual(self.trace_faults(one, {**one, 'ts': 3}, begin, end), 0)
        # slices that overlap, have no length, or no key; a track without a name; a flow that ends twice, not at all, before it begins, or nowhere
        self.assertEqual(self.trace_faults(one, {**one, 'ts': 2}), 1)
        self.assertEqual(self.trace_faults({**one, 'dur': 0}), 1)
        self.assertEqual(self.trace_faults({key: value for key, value in one.items() if key != 'dur'}), 1)
        self.assertEqual(self.trace_faults({**one, 'tid': 2}), 1)
        self.assertEqual(self.trace_faults(one, begin, end, end), 1)
        self.assertEqual(self.trace_faults(one, begin), 1)
        self.assertEqual(self.trace_faults(one, begin, {**end, 'ts': 1.2}), 1)
        self.assertEqual(self.trace_faults(one, begin, {**end, 'ts': 3}), 1)
        self.assertEqual(len(traces.faults(b'{')), 1)

    def test_what_follows_a_wake_says_whether_a_thread_is_ready(self) -> None:
        told = waves.Told(waves.rows_of('4 0 release A\n4 0 wake A n 1\n6 0 hold n 5\n7 1 arrive n 2 from B\n'))
        self.assertEqual(told.values, {'core0.until.A': {}, 'core0.threads.A': {}, 'core0.words.n': {6: '101'}})
        self.assertEqual(told.events, {'core1.arrivals.n': {7}})

    def test_a_row_as_a_term(self) -> None:
        numbers = theorems.Numbers({'thread': [{'name': 'A'}, {'name': 'B'}], 'note': [{'name': 'n'}]})
        self.assertEqual(theorems.row_term('2 0 stop B spent 2 until 5', numbers, {}), 'at 2 0 (row.Stop 1 why.Spent 2 (Some 5))')
        self.assertEqual(theorems.row_term('2 1 signal A n 4', numbers, {}), 'at 2 1 (row.Signal 0 0 4)')

    def test_a_wake_as_a_term_has_the_date_until_which_the_thread_waits(self) -> None:
        numbers = theorems.Numbers({'thread': [{'name': 'A'}, {'name': 'B'}], 'note': [{'name': 'n'}]})
        self.assertEqual(theorems.row_term('3 0 wake B n 4', numbers, {(3, 1): 10}), 'at 3 0 (row.Wake 1 0 4 (Some 10))')
        self.assertEqual(theorems.row_term('3 0 wake A n 4', numbers, {(3, 1): 10}), 'at 3 0 (row.Wake 0 0 4 None)')


if __name__ == '__main__':
    unittest.main()
