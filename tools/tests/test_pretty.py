"""The tables and the sentence of a verdict, line by line."""
from __future__ import annotations

import io
import json
import os
import pathlib
import subprocess
import sys
import tempfile
import unittest
from decimal import Decimal
from typing import Any, Optional

from worked import TOOLS, run_tool
from mcsim_tools import colours, concluding, pretty, scale
from mcsim_tools.tabling import Look, Table

MISS = {'moment': 11, 'core': 0, 'kind': 'miss', 'thread': 'Loop', 'number': 1, 'response': 9, 'deadline': 5}
LOST = {'moment': 20, 'core': 0, 'kind': 'lost', 'note': 'tick', 'word': 1}
# 12 jobs of one of three threads end in time
NOTHING = {
    'kind': 'counts', 'missed': 0, 'overdue': 0, 'untaken': 0, 'lost': 0, 'never': 0, 'merged': 0, 'allowed': 0, 'unjudged': 0, 'hints': 0, 'threads': 3, 'deadlines': 1,
    'judged': 12,
}
SETS = {'kind': 'sets', 'sets': 3, 'repeating': 3, 'findings': 0, 'threads': 3, 'deadlines': 2}
WHY = [
    {'moment': 4, 'core': 1, 'kind': 'arrive', 'note': 'tick', 'badge': 1, 'from': 2}, {'moment': 15, 'core': 1, 'kind': 'run', 'thread': 'B'},
    {'kind': 'why', 'thread': 'B', 'number': 2, 'from': 4, 'to': 24, 'waited': 0, 'activated': 4, 'begun': 4, 'ended': 24},
    {'kind': 'ran', 'thread': 'A', 'ticks': 3}, {'kind': 'ran', 'thread': 'B', 'ticks': 7}, {'kind': 'ran', 'thread': 'C', 'ticks': 4}, {'kind': 'idle', 'ticks': 6},
]
# half of the latency is a delay between two cores
WAY = [
    {'moment': 20, 'core': 1, 'kind': 'answer', 'thread': 'B', 'number': 3, 'chain': 'c', 'latency': 16, 'origin': 4},
    {'moment': 4, 'core': 0, 'kind': 'held', 'note': 'tick', 'to': 6, 'ticks': 2},
    {'moment': 6, 'core': 0, 'kind': 'ran', 'thread': 'A', 'to': 9, 'ticks': 3, 'ready': 2, 'running': 1, 'throttled': 0, 'blocked': 0},
    {'moment': 9, 'core': 0, 'kind': 'delay', 'home': 1, 'to': 17, 'ticks': 8},
    {'moment': 17, 'core': 1, 'kind': 'ran', 'thread': 'B', 'to': 20, 'ticks': 3, 'ready': 0, 'running': 3, 'throttled': 0, 'blocked': 0},
    {'kind': 'sum', 'ticks': 16, 'held': 2, 'delay': 8, 'ready': 2, 'running': 4, 'throttled': 0, 'blocked': 0},
]
MS = scale.Unit(Decimal('0.5'), 'ms')
RED, END = '\x1b[1;31m', '\x1b[0m'


def table(*rows: dict[str, Any], width: int = 80, unit: scale.Unit = scale.TICKS, has_colours: bool = False) -> list[str]:
    return list(Table(rows, Look(width, unit, colours.Paint(has_colours))).lines())


def counts(**found: int) -> dict[str, Any]:
    return {**NOTHING, **found}


def sentence(*lines: dict[str, Any], horizon: Optional[int] = None, status: Optional[int] = None, unit: scale.Unit = scale.TICKS) -> str:
    verdict = pretty.Verdict(False)
    for line in lines:
        verdict.add(line)
    found = concluding.conclusion(verdict.facts, horizon, status if status is not None else verdict.facts.status(), unit)
    assert found is not None
    return found.text


def shown(*lines: dict[str, Any], width: int = 80, rows: bool = False, is_why: bool = False, status: int = 0) -> list[str]:
    verdict = pretty.Verdict(rows, is_why)
    verdict.read(json.dumps(line) + '\n' for line in lines)
    out = io.StringIO()
    pretty.show(verdict, pretty.View(Look(width), out), None, status)
    return out.getvalue().splitlines()


class Tables(unittest.TestCase):
    def test_keys_are_heads_numbers_stand_right_and_texts_left(self) -> None:
        found = table({'kind': 'new', 'moment': 5, 'who': 'A', 'n': 7}, {'kind': 'new', 'moment': 12, 'who': 'Bob', 'n': 10})
        self.assertEqual(found, ['moment  who   n', '     5  A     7', '    12  Bob  10'])

    def test_a_key_of_several_words_is_as_many_lines(self) -> None:
        self.assertEqual(table({'a': 1, 'ticks_ready': 20, 'ends_no_more': 3}), [
            '          ends',
            '   ticks    no',
            'a  ready  more',
            '1     20     3',
        ])

    def test_what_a_row_does_not_have_is_a_dash_and_its_column_stays_in_place(self) -> None:
        found = table({'thread': 'A', 'deadline': 5}, {'thread': 'B', 'greatest': 17, 'deadline': 9})
        self.assertEqual(found, ['thread  greatest  deadline', 'A              -         5', 'B             17         9'])

    def test_columns_of_zeros_are_named_below_if_the_table_is_too_wide(self) -> None:
        rows = ({'thread': 'A', 'ready': 0, 'server': 0, 'n': 0}, {'thread': 'B', 'ready': 0, 'server': 0, 'n': 1})
        self.assertEqual(table(*rows, width=22), ['thread  n', 'A       0', 'B       1', '0 in each: ready,', '  server'])
        # 6 + 2 + 5 + 2 + 6 + 2 + 1
        self.assertEqual(table(*rows, width=24)[0], 'thread  ready  server  n')
        self.assertEqual(table({'thread': 'A', 'ready': 0, 'n': 4}, width=15), ['thread  n', 'A       4', '0: ready'])

    def test_a_wide_table_goes_on_below_with_the_names_of_its_rows(self) -> None:
        rows = ({'thread': 'A', 'alpha': 1, 'beta': 2, 'gamma': 3, 'delta': 4}, {'thread': 'B', 'alpha': 5, 'beta': 6, 'gamma': 7, 'delta': 8})
        self.assertEqual(table(*rows, width=24), [
            'thread  alpha  beta',
            'A           1     2',
            'B           5     6',
            'thread  gamma  delta',
            'A           3      4',
            'B           7      8',
        ])
        # 31 characters by two, and 27 by one
        self.assertEqual(table(*rows, width=30)[0], 'thread alpha beta gamma delta')

    def test_times_are_in_the_unit_shares_per_cent_and_other_numbers_as_they_are(self) -> None:
        found = table({'moment': 5, 'granted': 375000, 'number': 5, 'ticks_ready': 2}, {'moment': 24, 'granted': 1000000, 'number': 6, 'ticks_ready': 3}, unit=MS)
        self.assertEqual(found, [
            '                         ticks',
            'moment  granted          ready',
            '    ms        %  number     ms',
            '   2.5     37.5       5    1.0',
            '  12.0    100.0       6    1.5',
        ])

    def test_what_is_wrong_is_red(self) -> None:
        found = table({'margin': -3, 'lost': 0}, {'margin': 4, 'lost': 2}, has_colours=True)
        self.assertEqual(found[1:], [f'{RED}    -3{END}     0', f'     4  {RED}   2{END}'])

    def test_no_line_is_wider_than_the_terminal(self) -> None:
        long = {f'{name}_{number}': number * 10**number for number in range(9) for name in ('ticks', 'other')}
        rows = [{'thread': 'A' * length, 'number': length, **long, 'margin': -length} for length in (1, 9, 14)]
        for width in range(34, 210):
            found = table(*rows, width=width)
            self.assertLessEqual(max(map(len, found)), width)
            # each value is in it
            for key, value in long.items():
                self.assertIn(str(value), ' '.join(found).split(), key)

    def test_a_control_character_does_nothing(self) -> None:
        self.assertEqual(table({'thread': 'a\x1b[2J'})[1], 'a?[2J')


class Sentences(unittest.TestCase):
    def test_threads_that_miss(self) -> None:
        other = {**MISS, 'thread': 'Late', 'moment': 40}
        self.assertEqual(sentence(MISS, counts(missed=1, threads=1)), '1 of 1 thread misses its deadline; first: Loop, round 1, at 11')
        self.assertEqual(sentence(MISS, MISS, counts(missed=2)), '1 of 3 threads misses its deadline; first: Loop, round 1, at 11')
        found = sentence(MISS, other, LOST, counts(missed=2, lost=1, hints=2, merged=7, threads=9))
        self.assertEqual(found, '2 of 9 threads miss their deadline; first: Loop, round 1, at 11; also 1 signal lost, 2 hints')

    def test_times_are_in_the_unit(self) -> None:
        self.assertEqual(sentence(MISS, counts(missed=1), unit=MS), '1 of 3 threads misses its deadline; first: Loop, round 1, at 5.5 ms')

    def test_other_findings(self) -> None:
        self.assertEqual(sentence(LOST, LOST, counts(lost=2)), 'No deadline is missed, but there is: 2 signals lost; first: lost, tick, at 20')

    def test_a_kind_of_finding_that_comes_along_has_its_key(self) -> None:
        found = sentence({'kind': 'gone', 'thread': 'A'}, counts(gone=3), status=5)
        self.assertEqual(found, 'No deadline is missed, but there is: 3 gone')

    def test_misses_that_are_not_listed(self) -> None:
        self.assertEqual(sentence(counts(missed=3, never=1), status=5), '3 jobs miss their deadline; also 1 thread never activated')

    def test_hints_alone(self) -> None:
        hint = {'kind': 'hint', 'hint': 'unbound', 'context': 'spare'}
        self.assertEqual(sentence(hint, counts(hints=1, deadlines=2), horizon=30), 'All deadlines are met up to 30; 1 hint')
        self.assertEqual(sentence(hint, counts(hints=1), horizon=30, status=5), 'No deadline is missed, but there is: 1 hint')

    def test_unjudged_threads_alone(self) -> None:
        young = {'moment': 30, 'core': 0, 'kind': 'unjudged', 'thread': 'D', 'deadline': 5, 'activated': 28}
        self.assertEqual(sentence(young, counts(unjudged=1, deadlines=2), horizon=30), 'All deadlines are met up to 30; 1 thread unjudged')
        self.assertEqual(sentence(young, counts(unjudged=1, deadlines=2), status=5), 'No deadline is missed, but there is: 1 thread unjudged')
        found = sentence(young, counts(unjudged=2, judged=0), horizon=30)
        self.assertEqual(found, 'No deadline is judged up to 30: nothing with a deadline has ended or is overdue; 2 threads unjudged')

    def test_nothing(self) -> None:
        self.assertEqual(sentence(NOTHING, horizon=30), 'The deadline is met up to 30')
        self.assertEqual(sentence(counts(deadlines=2)), 'All deadlines are met')
        found = sentence(counts(deadlines=0, judged=0, hints=1), horizon=30, unit=MS)
        self.assertEqual(found, 'No deadline is judged up to 15 ms: no thread and no chain has a deadline; 1 hint')
        self.assertEqual(sentence(counts(threads=0, deadlines=0, judged=0)), 'No deadline is judged: the system has no thread')

    def test_exit_codes_by_the_last_line(self) -> None:
        def status(line: dict[str, Any]) -> int:
            verdict = pretty.Verdict(False)
            verdict.add(line)
            return verdict.facts.status()

        for line, code in (
            (NOTHING, 0), (counts(hints=1, unjudged=1, merged=1, allowed=1), 0), (counts(judged=0), 6), (counts(lost=1, judged=0), 5), (counts(unanswered=1), 5),
            (SETS, 0), ({**SETS, 'repeating': 2}, 6), ({**SETS, 'deadlines': 0}, 6), ({**SETS, 'findings': 1, 'repeating': 2}, 5),
        ):
            self.assertEqual(status(line), code, line)

    def test_a_verdict_that_is_cut_off_has_none(self) -> None:
        self.assertIsNone(concluding.conclusion(concluding.Facts(), None, 0, scale.TICKS))
        self.assertEqual(shown(MISS, status=4)[-1], '    11     0  Loop         1         9         5')

    def test_all_time(self) -> None:
        self.assertEqual(sentence(SETS), 'For ever no deadline is missed, and no signal is lost unless that is allowed; 3 of 3 sets of cores repeat')
        found = sentence({**SETS, 'repeating': 1})
        self.assertEqual(found, 'Nothing is found so far, and nothing is known of later times: 1 of 3 sets of cores repeats')
        self.assertEqual(sentence({**SETS, 'deadlines': 0}), 'No deadline is judged: no thread and no chain has a deadline; 3 of 3 sets of cores repeat')
        miss = {'kind': 'miss', 'thread': 'Loop', 'each_period': 9, 'before': 12}
        found = sentence(miss, {**SETS, 'findings': 1})
        self.assertEqual(found, '1 of 3 threads misses its deadline; first: Loop, 9 each period, 12 before; 3 of 3 sets of cores repeat')

    def test_chains_for_all_time(self) -> None:
        late = {'kind': 'slow', 'chain': 'way', 'each_period': 1, 'before': 2}
        found = sentence(late, {**SETS, 'findings': 1})
        self.assertEqual(found, 'No deadline is missed; first: slow, way, 1 each period, 2 before; 3 of 3 sets of cores repeat')
        repeats: dict[str, Any] = {'kind': 'chain', 'chain': 'way', 'from': 72, 'period': 20, 'greatest': 11, 'answers': 1, 'deadline': 9}
        open_chain: dict[str, Any] = {'kind': 'chain', 'chain': 'way', 'horizon': 80, 'answers': 0}
        for lines, said, status in (
            ([repeats, open_chain], 'For ever no deadline is missed, and no signal is lost unless that is allowed; 3 of 3 sets of cores repeat', 0),
            ([repeats, {**open_chain, 'deadline': 9}],
             'Nothing is found so far, and nothing is known of later times: 3 of 3 sets of cores repeat, and 1 chain with a deadline does not', 6),
        ):
            self.assertEqual(sentence(*lines, SETS), said)
            verdict = pretty.Verdict(False)
            for line in (*lines, SETS):
                verdict.add(line)
            self.assertEqual(verdict.facts.status(), status)


class Shown(unittest.TestCase):
    def test_a_kind_that_comes_along_has_a_table_of_its_keys(self) -> None:
        found = shown({'moment': 12, 'core': 1, 'kind': 'slow', 'chain': 'e', 'latency': 9, 'deadline': 8, 'origin': 3}, {'kind': 'chain', 'chain': 'e', 'answered': 1}, counts(slow=1), status=5)
        self.assertEqual(found[:7], ['slow', 'moment  core  chain  latency  deadline  origin', '    12     1  e            9         8       3', '', 'chain', 'chain  answered', 'e             1'])
        self.assertEqual(found[-1], 'No deadline is missed, but there is: 1 answer late; first: slow, e, at 12')

    def test_kinds_come_in_their_order_each_with_its_number(self) -> None:
        found = shown(MISS, LOST, {**MISS, 'moment': 13, 'number': 2}, counts(missed=2, lost=1), status=5)
        self.assertEqual([line for line in found if line.split(' (')[0] in ('miss', 'lost', 'counts')], ['miss (2)', 'lost', 'counts'])

    def test_many_rows_are_cut_and_counted(self) -> None:
        many = [{**MISS, 'moment': moment} for moment in range(250)]
        found = shown(*many, counts(missed=250), status=5)
        self.assertEqual(found[0], 'miss (250)')
        # a head, the rows, and what is left
        self.assertEqual(found[21], '    19     0  Loop         1         9         5')
        self.assertEqual(found[22], 'and 230 more: --rows shows 10000, and --format text, csv or json all of them')
        self.assertEqual(len(shown(*many, counts(missed=250), rows=True, status=5)) - len(found), 230 - 1)
        self.assertEqual(shown(*({'kind': 'thread', 'thread': 'A'},) * 250, NOTHING)[102], 'and 150 more: --rows shows 10000, and --format text, csv or json all of them')

    def test_why_answers_first_and_has_the_rows_if_they_are_wanted(self) -> None:
        answer = ['B, round 2, from 4 to 24: it ran for 7 ticks, other threads for 7 ticks, and its', '  core was idle for 6 ticks', '', 'why']
        found = shown(*WHY, is_why=True)
        self.assertEqual(found[:4], answer)
        self.assertEqual(found[-1], '--rows shows the 2 rows of its core, too')
        found = shown(*WHY, is_why=True, rows=True)
        self.assertEqual(found[:4], answer)
        self.assertEqual(found[-3:], ['rows (2)', ' 4  1  arrive  note tick  badge 1  from 2', '15  1  run     thread B'])

    def test_a_way_says_where_the_time_went_and_has_its_legs(self) -> None:
        found = shown(*WAY, is_why=True)
        self.assertEqual(found[:2], ['c, from the interrupt at 4 to round 3 of B, which ended at 20: 16 ticks; held 2', '  ticks, delay 8 ticks, ready 2 ticks, running 4 ticks'])
        self.assertEqual(found[-5:], [
            'way (4)', ' 4  0  held   note tick  to 6  ticks 2', ' 6  0  ran    thread A  to 9  ticks 3  ready 2  running 1', ' 9  0  delay  home 1  to 17  ticks 8',
            '17  1  ran    thread B  to 20  ticks 3  running 3',
        ])

    def test_a_job_that_has_not_ended_says_so(self) -> None:
        job = {key: value for key, value in WHY[2].items() if key != 'ended'}
        found = sentence(job, {'kind': 'ran', 'thread': 'B', 'ticks': 1}, {'kind': 'idle', 'ticks': 19}, unit=MS)
        self.assertEqual(found, 'B, round 2, from 2 ms to 12 ms, when it has not ended: it ran for 0.5 ms, other threads for 0 ms, and its core was idle for 9.5 ms')

    def test_sets_of_cores_head_their_lines(self) -> None:
        sets = [{'kind': 'repeats', 'cores': '0 1', 'from': 170, 'period': 120}, {'kind': 'thread', 'thread': 'A', 'greatest': 24}]
        found = shown(*sets, {**sets[0], 'cores': '2'}, sets[1], SETS)
        self.assertEqual([line for line in found if line.startswith('repeats')], ['repeats  cores 0 1  from 170  period 120', 'repeats  cores 2  from 170  period 120'])
        self.assertEqual(found.count('thread  greatest'), 2)

    def test_hints_say_what_they_mean(self) -> None:
        found = shown({'kind': 'hint', 'hint': 'unbound', 'context': 'spare'}, counts(hints=1))
        self.assertEqual(found[1:3], ['hint     context  meaning', 'unbound  spare    no thread is bound to it'])
        found = shown({'kind': 'hint', 'hint': 'no_deadline'}, {'kind': 'hint', 'hint': 'unused', 'core': 2}, counts(hints=2))
        self.assertEqual(found[1:4], ['hint         core  meaning', 'no_deadline     -  no deadline can be judged', 'unused          2  no thread runs on it'])

    def test_hints_of_badges_and_calls(self) -> None:
        found = shown({'kind': 'hint', 'hint': 'unhandled', 'source': 'nic', 'note': 'events', 'badge': 4}, counts(hints=1))
        self.assertEqual(found[1:3], ['hint       source  note    badge  meaning', 'unhandled  nic     events      4  no handler takes its badge'])
        found = shown({'kind': 'hint', 'hint': 'inverted', 'thread': 'H', 'server': 'v', 'priority': 40, 'caller': 50}, counts(hints=1))
        self.assertEqual([line for line in found if 'ceiling' in line], ['inverted  H       v             40      50  the server is no priority ceiling'])

    def test_hints_of_chains(self) -> None:
        found = shown({'kind': 'hint', 'hint': 'unreached', 'chain': 'packet', 'source': 'nic', 'thread': 'Filter'}, counts(hints=1))
        self.assertEqual(found[1:3], [
            'hint       chain   source  thread  meaning', 'unreached  packet  nic     Filter  no signal leads from its source to its thread',
        ])

    def test_doubts_are_coloured_as_doubts(self) -> None:
        self.assertEqual([concluding.severity(kind) for kind in ('miss', 'hint', 'unjudged', 'counts')], [colours.WRONG, colours.DOUBTFUL, colours.DOUBTFUL, ''])


class Colours(unittest.TestCase):
    def test_when(self) -> None:
        for when, expected in ((colours.ALWAYS, True), (colours.NEVER, False), (colours.AUTO, False)):
            self.assertEqual(colours.are_wanted(when, io.StringIO()), expected)


LINES = '\n'.join(json.dumps(line) for line in (MISS, counts(missed=1)))
PROGRAM = f"""#!/bin/sh
echo "$@" >>"$0.words"
cat <<'END'
{LINES}
END
echo "to a person" >&2
exit ${{0##*-}}
"""


class Tool(unittest.TestCase):
    def setUp(self) -> None:
        place = tempfile.TemporaryDirectory()
        self.addCleanup(place.cleanup)
        self.folder = pathlib.Path(place.name)

    def program(self, status: int) -> pathlib.Path:
        path = self.folder / f'program-{status}'
        path.write_text(PROGRAM)
        path.chmod(0o755)
        return path

    def ran(self, *words: object, **how: Any) -> subprocess.CompletedProcess[str]:
        how = {'env': {**os.environ, 'COLUMNS': '80'}, **how}
        return run_tool([sys.executable, TOOLS / 'pretty', *map(str, words)], capture_output=True, text=True, **how)

    def test_the_exit_code_and_the_errors_are_those_of_the_program(self) -> None:
        for status in (0, 1, 3, 4, 5, 6):
            found = self.ran('--run', self.program(status), 'a.toml', '--horizon', '20')
            self.assertEqual((found.returncode, found.stderr), (status, 'to a person\n'))
            self.assertEqual(found.stdout.endswith('; first: Loop, round 1, at 11\n'), status in (0, 5, 6))
        self.assertEqual((self.folder / 'program-5.words').read_text(), '--format json a.toml --horizon 20\n')

    def test_output_that_is_not_written_is_told_as_the_program_tells_it(self) -> None:
        with open('/dev/full', 'wb') as full:
            command = [sys.executable, TOOLS / 'pretty', '--run', self.program(5)]
            found = run_tool(command, stdout=full, stderr=subprocess.PIPE, text=True)
        self.assertEqual((found.returncode, found.stderr), (3, 'to a person\nprogram-5: write failed\n'))

    def test_lines_of_a_file_and_of_standard_input(self) -> None:
        file = self.folder / 'lines.json'
        file.write_text(LINES)
        for found in (self.ran(file), self.ran(input=LINES), self.ran('-', input=LINES)):
            self.assertEqual((found.returncode, found.stderr), (0, ''))
            self.assertTrue(found.stdout.endswith('1 of 3 threads misses its deadline; first: Loop, round 1, at 11\n'), found.stdout)

    def test_colours_and_units(self) -> None:
        coloured = self.ran('--color', 'always', input=LINES).stdout
        self.assertIn(f'{RED}miss{END}\n', coloured)
        self.assertNotIn('\x1b', self.ran(input=LINES).stdout)
        self.assertIn(', at 11 µs\n', self.ran('--tick-us', '1', input=LINES).stdout)

    def test_faults_are_one_line(self) -> None:
        for words, said in (
            (('--tick-us', '0'), "pretty: argument --tick-us: '0' is no length of a tick in microseconds, above 0 and at most 10^12\n"),
            ((self.folder / 'none.json',), f'pretty: {self.folder}/none.json: No such file or directory\n'),
            (('--run', self.folder / 'none'), f'none: {self.folder}/none: No such file or directory\n'),
        ):
            found = self.ran(*words, input='')
            self.assertEqual((found.returncode, found.stdout, found.stderr), (2, '', said))


if __name__ == '__main__':
    unittest.main()
