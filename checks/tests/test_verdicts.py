"""The plain reading of rows on systems that were worked by hand, and checkers that are wrong: the check has to see it."""
import contextlib
import io
import pathlib
import random
import sys
import tempfile
import tomllib
import unittest
from collections.abc import Callable
from unittest import mock

from checks import common
from checks.common import Ran
from checks.program import answers, reading, verdicts
from checks.random_systems import text_of

# A is woken at 1 and has a tick to wait; its next word is set at 3, left as it is at 5, and added to at 6, and A takes it at 8. C stops in the tick in
# which it runs, so it is never ready or running.
TEXT = '''version = 1
cores = 2
delay = 1
context = [{ name = "a", core = 0, budget = 3, period = 7 }, { name = "c", core = 1, budget = 1, period = 9 }, { name = "n", core = 1, budget = 8, period = 9 }]
note = [{ name = "x", core = 0 }, { name = "y", core = 0 }]
thread = [
    { name = "A", context = "a", priority = 5, deadline = 5, script = ["wait x", "compute 3"] },
    { name = "C", context = "c", priority = 5, deadline = 3, script = ["compute 1", "yield"] },
]
'''
ROWS = '''0 0 release A
0 0 run A
0 0 stop A wait 0
0 1 release C
0 1 run C
0 1 stop C yield 1 until 9
1 0 wake A x 1
2 0 run A
3 0 hold x 1
4 0 stop A spent 3 until 7
5 0 hold x 1
6 0 hold x 3
7 0 release A
7 0 run A
8 0 round A 1 7
8 0 got A x 3
'''
FOUND = '''5 0 lost x word 1
8 0 miss A round 1 response 7 deadline 5 activated 1 queued 0 ready 1 running 3 throttled 3 blocked 0 server 0
9 0 overdue A round 2 age 6 deadline 5 activated 3 queued 5 ready 0 running 1 throttled 0 blocked 0 server 0
9 1 never C deadline 3
'''
JOBS = '''8 0 job A round 1 activated 1 begun 1 response 7 queued 0 preemptions 0 ready 1 running 3 throttled 3 blocked 0 server 0
'''
# A is preempted before its word is taken, then in its first round, at its beginning and later, and after it; its second round has no preemption
PREEMPTS = '''0 0 release A
0 0 run A
1 0 stop A preempt 1
1 0 hold x 1
2 0 run A
2 0 got A x 1
2 0 stop A preempt 0
3 0 run A
4 0 stop A preempt 1
5 0 run A
6 0 round A 1 4
6 0 stop A preempt 1
6 0 hold x 1
7 0 run A
7 0 got A x 1
9 0 round A 2 2
'''
# A ended a round and is overdue, and C is judged by nothing
COUNTS = 'missed 1 overdue 1 untaken 0 lost 1 never 1 merged 1 allowed 0 unjudged 0 hints 2 threads 2 deadlines 2 judged 2\n'
HINTS = '''hint note x is waited on and no script signals it
hint context n has no thread
'''
# s interrupts every other tick from 2 on, and each handling of it takes 5; no handler takes the badge of k, which comes at 3
BUSY = '''version = 3
cores = 1
delay = 1
context = [{ name = "d", core = 0, budget = 20, period = 20 }]
note = [{ name = "n", core = 0 }]
thread = [{ name = "D", context = "d", priority = 5, deadline = 8, script = ["wait n", "on 1", "compute 5"] }]
source = [{ name = "s", note = "n", badge = 1, period = 2, start = 2 }, { name = "k", note = "n", badge = 4, period = 100, start = 3 }]
'''
BUSY_ROWS = '''0 0 release D
0 0 run D
1 0 stop D wait 1
2 0 interrupt s n 1
2 0 wake D n 1
2 0 run D
3 0 interrupt k n 4
3 0 hold n 4
4 0 interrupt s n 1
4 0 hold n 5
6 0 interrupt s n 1
6 0 hold n 5
7 0 round D 1 5
8 0 got D n 5
8 0 interrupt s n 1
8 0 hold n 1
10 0 interrupt s n 1
10 0 hold n 1
12 0 interrupt s n 1
12 0 hold n 1
13 0 round D 2 5
'''
BUSY_FOUND = '''6 0 lost n word 5
10 0 lost n word 1
12 0 lost n word 1
13 0 miss D round 2 response 9 deadline 8 activated 4 queued 3 ready 0 running 6 throttled 0 blocked 0 server 0
hint source k interrupts on n with badge 4 and no handler takes it
missed 1 overdue 0 untaken 0 lost 3 never 0 merged 1 allowed 0 unjudged 0 hints 1 threads 1 deadlines 1 judged 2
'''
# D is given words that no handler takes at 2, and one that a handler without an item takes at 4
NOBODY = (
    BUSY.replace('"on 1", "compute 5"', '"on 1", "compute 5", "on 2"').replace('start = 3', 'start = 2')
    .replace('name = "s", note = "n", badge = 1, period = 2, start = 2', 'name = "e", note = "n", badge = 2, period = 100, start = 4')
)
NOBODY_ROWS = '''0 0 release D
0 0 run D
1 0 stop D wait 1
2 0 interrupt k n 4
2 0 wake D n 4
2 0 run D
3 0 stop D wait 1
4 0 interrupt e n 2
4 0 wake D n 2
4 0 run D
5 0 stop D wait 1
'''
# L has the server v and no budget when H calls it
TAKEN = '''version = 3
cores = 1
delay = 1
context = [{ name = "l", core = 0, budget = 3, period = 10, mode = "sporadic" }, { name = "h", core = 0, budget = 20, period = 100, mode = "sporadic" }]
note = [{ name = "x", core = 0 }, { name = "y", core = 0 }, { name = "z", core = 0 }]
server = [
    { name = "v", core = 0, priority = 40, script = ["compute 5", "on 2", "wait x", "on 4", "signal y 1"] },
    { name = "w", core = 0, priority = 40, script = ["wait z"] },
]
thread = [
    { name = "L", context = "l", priority = 10, rounds = 1, script = ["call v 1"] },
    { name = "H", context = "h", priority = 30, start = 4, rounds = 1, deadline = 9, script = ["call v 1"] },
]
'''
# two threads of TEXT wait for the same words, one without a deadline
POOL = TEXT.replace('{ name = "C", context = "c", priority = 5, deadline = 3, script = ["compute 1", "yield"] }', '''{ name = "B", context = "b", priority = 5, \
script = ["wait x", "compute 2"] }''').replace('context = [', 'context = [{ name = "b", core = 0, budget = 3, period = 7 }, ')
# both have a deadline and a handler, each for a bit of its own
HANDLERS = (
    POOL.replace('version = 1', 'version = 3').replace('"b", priority = 5, ', '"b", priority = 4, deadline = 9, ')
    .replace('"wait x", "compute 3"', '"wait x", "on 1", "compute 3"').replace('"wait x", "compute 2"', '"wait x", "on 2", "compute 2"')
)
TAKEN_ROWS = '''0 0 release L
0 0 run L
1 0 enter L v
3 0 stop L spent 3 until 10
4 0 release H
4 0 run H
5 0 stop H call 1
10 0 release L
10 0 run L
13 0 stop L spent 3 until 20
20 0 release L
20 0 run L
21 0 leave L v
21 0 enter H v
21 0 round L 1 21
21 0 stop L done 1
21 0 run H
'''


def read(horizon: int = 9) -> reading.Reading:
    return reading.Reading(tomllib.loads(TEXT), ROWS, horizon)


class Readings(unittest.TestCase):
    def test_what_is_found(self) -> None:
        self.assertEqual(read().wanted().text, FOUND + HINTS + COUNTS)
        self.assertEqual(read().wanted().status(), 5)

    def test_the_rounds_that_ended(self) -> None:
        wanted = read().wanted(show='jobs')
        self.assertEqual(wanted.text, JOBS + COUNTS)
        self.assertEqual(wanted.status(), 5)

    def test_findings_as_json(self) -> None:
        lines = read().wanted(form='json').text.splitlines()
        self.assertEqual(lines[0], '{"moment":5,"core":0,"kind":"lost","note":"x","word":1}')
        self.assertEqual(lines[3], '{"moment":9,"core":1,"kind":"never","thread":"C","deadline":3}')
        self.assertEqual(lines[4:6], ['{"kind":"hint","hint":"unsignalled","note":"x"}', '{"kind":"hint","hint":"unbound","context":"n"}'])
        self.assertEqual(lines[6], '{"kind":"counts","missed":1,"overdue":1,"untaken":0,"lost":1,"never":1,"merged":1,"allowed":0,"unjudged":0,"hints":2,"threads":2,'
                                   '"deadlines":2,"judged":2}')

    def test_jobs_and_findings_as_csv(self) -> None:
        head, *rows = read().wanted(show='jobs', form='csv').text.splitlines()
        self.assertEqual(rows, ['8,0,job,A,1,1,1,7,0,0,1,3,3,0,0'])
        self.assertEqual(head.count(','), rows[0].count(','))
        self.assertEqual(read().wanted(form='csv').text.splitlines()[1:3], ['5,0,lost,,x,1,,,,,,,,,,,,', '8,0,miss,A,,,1,7,,5,1,,0,1,3,3,0,0'])

    def test_preemptions_are_those_of_the_round(self) -> None:
        found = reading.Reading(tomllib.loads(TEXT), PREEMPTS, 9)
        jobs = [job and (job.begun, job.activated, job.preemptions) for job in found.ended.values()]
        self.assertEqual(jobs, [(2, 1, 2), (7, 6, 0)])

    def test_lost_signals_that_are_allowed_are_counted_and_not_told(self) -> None:
        wanted = read().wanted(['x'])
        self.assertNotIn('lost x', wanted.text)
        self.assertEqual((wanted.counts['lost'], wanted.counts['allowed']), (0, 1))

    def test_exit_codes(self) -> None:
        def statuses(**counts: int) -> tuple[int, int]:
            wanted = reading.Wanted('', {**dict.fromkeys(reading.KINDS, 0), **counts})
            return wanted.status(), wanted.status(is_strict=True)

        self.assertEqual(statuses(judged=1, merged=2, allowed=3, threads=1, deadlines=1), (0, 0))
        self.assertEqual((statuses(judged=1, hints=1), statuses(judged=1, unjudged=1)), ((0, 5), (0, 5)))
        self.assertEqual((statuses(), statuses(threads=3, deadlines=2, merged=1), statuses(unjudged=1)), ((6, 6), (6, 6), (6, 5)))
        for kind in ('missed', 'overdue', 'untaken', 'lost', 'never', 'slow', 'unanswered'):
            self.assertEqual((statuses(**{kind: 1}), statuses(judged=1, **{kind: 1})), ((5, 5), (5, 5)), kind)

    def test_a_word_is_held_from_the_signal_that_set_it(self) -> None:
        rows = read().rows
        self.assertEqual(read().past(rows[8]).word('x'), (0, None))
        self.assertEqual(read().past(rows[15]).word('x'), (3, 3))
        self.assertEqual(read().whole.word('x'), (0, None))

    def test_a_thread_that_is_woken_stands_by_its_budget(self) -> None:
        # at 1 the budget of A is whole; where it is used up at 0, it comes back at 7
        for charged, wanted in ((0, 'ready'), (3, 'throttled')):
            found = reading.Reading(tomllib.loads(TEXT), f'0 0 release A\n0 0 run A\n0 0 stop A wait {charged}\n1 0 wake A x 1\n', 3)
            self.assertEqual(found.whole.standings('A', 0, 3), ['blocked', wanted, wanted])

    def test_the_nearest_name_is_the_first_of_those(self) -> None:
        self.assertEqual([reading.distance('tick', other) for other in ('tick', 'ticks', 'pick', 'kit', '')], [0, 1, 1, 3, 4])
        self.assertIn('called "tik": the nearest is tick\n', reading.unknown_note('tik', ['frames', 'tick', 'tig']))
        self.assertIn('called "n": there is none\n', reading.unknown_note('n', []))


class Judging(unittest.TestCase):
    """What was judged of the system above, and of others like it."""

    def lines(self, text: str, rows: str, horizon: int) -> list[str]:
        return reading.Reading(tomllib.loads(text), rows, horizon).wanted().text.splitlines()

    def up_to(self, moment: int) -> str:
        return ''.join(line for line in ROWS.splitlines(keepends=True) if int(line.split()[0]) <= moment)

    def test_a_round_that_still_has_time_is_unjudged(self) -> None:
        # A was woken at 1, and its deadline is 5: at 5 nothing is known, and at 6 it can only be late
        self.assertEqual(self.lines(TEXT, self.up_to(5), 5), [
            '5 0 lost x word 1', '5 1 never C deadline 3', '5 0 unjudged A deadline 5 activated 1', *HINTS.splitlines(),
            'missed 0 overdue 0 untaken 0 lost 1 never 1 merged 0 allowed 0 unjudged 1 hints 2 threads 2 deadlines 2 judged 0',
        ])
        self.assertEqual(self.lines(TEXT, self.up_to(6), 6)[1:2], ['6 0 overdue A round 1 age 5 deadline 5 activated 1 queued 0 ready 1 running 2 throttled 2 blocked 0 server 0'])
        self.assertTrue(self.lines(TEXT, self.up_to(6), 6)[-1].endswith(' unjudged 0 hints 2 threads 2 deadlines 2 judged 1'))

    def test_an_unjudged_thread_as_json_and_csv(self) -> None:
        found = reading.Reading(tomllib.loads(TEXT), self.up_to(5), 5)
        self.assertEqual(found.wanted(form='json').text.splitlines()[2], '{"moment":5,"core":0,"kind":"unjudged","thread":"A","deadline":5,"activated":1}')
        self.assertEqual(found.wanted(form='csv').text.splitlines()[3], '5,0,unjudged,A,,,,,,5,1,,,,,,,')

    def test_a_word_that_nobody_has_taken_activates_no_thread(self) -> None:
        # the word is there from 0 on, D has not come to its wait, and its deadline is 8
        system = BUSY.replace('core = 0 }]\nthread', 'core = 0, word = 1 }]\nthread')
        hint = 'hint source k interrupts on n with badge 4 and no handler takes it'
        counts = 'missed 0 overdue 0 untaken %d lost 0 never 1 merged 0 allowed 0 unjudged 0 hints 1 threads 1 deadlines 1 judged %d'
        self.assertEqual(self.lines(system, '', 7), ['7 0 never D deadline 8', hint, counts % (0, 0)])
        self.assertEqual(self.lines(system, '', 8), ['8 0 never D deadline 8', '8 0 untaken n by D word 1 age 8 deadline 8 set 0', hint, counts % (1, 1)])

    def test_a_spare_worker_is_unjudged(self) -> None:
        # B waits for the same words as A, and has none so far
        system = POOL.replace('"b", priority = 5, ', '"b", priority = 4, deadline = 9, ')
        found = reading.Reading(tomllib.loads(system), '1 0 wake A x 1\n', 3)
        self.assertEqual(found.wanted().text.splitlines()[:2], ['3 0 unjudged A deadline 5 activated 1', '3 0 unjudged B deadline 9 activated -'])
        self.assertEqual(found.wanted(form='json').text.splitlines()[1], '{"moment":3,"core":0,"kind":"unjudged","thread":"B","deadline":9}')
        self.assertEqual(found.wanted(form='csv').text.splitlines()[2], '3,0,unjudged,B,,,,,,9,,,,,,,,')

    def test_a_thread_that_is_ready_at_the_horizon_is_activated(self) -> None:
        for rows, wanted in (('', '4 1 never C deadline 3'), ('4 1 release C\n', '4 1 unjudged C deadline 3 activated 4')):
            self.assertIn(wanted, self.lines(TEXT, rows, 4))

    def test_a_thread_that_ended_a_round_is_judged(self) -> None:
        # its second round is activated at 3, but the first one was judged at 8
        self.assertNotIn('unjudged A', '\n'.join(self.lines(TEXT.replace('deadline = 5', 'deadline = 90'), ROWS, 9)))

    def test_rounds_without_a_deadline_are_not_judged(self) -> None:
        # two rounds of A end
        for text, many in ((TEXT, 2), (TEXT.replace('deadline = 5, ', ''), 0)):
            self.assertTrue(self.lines(text, PREEMPTS, 9)[-1].endswith(f' threads 2 deadlines {1 + (many > 0)} judged {many}'))
        found = reading.Reading(tomllib.loads(TEXT.replace('deadline = 5, ', '').replace('deadline = 3, ', '')), PREEMPTS, 9).wanted()
        self.assertEqual((found.status(), found.status(is_strict=True)), (6, 5))
        self.assertIn('hint no thread has a deadline\nhint note x', found.text)

    def test_hints_of_what_judges_nothing(self) -> None:
        def hints(text: str) -> list[str]:
            return list(reading.Reading(tomllib.loads(text), '', 0).hints())

        empty = 'version = 1\ncores = 3\ndelay = 1\ncontext = [{ name = "a", core = 1, budget = 2, period = 5 }]\n'
        cores = [f'hint core {core} has no thread' for core in range(3)]
        self.assertEqual(hints(empty), ['hint no thread', 'hint context a has no thread', *cores])
        one = empty + 'thread = [{ name = "A", context = "a", priority = 5, script = ["compute 1"] }]\n'
        self.assertEqual(hints(one), ['hint no thread has a deadline', cores[0], cores[2]])
        self.assertEqual(hints(one.replace('priority', 'deadline = 1, priority')), [cores[0], cores[2]])
        self.assertEqual([reading.values_of_hint(hint) for hint in (*hints(empty)[:1], *hints(one)[:2])], [
            {'kind': 'hint', 'hint': 'no_thread'}, {'kind': 'hint', 'hint': 'no_deadline'}, {'kind': 'hint', 'hint': 'unused', 'core': 0},
        ])

    def test_a_core_with_hardly_too_much(self) -> None:
        # 1/3 + 1/3 + 333,334 in a million is more than 1, by less than a millionth; each rounded down they are 1,000,000, and with one less they are less than 1
        def hints(budget: int) -> list[str]:
            parts = [(1, 3), (1, 3), (budget, 1_000_000)]
            context = [{'name': f'c{place}', 'core': 0, 'budget': part, 'period': period} for place, (part, period) in enumerate(parts)]
            thread = [{'name': f'T{place}', 'context': f'c{place}', 'priority': 1, 'deadline': 9, 'script': ['compute 1']} for place in range(3)]
            return list(reading.Reading({'cores': 1, 'context': context, 'thread': thread}, '', 0).hints())

        self.assertEqual((hints(333_333), hints(333_334)), ([], ['hint core 0 grants 1000001 of 1000000']))


class NewReadings(unittest.TestCase):
    """Handlers, servers and interrupts."""

    def test_interrupts_and_bits_that_no_handler_takes(self) -> None:
        found = reading.Reading(tomllib.loads(BUSY), BUSY_ROWS, 13)
        self.assertEqual(found.wanted().text, BUSY_FOUND)
        jobs = [job and (job.begun, job.activated) for job in found.ended.values()]
        self.assertEqual(jobs, [(2, 2), (8, 4)])
        self.assertEqual(found.whole.word('n'), (1, 8))

    def test_a_word_that_is_nobodys_is_set_since_no_moment(self) -> None:
        found = reading.Reading(tomllib.loads(BUSY), BUSY_ROWS[:BUSY_ROWS.index('4 0')], 3)
        self.assertEqual(found.whole.word('n'), (4, None))

    def test_words_that_no_handler_takes_begin_no_round(self) -> None:
        found = reading.Reading(tomllib.loads(NOBODY), NOBODY_ROWS, 6)
        self.assertEqual(found.wanted().text, '6 0 never D deadline 8\nhint source k interrupts on n with badge 4 and no handler takes it\n'
                         'missed 0 overdue 0 untaken 0 lost 0 never 1 merged 0 allowed 0 unjudged 0 hints 1 threads 1 deadlines 1 judged 0\n')
        last = answers.wanted(found, 'D', '1').stdout.decode().splitlines()[-2]
        self.assertEqual(last, 'why D round 1 from 5 to 6 waited 1 activated - begun - ended -')

    def test_a_first_word(self) -> None:
        rows = '0 0 release D\n0 0 run D\n1 0 got D n 5\n6 0 round D 1 5\n'
        found = reading.Reading(tomllib.loads(BUSY.replace('core = 0 }]\nthread', 'core = 0, word = 5 }]\nthread')), rows, 7)
        self.assertEqual([job and (job.begun, job.activated) for job in found.ended.values()], [(1, 0)])
        held = reading.Reading(tomllib.loads(BUSY.replace('core = 0 }]\nthread', 'core = 0, word = 1 }]\nthread')), '3 0 hold n 1\n', 8)
        self.assertEqual(held.wanted().text.splitlines()[:2], [
            '3 0 lost n word 1', '8 0 never D deadline 8',
        ])
        self.assertEqual(held.wanted().text.splitlines()[2], '8 0 untaken n by D word 1 age 8 deadline 8 set 0')

    def test_a_call_of_a_server_that_is_taken_waits_for_it(self) -> None:
        found = reading.Reading(tomllib.loads(TAKEN), TAKEN_ROWS, 22)
        standings = [('pending', 4), ('running', 1), ('server', 16), ('running', 1)]
        self.assertEqual(found.whole.standings('H', 0, 22), [standing for standing, many in standings for _ in range(many)])
        self.assertEqual(found.whole.standings('L', 0, 4), ['running', 'running', 'running', 'throttled'])
        self.assertEqual(found.wanted().text.splitlines()[0],
                         '22 0 overdue H round 1 age 18 deadline 9 activated 4 queued 0 ready 0 running 2 throttled 0 blocked 0 server 16')

    def test_who_is_let_in_stands_by_its_budget(self) -> None:
        # H has used a tick when it waits for the server; a budget of 1 comes back at 104
        for budget, wanted in ((20, 'ready'), (1, 'throttled')):
            system = TAKEN.replace('budget = 20', f'budget = {budget}')
            found = reading.Reading(tomllib.loads(system), TAKEN_ROWS.replace('21 0 run H\n', ''), 31)
            self.assertEqual(found.whole.standings('H', 20, 23), ['server', wanted, wanted])


class Sharing(unittest.TestCase):
    """Words of notifications that several threads wait for."""

    def due(self, text: str, note: str = 'x') -> tuple[list[str], int | None]:
        found = reading.Reading(tomllib.loads(text), '', 0)
        return found.takers(note), found.due(note)

    def test_the_deadline_of_a_notification(self) -> None:
        with_deadlines = POOL.replace('"b", priority = 5, ', '"b", priority = 4, deadline = 9, ')
        self.assertEqual(self.due(with_deadlines), (['A', 'B'], 9))
        # one has no deadline, waits once more or waits for it within its rounds; nobody waits for y
        self.assertEqual(self.due(POOL), (['A', 'B'], None))
        self.assertEqual(self.due(with_deadlines.replace('"compute 2"', '"compute 2", "wait x", "compute 1"')), (['A', 'B'], None))
        self.assertEqual(self.due(with_deadlines.replace('["wait x", "compute 2"', '["compute 1", "wait x", "compute 2"')), (['A', 'B'], None))
        self.assertEqual(self.due(with_deadlines, 'y'), ([], None))

    def test_who_calls_a_server_may_take_its_words(self) -> None:
        # for badge 2 the server v waits for x
        self.assertEqual(self.due(TAKEN), ([], None))
        self.assertEqual(self.due(TAKEN.replace('"call v 1"', '"call v 2"')), (['L', 'H'], None))

    def test_a_word_is_due_that_leaves_each_something_to_do(self) -> None:
        # it has a bit for A alone since 2, for both since 4, and the greatest deadline is 9
        system = HANDLERS
        for rows, wanted in (('2 0 hold x 1\n', False), ('2 0 hold x 1\n4 0 hold x 3\n', True), ('2 0 hold x 1\n4 0 hold x 3\n5 0 got A x 3\n', False)):
            found = [reading.Reading(tomllib.loads(system), rows, horizon).untaken('x') for horizon in (10, 11)]
            self.assertEqual(found, [None, ('untaken', '11 0 untaken x by A,B word 3 age 9 deadline 9 set 2') if wanted else None])

    def test_an_untaken_word_as_json_and_csv(self) -> None:
        found = reading.Reading(tomllib.loads(HANDLERS), '2 0 hold x 3\n', 20)
        self.assertEqual(found.wanted(form='json').text.splitlines()[2],
                         '{"moment":20,"core":0,"kind":"untaken","note":"x","by":["A","B"],"word":3,"age":18,"deadline":9,"set":2}')
        self.assertEqual(found.wanted(form='csv').text.splitlines()[3], '20,0,untaken,,x,3,,,18,9,,2,,,,,,')

    def test_never_is_of_words_that_anybody_took(self) -> None:
        # A takes words with its bit, with that of B, and with none
        for word, wanted in ((1, {'B'}), (2, {'A'}), (3, set()), (4, {'A', 'B'})):
            found = reading.Reading(tomllib.loads(HANDLERS), f'0 0 hold x {word}\n1 0 got A x {word}\n', 3)
            self.assertEqual({line.split()[3] for kind, line in found.all_found if kind == 'never'}, wanted)


class MoreReadings(unittest.TestCase):
    """Hints of version 3, and rows as objects."""

    def used(self, text: str) -> list[str]:
        found = [hint for hint in reading.Reading(tomllib.loads(text), '', 0).hints() if hint.split()[1] in ('source', 'thread')]
        return [hint.removeprefix('hint ') for hint in found]

    def test_hints_of_badges_that_no_script_takes(self) -> None:
        # D waits for n and has handlers for badges 1 and 6; E waits for m and has no handler; nobody waits for z
        text = '''version = 3
cores = 1
delay = 1
note = [{ name = "n", core = 0 }, { name = "m", core = 0 }, { name = "z", core = 0 }]
server = [{ name = "v", core = 0, priority = 40, script = ["signal n 16", "on 2", "wait n"] }]
thread = [
    { name = "D", context = "d", priority = 5, script = ["wait n", "on 1", "compute 5", "on 6"] },
    { name = "E", context = "e", priority = 5, script = ["wait m", "signal z 1", "signal n 9", "signal n 8", "signal n 32"] },
]
source = [{ name = "s", note = "n", badge = 4, period = 9 }, { name = "k", note = "n", badge = 24, period = 9 }, { name = "u", note = "z", badge = 1, period = 9 }]
'''
        sources = ['source k interrupts on n with badge 24 and no handler takes it', 'source u interrupts on z and no script waits on it']
        self.assertEqual(self.used(text), [*sources, 'thread E signals n with badge 8 and no handler takes it'])
        # a server signals for its caller; for badge 2 it waits for n behind a call, and takes each badge
        self.assertEqual(self.used(text.replace('"signal z 1"', '"call v 1"'))[2:], ['thread E signals n with badge 16 and no handler takes it'])
        self.assertEqual(self.used(text.replace('"signal z 1"', '"call v 2"')), sources[1:])
        # an item before all handlers is done for each badge
        self.assertEqual(self.used(text.replace('"wait n", "on 1"', '"wait n", "compute 1", "on 1"')), sources[1:])
        values = [reading.values_of_hint(f'hint {hint}') for hint in self.used(text)]
        self.assertEqual(values, [
            {'kind': 'hint', 'hint': 'unhandled', 'source': 'k', 'note': 'n', 'badge': 24}, {'kind': 'hint', 'hint': 'unawaited', 'source': 'u', 'note': 'z'},
            {'kind': 'hint', 'hint': 'unheard', 'thread': 'E', 'note': 'n', 'badge': 8},
        ])

    def test_hints_of_calls_from_above_a_server(self) -> None:
        # L calls from below, H from the priority of v; w calls v at its own
        servers = TAKEN.replace('["wait z"]', '["call v 1"]')
        for priorities, wanted in (
            ((10, 30, 40), []), ((10, 40, 41), ['thread H calls v of priority 40 at priority 40']),
            ((41, 9, 50), ['thread L calls v of priority 40 at priority 41']),
        ):
            low, high, above = priorities
            text = servers.replace('priority = 10', f'priority = {low}').replace('priority = 30', f'priority = {high}').replace('name = "w", core = 0, priority = 40', f'name = "w", core = 0, priority = {above}')
            self.assertEqual(self.used(text), wanted)
        text = servers.replace('start = 4, rounds = 1, deadline = 9, script = ["call v 1"]', 'script = ["call v 1", "call w 1"]')
        self.assertEqual(self.used(text), ['thread H calls v of priority 40 at priority 40'])
        self.assertEqual(reading.values_of_hint(f'hint {self.used(text)[0]}'), {
            'kind': 'hint', 'hint': 'inverted', 'thread': 'H', 'server': 'v', 'priority': 40, 'caller': 40,
        })

    def test_hints_look_into_servers_that_are_called(self) -> None:
        def hinted(text: str) -> list[str]:
            return [hint.split()[2] for hint in reading.Reading(tomllib.loads(text), '', 0).hints() if hint.startswith('hint note')]

        # for badge 2 the server waits for x; nobody calls w
        self.assertEqual(hinted(TAKEN), [])
        self.assertEqual(hinted(TAKEN.replace('"call v 1"', '"call v 6"')), ['x'])
        self.assertEqual(hinted(TAKEN.replace('"call v 1"', '"call w 1"')), ['z'])
        self.assertEqual(hinted(TAKEN.replace('"call v 1"', '"wait y", "call v 4"')), [])
        self.assertEqual(hinted(BUSY.replace('source = ', 'chain = []\n#')), ['n'])

    def test_rows_as_objects(self) -> None:
        found = reading.Reading(tomllib.loads(BUSY), BUSY_ROWS, 13)
        self.assertEqual(answers.object_of(answers.values_of(found.rows[3])), '{"moment":2,"core":0,"kind":"interrupt","source":"s","note":"n","badge":1}\n')
        found = reading.Reading(tomllib.loads(TAKEN), TAKEN_ROWS, 22)
        self.assertEqual([answers.object_of(answers.values_of(found.rows[place])) for place in (2, 6)], [
            '{"moment":1,"core":0,"kind":"enter","thread":"L","server":"v"}\n', '{"moment":5,"core":0,"kind":"stop","thread":"H","why":"call","charged":1}\n',
        ])


class WrongCheckers(unittest.TestCase):
    def failed(
        self, wrong: Callable[[Ran], Ran], rows: str = ROWS, reports: str = 'thread A ran 4 late 1\nthread C ran 0 late 0\n',
        text: str = TEXT, reads: type[reading.Reading] = reading.Reading,
    ) -> int:
        """How many tries fail with a checker that is wrong in this way, which is given the words of a run, or that reads rows in another way."""
        wanted = reads(tomllib.loads(text), rows, 9)

        def ran(given: list[common.Word], stdin: bytes = b'', **_: object) -> Ran:
            command = [str(word) for word in given]
            if command[0] == 'mcsim':
                return Ran(0, (rows + reports).encode(), b'')
            allowed = [word.partition('=')[2] for word in command if word.startswith('--allow-lost')]
            show = next((word.partition('=')[2] for word in command if word.startswith('--show')), 'both')
            form = next((word.partition('=')[2] for word in command if word.startswith('--format')), 'text')
            if '--why' in command:
                thread, number = map(str, command[command.index('--why') + 1:][:2])
                return wrong(answers.wanted(wanted, thread, number, form))
            if (show, form) == ('both', 'csv'):
                return wrong(Ran(2, b'', reading.MIXED.encode()))
            return wrong(verdicts.answer(wanted.wanted(allowed, show, form), '--strict' in command))

        trial = verdicts.Trial(pathlib.Path('mcsim'), pathlib.Path('mcscheck'))
        with tempfile.TemporaryDirectory() as folder, mock.patch('checks.common.run', ran), mock.patch('tempfile.tempdir', folder):
            with contextlib.redirect_stdout(io.StringIO()), mock.patch.object(trial, 'unknown'):
                trial.agrees(verdicts.System('worked', text, 9), random.Random(1))
        return trial.count.tally.failed

    def test_one_that_is_right_passes(self) -> None:
        self.assertEqual(self.failed(lambda ran: ran), 0)

    def test_another_status(self) -> None:
        # of seven runs: as it is, with words, with jobs, in another format, with figures, and two rounds, of which one is there
        self.assertEqual(self.failed(lambda ran: ran._replace(status=0)), 6)

    def test_a_line_that_is_not_there(self) -> None:
        self.assertEqual(self.failed(lambda ran: ran._replace(stdout=ran.stdout.replace(b'hint context n has no thread\n', b''))), 3)

    def test_words_on_standard_error(self) -> None:
        self.assertEqual(self.failed(lambda ran: ran._replace(stderr=b'mcscheck: 1 of 9\n')), 7)

    def test_a_job_that_is_not_there(self) -> None:
        self.assertEqual(self.failed(lambda ran: ran._replace(stdout=ran.stdout.replace(JOBS.encode(), b''))), 1)

    def test_rounds_without_a_deadline_that_are_judged(self) -> None:
        class Wrong(reading.Reading):
            def judged(self) -> int:
                return sum(map(self.ends, self.threads))

        text, reports = TEXT.replace('deadline = 5, ', ''), 'thread A ran 5 late 0\nthread C ran 0 late 0\n'
        self.assertEqual(self.failed(lambda ran: ran, PREEMPTS, reports, text), 0)
        # five runs have a line of counts, and two ask for a round
        self.assertEqual(self.failed(lambda ran: ran, PREEMPTS, reports, text, Wrong), 5)

    def test_a_report_that_tells_another_time(self) -> None:
        self.assertEqual(self.failed(lambda ran: ran, reports='thread A ran 5 late 1\nthread C ran 0 late 0\n'), 1)

    def test_a_round_that_tells_another_response(self) -> None:
        self.assertEqual(self.failed(lambda ran: ran, rows=ROWS.replace('round A 1 7', 'round A 1 8')), 1)

    def test_systems_that_show_nothing_are_a_failure(self) -> None:
        with tempfile.TemporaryDirectory() as folder:
            for name in ('mcsim', 'mcscheck'):
                file = pathlib.Path(folder, name)
                file.write_text('#!/bin/sh\nexit 1\n')
                file.chmod(0o755)
            command = [sys.executable, str(pathlib.Path(verdicts.__file__)), '--program', str(pathlib.Path(folder, 'mcsim')), '--systems', '1']
            last = common.last_tally(common.run(command).stdout.decode())
        self.assertGreaterEqual(last.failed, len(verdicts.SEEN) - 1)


class Systems(unittest.TestCase):
    def test_a_text_is_that_of_its_tables(self) -> None:
        tables = tomllib.loads(TEXT)
        self.assertEqual(tomllib.loads(text_of(tables)), tables)

    def test_items_have_other_names_and_few_badges(self) -> None:
        self.assertEqual(verdicts.renamed('wait n3', random.Random(1)), f'wait {verdicts.NAMES[3]}')
        self.assertEqual(verdicts.renamed('compute 5', random.Random(1)), 'compute 5')
        self.assertIn(verdicts.renamed('signal n0 1024', random.Random(1)).split()[2], ('1', '2', '4'))

# A took the lock at 3 from B, which it waits for from 1 on; up to 9 its second round waits
LOCKED = '''version = 1
cores = 1
delay = 1
context = [{ name = "a", core = 0, budget = 9, period = 9 }, { name = "b", core = 0, budget = 9, period = 9 }]
note = [{ name = "x", core = 0 }]
thread = [
    { name = "A", context = "a", priority = 5, script = ["wait x", "compute 2"] },
    { name = "B", context = "b", priority = 4, rounds = 1, script = ["compute 1", "signal x 1"] },
]
'''
LOCKED_ROWS = '''0 0 release A
0 0 run A
0 0 release B
1 0 stop A wait 1
1 0 run B
2 0 signal B x 1
2 0 wake A x 1
2 0 round B 1 2
2 0 stop B done 1
2 0 run A
4 0 round A 1 2
5 0 stop A wait 3
'''


class Answers(unittest.TestCase):
    """Why a round took so long, worked by hand."""

    found = reading.Reading(tomllib.loads(LOCKED), LOCKED_ROWS, 7)

    def test_a_round_that_waited(self) -> None:
        lines = answers.wanted(self.found, 'A', '1').stdout.decode().splitlines()
        self.assertEqual(lines[:2], ['1 0 stop A wait 1', '1 0 run B'])
        self.assertEqual(lines[-4:], ['why A round 1 from 1 to 4 waited 1 activated 2 begun 2 ended 4', 'ran A ticks 2', 'ran B ticks 1', 'idle ticks 0'])

    def test_a_round_that_waits(self) -> None:
        lines = answers.wanted(self.found, 'A', '2').stdout.decode().splitlines()
        self.assertEqual(lines, ['5 0 stop A wait 3', 'why A round 2 from 5 to 7 waited 2 activated - begun - ended -', 'idle ticks 2'])

    def test_rounds_that_are_not_there(self) -> None:
        for thread, number, said in (('A', '3', 'there are rounds 1 to 2'), ('B', '0', 'there is round 1')):
            self.assertEqual(answers.wanted(self.found, thread, number), Ran(2, b'', f'mcscheck: --why: no round "{number}" of {thread}: {said}\n'.encode()))
        self.assertIn(b'the nearest is A', answers.wanted(self.found, 'C', '1').stderr)

    def test_rows_as_objects(self) -> None:
        text = answers.wanted(self.found, 'A', '1', 'json').stdout.decode().splitlines()
        self.assertEqual(text[0], '{"moment":1,"core":0,"kind":"stop","thread":"A","why":"wait","charged":1}')
        self.assertEqual(text[-1], '{"kind":"idle","ticks":0}')


if __name__ == '__main__':
    unittest.main()
