"""Lists of tasks, their analysis, and systems made of them. What is expected was worked out by hand."""
from __future__ import annotations

import pathlib
import random
import tempfile
import tomllib
import unittest

import worked
from worked import Ended
from mcsim_tools import analysis, tasks
from mcsim_tools.analysis import Demand
from mcsim_tools.tasks import Form, Seen, Task
from mcsim_tools.reading import Reading
from mcsim_tools import system as systems

THREE = 'name,work,period\na,1,4\nb,2,6\nc,3,12\n'


def demand(work: int, period: int) -> Demand:
    return Demand(work, work, period)


def ran(text: str, *words: object) -> Ended:
    """The tool over a list; the folder's name is taken out of what it says."""
    with tempfile.TemporaryDirectory() as folder:
        path = pathlib.Path(folder, 'tasks.csv')
        path.write_text(text)
        ended = worked.ran('tasks', tasks.main, path, *words)
        return ended._replace(stderr=ended.stderr.replace(f'{folder}/', ''))


class Bounds(unittest.TestCase):
    def test_a_job_that_ends_before_the_next_one_comes(self) -> None:
        a, b, c = demand(1, 4), demand(2, 6), demand(3, 12)
        # c: 3, 3 + 1 + 2 = 6, 3 + 2 + 2 = 7, 3 + 2 + 4 = 9, 3 + 3 + 4 = 10, and again 10
        self.assertEqual([analysis.bound(a, []), analysis.bound(b, [a]), analysis.bound(c, [a, b])], [1, 3, 10])

    def test_a_response_above_the_period(self) -> None:
        # jobs of b come each 100 and end at 114, 202, 316, 404, 518, 606, 694: the fifth one takes longest, and at 694 none is left
        a, b = demand(26, 70), demand(62, 100)
        self.assertEqual(analysis.bound(b, [a]), 118)

    def test_more_than_the_core_has(self) -> None:
        self.assertIsNone(analysis.bound(demand(3, 6), [demand(3, 5)]))
        # all of it is not more
        self.assertEqual(analysis.bound(demand(3, 6), [demand(1, 2)]), 6)

    def test_a_call_is_seen_by_lesser_tasks_and_by_the_next_job(self) -> None:
        # b alone takes 4, and its call ends at 7, one tick into its next period; that job ends at 11, 5 after 6
        self.assertEqual(analysis.bound(Demand(2, 3, 6), [Demand(1, 2, 4)]), 5)

    def test_busy_stretch(self) -> None:
        # 1 + 2 + 3 = 6, then 2 + 2 + 3 = 7, 2 + 4 + 3 = 9, 3 + 4 + 3 = 10
        self.assertEqual(analysis.ends_at(3, [demand(1, 4), demand(2, 6)]), 10)
        self.assertEqual(analysis.busy_stretch([demand(1, 4), demand(2, 6), demand(3, 12)]), 10)
        self.assertIsNone(analysis.busy_stretch([demand(3, 4), demand(2, 6)]))

    def test_a_core_that_is_asked_for_all_it_has(self) -> None:
        # 2 + 3 = 5, then 4 + 3 = 7, 4 + 6 = 10, 6 + 6 = 12, and at 12 both begin anew
        self.assertEqual(analysis.busy_stretch([demand(2, 4), demand(3, 6)]), 12)
        self.assertEqual(analysis.busy_stretch([demand(2**40, 2**40)]), 2**40)

    def test_an_analysis_that_is_too_long_is_given_up(self) -> None:
        # the greater one keeps the core for 2^38 ticks, in which 2^37 jobs come, and each of them and of those behind them is looked at
        with self.assertRaises(analysis.TooLong):
            analysis.bound(demand(1, 2), [demand(2**38 - 1, 2**39)], analysis.Effort(10**5))
        # a tick in 2^20 is left of the first one, of which the others want all but nothing: 2^20 jobs of it, seventeen terms for each
        with self.assertRaises(analysis.TooLong):
            analysis.busy_stretch([demand(2**20 - 1, 2**20), *[demand(2**16, 2**40)] * 15], analysis.Effort(10**5))


class Systems(unittest.TestCase):
    def test_contexts_as_clocks(self) -> None:
        tables = tomllib.loads(ran('name, work, period, offset\nslow, 3, 12, 5\nfast, 1, 4,\n').stdout)
        self.assertEqual(tables, {
            'version': 3, 'cores': 1, 'delay': 1, 'call': 1,
            'context': [{'name': 'slow', 'core': 0, 'budget': 3, 'period': 12, 'mode': 'sporadic'},
                        {'name': 'fast', 'core': 0, 'budget': 1, 'period': 4, 'mode': 'sporadic'}],
            'thread': [
                {'name': 'slow', 'context': 'slow', 'priority': 1, 'deadline': 12, 'start': 5, 'script': ['compute 3']},
                {'name': 'fast', 'context': 'fast', 'priority': 2, 'deadline': 4, 'script': ['compute 1']},
            ],
        })

    def test_a_timer_each(self) -> None:
        tables = tomllib.loads(ran('name,work,period,offset,core\na,1,4,0,0\nb,7,8,3,1\n', '--clocks').stdout)
        self.assertEqual((tables['version'], tables['cores'], tables['call']), (3, 2, 1))
        # the budget of b, its work and a call, is its period, so it is a time slice
        self.assertEqual([(row['name'], row['core'], row['budget'], row['period'], row.get('mode')) for row in tables['context']],
                         [('a', 0, 2, 4, 'sporadic'), ('b', 1, 8, 8, None)])
        self.assertEqual([(row['name'], row['core']) for row in tables['note']], [('a', 0), ('b', 1)])
        # the longest period is 8, and the first waits of two threads take 2 ticks
        self.assertEqual(tables['source'], [
            {'name': 'a', 'note': 'a', 'badge': 1, 'period': 4, 'start': 10}, {'name': 'b', 'note': 'b', 'badge': 1, 'period': 8, 'start': 13}])
        self.assertEqual([(row['name'], row['script']) for row in tables['thread']], [('a', ['wait a', 'compute 1']), ('b', ['wait b', 'compute 7'])])

    def test_priorities(self) -> None:
        def priorities(text: str, *words: str) -> list[int]:
            return [row['priority'] for row in tomllib.loads(ran(text, *words).stdout)['thread']]
        text = 'name,work,period,deadline\na,1,10,9\nb,1,20,5\nc,1,10,7\n'
        self.assertEqual(priorities(text), [3, 1, 2])
        self.assertEqual(priorities(text, '--priorities', 'deadline'), [1, 3, 2])
        given = 'name,work,period,priority\na,1,10,7\nb,1,20,200\n'
        self.assertEqual(priorities(given), [7, 200])
        self.assertEqual(priorities(given, '--priorities', 'rate'), [2, 1])


class Responses(unittest.TestCase):
    def test_from_the_release_on(self) -> None:
        # b is kept by a until 3, ends its first job at 6, a tick into its second period, and the second one at 9
        form = Form([Task('a', 3, 10, 10, 0, 2), Task('b', 3, 5, 5, 0, 1)], False)
        rows = '''
0 0 release a
0 0 release b
0 0 run a
3 0 round a 1 3
3 0 stop a spent 3 until 10
3 0 run b
6 0 round b 1 6
6 0 stop b spent 3 until 5
6 0 release b
6 0 run b
9 0 round b 2 3
9 0 stop b spent 3 until 10
'''.strip().splitlines()
        listener = Seen(form)
        Reading(systems.system_of(form.tables()), listener).read(rows, 10)
        listener.close(10)
        self.assertEqual(listener.greatest, {'a': 3, 'b': 6})

    def test_a_job_that_has_not_ended_counts_with_its_age(self) -> None:
        form = Form([Task('a', 5, 5, 5, 0, 2), Task('b', 3, 9, 9, 2, 1)], False)
        listener = Seen(form)
        Reading(systems.system_of(form.tables()), listener).read(['0 0 release a', '0 0 run a', '2 0 release b'], 20)
        listener.close(20)
        self.assertEqual(listener.greatest['b'], 18)


class Random(unittest.TestCase):
    def test_the_same_words_give_the_same_list(self) -> None:
        words = ('--random', '6', '--utilisation', '0.8', '--list', '--seed')
        first, again, other = (worked.ran('tasks', tasks.main, *words, seed).stdout for seed in (3, 3, 4))
        self.assertEqual(first, again)
        self.assertNotEqual(first, other)
        made = tasks.random_tasks(6, 0.8, 3, (10, 1000))
        self.assertTrue(all(10 <= task.period <= 1000 and 1 <= task.work <= task.period for task in made))

    def test_shares_sum_to_the_total(self) -> None:
        shares = list(tasks.uunifast(9, 0.75, random.Random(5)))
        self.assertEqual(len(shares), 9)
        self.assertAlmostEqual(sum(shares), 0.75)
        self.assertTrue(all(share >= 0 for share in shares))


class Refused(unittest.TestCase):
    def test_lists(self) -> None:
        for text, wanted in (
            ('', 'tasks.csv:1: the column name is missing: the first line names the columns'),
            ('name,work,period\n', 'tasks.csv: there is no task'),
            ('name,wok,period\n', "tasks.csv:1: the column 'wok' is none of name, work, period, deadline, offset, priority, core"),
            ('name,work,period,work\n', 'tasks.csv:1: a column is there twice'),
            ('name,work,period\na,1\n', 'tasks.csv:2: 2 cells for 3 columns'),
            ('name,work,period\na,0,4\n', "tasks.csv:2: work '0' of a is no number of 1 to 1099511627776"),
            ('name,work,period\na,1.5,4\n', "tasks.csv:2: work '1.5' of a is no number of 1 to 1099511627776"),
            ('name,work,period\n\na,5,4\n', 'tasks.csv:3: work 5 of a is above its period 4'),
            ('name,work,period\na b,1,4\n', "tasks.csv:2: the name 'a b' is none of mcsim, which has 1 to 32 of A-Z a-z 0-9 _ -"),
            (THREE + 'a,1,4\n', 'tasks.csv:5: the name a is used twice'),
            ('name,work,period,priority\na,1,4,256\n', "tasks.csv:2: priority '256' of a is no number of 0 to 255"),
            ('name,work,period,priority\na,1,4,9\nb,1,4,\n', 'b has no priority: give one to each task, or --priorities rate or deadline'),
        ):
            self.assertEqual(ran(text), (2, '', f'tasks: {wanted}\n'))

    def test_long_numbers(self) -> None:
        self.assertEqual(ran(f'name,work,period\na,1,{"9" * 5000}\n').status, 2)
        far = 'tasks: the answer needs more than 2^40 ticks: --horizon N says how long the run is to be\n'
        self.assertEqual(ran(f'name,work,period\na,{2**40},{2**40}\n', '--analyse'), (2, '', far))
        self.assertEqual(ran('name,work,period,offset\n' + ''.join(f'a{place},1,{2**40 - place},{place}\n' for place in range(99)), '--analyse'), (2, '', far))
        told = ran(f'name,work,period,priority\na,{2**38 - 1},{2**39},2\nb,1,2,1\n', '--analyse', '--horizon', '9')
        self.assertEqual(told, (2, '', 'tasks: the analysis of these tasks adds up more than 10,000,000 terms: shorter busy stretches have fewer\n'))

    def test_words(self) -> None:
        self.assertEqual(ran(THREE, '--random', 3), (2, '', 'tasks: one of TASKS.csv and --random N is wanted\n'))
        self.assertEqual(ran(THREE, '--clocks', '--utilisation', '1.5').stderr,
                         "tasks: argument --utilisation: '1.5' is no utilisation above 0, of at most 1\n")
        self.assertEqual(ran('name,work,period\na,4,4\n', '--clocks').stderr, 'tasks: work 4 of a and a call are above its period 4\n')


if __name__ == '__main__':
    unittest.main()
