"""Bounds for the handlers of interrupts. What is expected was worked out by hand: each call, wait and signal takes a tick."""
from __future__ import annotations

import json
import pathlib
import tempfile
import tomllib
import unittest
from unittest import mock

import worked
from mcsim_tools import handling, tasks
from mcsim_tools.analysis import Effort, TooLong
from mcsim_tools.arrivals import Arrivals
from mcsim_tools.handlers import Bound, Handlers
from mcsim_tools.handling import Found, Handled

# words come once all threads wait
HEAD = 'version = 3\ncores = 2\ndelay = 3\n'
SLICES = ''.join(f'[[context]]\nname = "{name}"\ncore = {core}\nbudget = 50\nperiod = 50\n' for name, core in (('a', 0), ('b', 0), ('c', 0), ('y', 1), ('z', 1)))
NOTES = ''.join(f'[[note]]\nname = "{name}"\ncore = {core}\n' for name, core in (('a', 0), ('b', 0), ('c', 0), ('y', 1), ('z', 1)))
Row = tuple[str, int, list[str]]


def thread(name: str, priority: int, *script: str, keys: str = '', context: str = '') -> str:
    return f'[[thread]]\nname = "{name.upper()}"\ncontext = "{context or name}"\npriority = {priority}\nscript = {json.dumps(script)}\n{keys}\n'


def source(name: str, period: int, keys: str = '', note: str = '', badge: int = 1, start: int = 500) -> str:
    return f'[[source]]\nname = "{name}"\nnote = "{note or name}"\nbadge = {badge}\nperiod = {period}\nstart = {start}\n{keys}\n'


def server(name: str, priority: int, *script: str) -> str:
    return f'[[server]]\nname = "{name}"\ncore = 0\npriority = {priority}\nscript = {json.dumps(script)}\n'


def chain(thread: str, keys: str = '', source: str = 'b') -> str:
    return f'[[chain]]\nname = "e"\nsource = "{source}"\nthread = "{thread}"\n{keys}\n'


def bounds(*parts: str, contexts: str = SLICES) -> dict[str, Bound]:
    return {each.source: each for each in handling.bounds_of(tomllib.loads(HEAD + contexts + NOTES + ''.join(parts)))}


def most(*parts: str, contexts: str = SLICES) -> dict[str, int | None]:
    return {name: each.most for name, each in bounds(*parts, contexts=contexts).items()}


class Dates(unittest.TestCase):
    def test_one_date_in_a_period(self) -> None:
        each = Arrivals(10)
        self.assertEqual([each.most(window) for window in (0, 1, 10, 11, 21)], [0, 1, 1, 2, 3])
        self.assertEqual([each.apart(number) for number in (1, 2, 3)], [0, 10, 20])

    def test_two_dates_in_a_period(self) -> None:
        # 0, 3, 20, 23: from 3 to 23 there are 20 ticks, as from 0 to 20
        each = Arrivals(20, [0, 3])
        self.assertEqual([each.most(window) for window in (3, 4, 20, 21, 24)], [1, 2, 2, 3, 4])
        self.assertEqual([each.apart(number) for number in (2, 3, 4)], [3, 20, 23])

    def test_the_closest_dates_may_be_of_two_periods(self) -> None:
        self.assertEqual(Arrivals(20, [1, 18]).apart(2), 3)

    def test_jitter_brings_them_together(self) -> None:
        each = Arrivals(10).later(3).later(1)
        # the first one is 4 late, and the second one is not
        self.assertEqual([each.most(window) for window in (1, 6, 7, 16, 17)], [1, 1, 2, 2, 3])
        self.assertEqual([each.apart(number) for number in (1, 2, 3)], [0, 6, 16])
        self.assertEqual(Arrivals(10).later(12).most(1), 2)

    def test_a_count_ends_them(self) -> None:
        each = Arrivals(10, [0, 2], 5, 3)
        self.assertEqual((each.earliest, each.most(3), each.most(1000), each.rate), (5, 2, 3, 0))


class Responses(unittest.TestCase):
    def test_a_handler_alone_takes_its_own_work(self) -> None:
        loop = thread('a', 5, 'wait a', 'compute 1', 'on 1', 'compute 5', 'on 2', 'compute 9')
        self.assertEqual(most(loop, source('a', 100)), {'a': 6})

    def test_an_interrupt_may_come_before_the_thread_waits(self) -> None:
        self.assertEqual(most(thread('a', 5, 'wait a', 'compute 5'), source('a', 100, start=0)), {'a': 6})

    def test_higher_priorities_preempt_and_then_wait(self) -> None:
        # 7 and 4 of each 10: 11, 15, 15; A alone takes 3
        threads = thread('a', 9, 'wait a', 'compute 3') + thread('b', 5, 'wait b', 'compute 7')
        self.assertEqual(most(threads, source('a', 10), source('b', 100)), {'a': 3, 'b': 15})

    def test_equal_priorities_count_as_above_each_other(self) -> None:
        threads = thread('a', 5, 'wait a', 'compute 3') + thread('b', 5, 'wait b', 'compute 7')
        self.assertEqual(most(threads, source('a', 50), source('b', 50)), {'a': 11, 'b': 11})

    def test_another_badge_may_have_the_thread_first(self) -> None:
        # 3 for badge 2, a wait, and 4 for badge 1; the other way round 4, a wait, and 3
        loop = thread('a', 5, 'wait a', 'on 1', 'compute 4', 'on 2', 'compute 3')
        self.assertEqual(most(loop, source('a', 100), source('k', 100, note='a', badge=2)), {'a': 8, 'k': 8})

    def test_badges_of_one_word_are_handled_in_one_job(self) -> None:
        # k comes with a, and first: 2 and a wait. At 3 the word has a and the second k: 5 + 2
        loop = thread('a', 5, 'wait a', 'on 1', 'compute 5', 'on 2', 'compute 2')
        self.assertEqual(most(loop, source('a', 100), source('k', 100, 'at = [0, 1]', note='a', badge=2))['a'], 10)

    def test_a_burst_waits_for_the_jobs_before_it(self) -> None:
        # the second one comes at 1, is taken at 6, and ends at 11
        self.assertEqual(most(thread('a', 5, 'wait a', 'compute 5'), source('a', 50, 'at = [0, 1]')), {'a': 10})
        # those of 2 and 3 find the word of the second one
        self.assertEqual(most(thread('a', 5, 'wait a', 'compute 5'), source('a', 50, 'at = [0, 1, 2, 3]')), {'a': 10})

    def test_handlers_of_several_badges_are_gone_through_once(self) -> None:
        # badge 2 comes first: 4, a wait, and 4 again
        loop = thread('a', 5, 'wait a', 'on 3', 'compute 4')
        self.assertEqual(most(loop, source('a', 100), source('k', 100, note='a', badge=2)), {'a': 9, 'k': 9})

    def test_budgets_bound_a_guest_of_higher_priority(self) -> None:
        # the first wait may be to come, since the guest never settles: 1 + 5, and 2 of each 10 makes 8
        contexts = SLICES.replace('"b"\ncore = 0\nbudget = 50\nperiod = 50', '"b"\ncore = 0\nbudget = 2\nperiod = 10')
        parts = thread('a', 5, 'wait a', 'compute 5') + thread('b', 9, 'spin') + source('a', 100)
        self.assertEqual(most(parts, contexts=contexts), {'a': 8})
        self.assertEqual(bounds(parts)['a'].why, 'B computes without end')


class InServers(unittest.TestCase):
    def test_one_section_of_a_lower_priority_delays(self) -> None:
        # B has just entered: 5 and the leaving, then A takes 1 + 5 + 1 + 1. B itself takes 7, and A and its wait 9
        parts = server('v', 40, 'compute 5') + thread('a', 30, 'wait a', 'call v 1', 'compute 1') + thread('b', 10, 'wait b', 'call v 1')
        found = bounds(parts, source('a', 100), source('b', 100))
        self.assertEqual([(each.most, each.blocking) for each in found.values()], [(14, 6), (16, 0)])

    def test_of_two_sections_the_longer_one_counts(self) -> None:
        # 8 and the leaving of w; A itself computes 2 and calls nothing
        parts = server('v', 40, 'compute 5') + server('w', 40, 'on 1', 'compute 3', 'on 2', 'compute 8') + thread('a', 30, 'wait a', 'compute 2')
        lower = thread('b', 10, 'wait b', 'call v 1', 'call w 1') + thread('c', 5, 'wait c', 'call w 2')
        self.assertEqual(bounds(parts, lower, source('a', 100), source('b', 100), source('c', 100))['a'][3:6], (11, '', 9))

    def test_a_server_below_the_priority_delays_by_the_call_within_it_alone(self) -> None:
        # in w B has priority 20: A preempts that, but not v: 5 and the leaving
        parts = server('v', 40, 'compute 5') + server('w', 20, 'compute 9', 'call v 1', 'compute 9')
        threads = thread('a', 30, 'wait a', 'compute 2') + thread('b', 10, 'wait b', 'call w 1')
        self.assertEqual(most(parts, threads, source('a', 100), source('b', 100))['a'], 8)

    def test_a_server_at_the_priority_of_a_caller_is_a_ceiling(self) -> None:
        parts = server('v', 30, 'compute 5') + thread('a', 30, 'wait a', 'call v 1') + thread('b', 10, 'wait b', 'call v 1')
        self.assertEqual(most(parts, source('a', 100), source('b', 100))['a'], 13)

    def test_a_server_below_a_caller_is_no_ceiling(self) -> None:
        parts = server('v', 20, 'compute 5') + thread('a', 30, 'wait a', 'call v 1') + thread('b', 10, 'wait b', 'call v 1')
        found = bounds(parts, source('a', 100), source('b', 100))
        self.assertEqual({each.why for each in found.values()}, {'A calls v at priority 30, which is above that of v'})


class BySignals(unittest.TestCase):
    def test_jitter_goes_with_signals(self) -> None:
        # B takes 3, or 14 if A is first, so its signals may be 11 closer than 20 ticks. Y takes 5 with its wait, and two of them come while Z takes 6:
        # 6, 11, 16
        threads = thread('a', 9, 'wait a', 'compute 10') + thread('b', 5, 'wait b', 'compute 2', 'signal y 1')
        others = thread('y', 9, 'wait y', 'compute 4') + thread('z', 5, 'wait z', 'compute 6')
        self.assertEqual(most(threads, others, source('a', 100), source('b', 20), source('z', 100)), {'a': 10, 'b': 14, 'z': 16})

    def test_a_circle_has_no_bound(self) -> None:
        threads = thread('a', 9, 'wait a', 'signal b 1') + thread('b', 5, 'wait b', 'signal a 1')
        self.assertIn(bounds(threads, source('a', 100))['a'].why, ('signals go in a circle: A to B to A', 'signals go in a circle: B to A to B'))

    def test_an_answer_with_another_badge_is_no_circle(self) -> None:
        # A signals B, which answers with badge 2, for which A has a tick of work: A, its wait, and an answer to the interrupt before
        threads = thread('a', 9, 'wait a', 'on 1', 'compute 2', 'signal b 1', 'on 2', 'compute 1') + thread('b', 5, 'wait b', 'compute 2', 'signal a 2')
        self.assertEqual(most(threads, source('a', 100)), {'a': 5})

    def test_a_thread_that_runs_without_words_signals_as_often_as_it_likes(self) -> None:
        threads = thread('a', 9, 'wait a', 'compute 1') + thread('b', 5, 'compute 2', 'signal a 2')
        self.assertEqual(bounds(threads, source('a', 100))['a'].why, 'B signals A: B runs without a wait')


class OfChains(unittest.TestCase):
    # B takes 3, or 14 if A is first; its signal is under way for 3
    threads = thread('a', 9, 'wait a', 'compute 10') + thread('b', 5, 'wait b', 'compute 2', 'signal y 1')
    sources = source('a', 100) + source('b', 20)

    def test_bounds_of_the_jobs_and_delays_add_up(self) -> None:
        last = thread('y', 9, 'wait y', 'compute 4')
        found = bounds(self.threads, last, self.sources, chain('Y', 'deadline = 30'))['chain.e']
        self.assertEqual((found.most, found.deadline), (14 + 3 + 4, 30))
        link = '[[link]]\nmaker = 0\nhome = 1\ndelay = 9\n'
        self.assertEqual(most(self.threads, last, self.sources, chain('Y'), link)['chain.e'], 14 + 9 + 4)

    def test_of_two_ways_the_shorter_one_counts(self) -> None:
        # B signals Y before it signals C on its own core. C takes 6 then, and signals Y too, whose job for badge 2 takes 1
        threads = thread('b', 5, 'wait b', 'signal y 1', 'signal c 1') + thread('c', 4, 'wait c', 'compute 5', 'signal y 2')
        last = thread('y', 9, 'wait y', 'on 1', 'compute 40', 'on 2', 'compute 1')
        sources = source('b', 500)
        # after the job for badge 1 and its wait, that for badge 2 takes 1, and the other way round 2 and 40
        self.assertEqual(most(threads, last, sources, chain('Y', 'badges = 1'))['chain.e'], 2 + 3 + 42)
        self.assertEqual(most(threads, last, sources, chain('Y', 'badges = 2'))['chain.e'], 2 + 9 + 3 + 42)
        self.assertEqual(most(threads, last, sources, chain('Y'))['chain.e'], 2 + 3 + 42)

    def test_reasons(self) -> None:
        last = thread('y', 9, 'wait y', 'compute 4')
        self.assertEqual(bounds(self.threads, last, self.sources, chain('A'))['chain.e'].why, 'no handlers pass interrupts of b on to A')
        yields = thread('y', 9, 'wait y', 'compute 4', 'yield')
        self.assertEqual(bounds(self.threads, yields, self.sources, chain('Y'))['chain.e'].why, 'Y yields')


class Budgets(unittest.TestCase):
    def found(self, keys: str, period: int = 20) -> Bound:
        context = f'[[context]]\nname = "a"\ncore = 0\nperiod = 20\n{keys}\n'
        return bounds(thread('a', 5, 'wait a', 'compute 5'), source('a', period), contexts=context)['a']

    def test_in_mode_sporadic_the_need_of_a_job_is_enough(self) -> None:
        self.assertEqual(self.found('budget = 6\nmode = "sporadic"').most, 5)
        # one job may run late, and the next one early: the second one has to find its budget
        self.assertEqual(self.found('budget = 5\nmode = "sporadic"').why, 'the budget of A may be exhausted: 12 ticks may be used in a period, and it has 5')
        self.assertEqual(self.found('budget = 6\nmode = "sporadic"', 19).why, 'the budget of A may be exhausted: 12 ticks may be used in a period, and it has 6')

    def test_a_minimum_budget_moves_refills(self) -> None:
        parts = thread('a', 5, 'wait a', 'compute 5') + source('a', 100) + '[[context]]\nname = "a"\ncore = 0\nbudget = 20\nperiod = 50\n'
        found = Handlers(tomllib.loads('min_budget = 2\n' + HEAD + NOTES + parts)).run()
        self.assertEqual(found[0].why, 'the budget of A may be exhausted: min_budget is 2')

    def test_in_mode_bandwidth_the_whole_budget_has_to_be_back(self) -> None:
        # a job and its wait take 6, so 20 ticks after them is 26 after the interrupt
        self.assertEqual([self.found('budget = 6', period).most for period in (25, 26)], [None, 5])

    def test_refills_are_as_many_as_the_pieces_of_a_period(self) -> None:
        # two jobs in 26 ticks, each a piece
        why = 'the budget of A may be exhausted: 2 pieces may be used in a period, which takes 1 extra refills'
        self.assertEqual((self.found('budget = 12').why, self.found('budget = 12\nextra_refills = 1').most), (why, 5))

    def test_a_server_stops_with_the_budget_of_the_thread_inside(self) -> None:
        contexts = SLICES.replace('"b"\ncore = 0\nbudget = 50\nperiod = 50', '"b"\ncore = 0\nbudget = 4\nperiod = 50')
        parts = server('v', 40, 'compute 5') + thread('a', 30, 'wait a', 'call v 1') + thread('b', 10, 'wait b', 'call v 1')
        found = bounds(parts, source('a', 100), source('b', 100), contexts=contexts)
        self.assertEqual({each.why for each in found.values()}, {'the budget of B may be exhausted: 8 ticks may be used in a period, and it has 4'})


class WithoutBound(unittest.TestCase):
    def test_reasons(self) -> None:
        loop = thread('a', 5, 'wait a', 'compute 5')
        for parts, why in (
            (source('a', 100), 'no script begins with a wait for a'),
            (thread('a', 5, 'wait a', 'on 2', 'compute 1') + source('a', 100), 'A has nothing to do for badge 1'),
            (thread('a', 5, 'wait a', 'wait b', 'compute 1') + source('a', 100), 'A waits for b within its job'),
            (thread('a', 5, 'wait a', 'compute 1', 'yield') + source('a', 100), 'A yields'),
            (thread('a', 5, 'wait a', 'compute 1', keys='rounds = 3') + source('a', 100), 'A ends after 3 jobs'),
            (thread('a', 5, 'wait a', 'compute 1', keys='start = 9') + source('a', 100, start=8), 'A starts at 9, and its first word may come at 8'),
            (loop + thread('b', 5, 'wait a', 'compute 5') + source('a', 100), 'A waits for a too'),
            (loop + source('a', 6), 'threads of core 0 from priority 5 up ask for all of it or more'),
            (loop + source('a', 100) + '[[order]]\nat = 5\ncore = 0\ncontext = "b"\nbudget = 5\nperiod = 9\n', 'an order changes a context of its core'),
        ):
            self.assertEqual([each.why for each in bounds(parts).values()], [why])

    def test_an_analysis_that_is_too_long_is_given_up(self) -> None:
        # A comes each 5 ticks for as long as B keeps the core
        threads = thread('a', 5, 'wait a', 'compute 1') + thread('b', 9, 'wait b', f'compute {2**20}')
        tables = tomllib.loads(HEAD + SLICES + NOTES + threads + source('a', 5) + source('b', 2**21))
        with self.assertRaises(TooLong):
            Handlers(tables, Effort(10**4)).run()


class InARun(unittest.TestCase):
    def test_from_an_interrupt_to_the_end_of_the_job_that_takes_it(self) -> None:
        # the first one waits from 2 to 7, that of 4 from 4 to 13, and that of 8 still at 14. No handler takes the badge of k
        tables = tomllib.loads(worked.BUSY)
        self.assertEqual(Handled(Handlers(tables).jobs, tables['source']).read(worked.BUSY_ROWS.strip().splitlines(), 14), {'s': 9})

    def test_a_job_may_take_the_words_of_two_sources(self) -> None:
        tables = tomllib.loads(worked.HANDLERS)
        # k comes at 2 as well, and waits until 8
        self.assertEqual(Handled(Handlers(tables).jobs, tables['source']).read(worked.HANDLERS_ROWS.strip().splitlines(), 13), {'s': 2, 'k': 6})


class Tables(unittest.TestCase):
    def found(self) -> Found:
        parts = thread('a', 5, 'wait a', 'compute 5', keys='deadline = 9') + source('a', 100) + source('k', 100, note='c')
        return Found(list(bounds(parts).values()), {'a': 4})

    def test_forms(self) -> None:
        found = self.found()
        self.assertEqual(handling.table_of(found, 'csv'), '''source,thread,badge,core,priority,work,blocking,bound,seen,ratio,deadline,margin,why
a,A,1,0,5,5,0,5,4,0.800,9,4,none
k,none,1,none,none,none,none,none,none,none,none,none,no script begins with a wait for c
''')
        self.assertEqual(handling.table_of(found, 'text'), '''
source  thread  badge  core  priority  work  blocking  bound  seen  ratio  deadline  margin  why
a       A           1     0         5     5         0      5     4  0.800         9       4  none
k       none        1  none      none  none      none   none  none   none      none    none  no script begins with a wait for c
'''[1:])
        rows = [json.loads(line) for line in handling.table_of(found, 'json').splitlines()]
        self.assertEqual([(row['source'], row['ratio'], row['margin'], row['why']) for row in rows],
                         [('a', 0.8, 4, None), ('k', None, None, 'no script begins with a wait for c')])

    def test_a_run_above_a_bound_is_a_defect(self) -> None:
        found = self.found()
        self.assertEqual(found.defects(), [])
        self.assertEqual(found._replace(seen={'a': 6}).defects(), ['a: 6 was seen, and the bound is 5: please report this as a defect'])

    def test_a_system_without_interrupts_has_no_handlers(self) -> None:
        with tempfile.TemporaryDirectory() as folder, mock.patch('mcsim_tools.source.check'):
            path = pathlib.Path(folder, 'one.toml')
            path.write_text(worked.ONE)
            ended = worked.ran('tasks', tasks.main, '--handlers', path)
        self.assertEqual(ended, (2, '', f'tasks: {path}: there is no source, so there is no handler of an interrupt\n'))

    def test_options(self) -> None:
        ended = worked.ran('tasks', tasks.main, '--handlers', 'x.toml', '--clocks')
        self.assertEqual(ended, (2, '', 'tasks: --handlers analyses a system, and takes no --clocks\n'))


if __name__ == '__main__':
    unittest.main()
