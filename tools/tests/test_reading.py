"""What a reading tells of rows. The expected values follow from the rules by hand."""
from __future__ import annotations

import unittest

from worked import BUSY, BUSY_ROWS, HANDLERS, HANDLERS_ROWS, LOOP, LOOP_ROWS, ONE, ONE_ROWS, PAIR, PAIR_ROWS, TAKEN, TAKEN_ROWS, heard, system
from mcsim_tools.faults import Fault
from mcsim_tools.reading import BLOCKED, DONE, HELD, LOST, MERGED, PENDING, READY, RUNNING, THROTTLED, WOKE

STARVED = '''
version = 1
cores = 1
delay = 1
context = [{ name = "h", core = 0, budget = 9, period = 9 }, { name = "c", core = 0, budget = 9, period = 9 }]
thread = [
    { name = "Hog", context = "h", priority = 9, script = ["compute 100"] },
    { name = "Ctl", context = "c", priority = 5, start = 2, deadline = 5, script = ["compute 2"] },
]
'''
STARVED_ROWS = '0 0 release Hog\n0 0 run Hog\n2 0 release Ctl'
WAITS = '''
version = 1
cores = 1
delay = 1
context = [{ name = "a", core = 0, budget = 3, period = 10 }]
note = [{ name = "n", core = 0 }]
thread = [{ name = "W", context = "a", priority = 9, deadline = 5, script = ["wait n", "compute 2"] }]
'''
WAITS_ROWS = '0 0 release W\n0 0 run W\n1 0 stop W wait 1'
# woken at 5 with nothing left: the budget that was used from 0 on comes back at 20
SPENT = '''
version = 1
cores = 2
delay = 1
context = [{ name = "a", core = 0, budget = 2, period = 20 }, { name = "d", core = 1, budget = 9, period = 9 }]
note = [{ name = "n", core = 0 }]
thread = [
    { name = "A", context = "a", priority = 9, script = ["compute 1", "wait n", "compute 1"] },
    { name = "D", context = "d", priority = 9, rounds = 1, script = ["compute 3", "signal n 1"] },
]
'''
SPENT_ROWS = '''
0 0 release A
0 0 run A
0 1 release D
0 1 run D
2 0 stop A wait 2
4 1 signal D n 1
4 1 round D 1 4
4 1 stop D done 4
5 0 arrive n 1 from 1
5 0 wake A n 1
'''
# of the word 6 that n holds at first the handler of badge 2 alone takes a bit
FIRST_WORD = '''
version = 3
cores = 1
delay = 1
context = [{ name = "w", core = 0, budget = 5, period = 20 }]
note = [{ name = "n", core = 0, word = 6 }]
thread = [{ name = "W", context = "w", priority = 5, deadline = 2, script = ["wait n", "on 1", "compute 1", "on 2", "compute 2"] }]
'''
FIRST_WORD_ROWS = '''
0 0 release W
0 0 run W
1 0 got W n 6
3 0 round W 1 2
4 0 stop W wait 4
'''
# nobody takes the badge of k, and of s in the second half
NOBODY = '''
version = 3
cores = 1
delay = 1
context = [{ name = "d", core = 0, budget = 9, period = 20 }]
note = [{ name = "n", core = 0 }]
thread = [{ name = "D", context = "d", priority = 5, deadline = 5, script = ["wait n", "on 1", "compute 2", "on 2", "on 8", "compute 1"] }]
source = [
    { name = "k", note = "n", badge = 4, period = 10, start = 2, count = 1 },
    { name = "e", note = "n", badge = 2, period = 10, start = 4, count = 1 },
    { name = "s", note = "n", badge = 1, period = 10, start = 6, count = 1 },
]
'''
NOBODY_ROWS = '''
0 0 release D
0 0 run D
1 0 stop D wait 1
2 0 interrupt k n 4
2 0 wake D n 4
2 0 run D
3 0 stop D wait 1
4 0 interrupt e n 2
4 0 wake D n 2
4 0 run D
5 0 stop D wait 1
6 0 interrupt s n 1
6 0 wake D n 1
6 0 run D
8 0 round D 1 2
9 0 stop D wait 3
'''
# the same devices while D has not begun
HELD_ROWS = '''
2 0 interrupt k n 4
2 0 hold n 4
4 0 interrupt e n 2
4 0 hold n 6
6 0 interrupt s n 1
6 0 hold n 7
'''
ORDERED = '''
version = 1
cores = 1
delay = 1
context = [{ name = "a", core = 0, budget = 4, period = 10 }]
thread = [{ name = "A", context = "a", priority = 9, script = ["compute 100"] }]
order = [{ at = 3, core = 0, context = "a", budget = 3, period = 8 }]
'''


class Standings(unittest.TestCase):
    def stands(self, text: str, rows: str, horizon: int, name: str) -> list[tuple[int, int, int]]:
        return [(one.standing, one.begin, one.end) for one in heard(text, rows, horizon)[0].stands if one.thread.name == name]

    def test_each_tick_has_one_standing(self) -> None:
        wanted = [(RUNNING, 0, 2), (THROTTLED, 2, 5), (RUNNING, 5, 7), (THROTTLED, 7, 10), (RUNNING, 10, 11), (DONE, 11, 14)]
        self.assertEqual(self.stands(ONE, ONE_ROWS, 14, 'A'), wanted)

    def test_it_ends_at_the_horizon(self) -> None:
        self.assertEqual(self.stands(ONE, ONE_ROWS, 6, 'A'), [(RUNNING, 0, 2), (THROTTLED, 2, 5), (RUNNING, 5, 6)])

    def test_without_a_horizon_it_ends_with_the_rows(self) -> None:
        self.assertEqual(heard(ONE, ONE_ROWS, None)[1].end, 11)

    def test_a_wait_blocks(self) -> None:
        self.assertEqual(self.stands(WAITS, WAITS_ROWS, 4, 'W'), [(RUNNING, 0, 1), (BLOCKED, 1, 4)])

    def test_a_woken_thread_without_budget_is_throttled_at_once(self) -> None:
        self.assertEqual(self.stands(SPENT, SPENT_ROWS, 8, 'A'), [(RUNNING, 0, 2), (BLOCKED, 2, 5), (THROTTLED, 5, 8)])

    def test_a_woken_thread_with_budget_is_ready(self) -> None:
        more = SPENT.replace('budget = 2', 'budget = 3')
        self.assertEqual(self.stands(more, SPENT_ROWS, 8, 'A'), [(RUNNING, 0, 2), (BLOCKED, 2, 5), (READY, 5, 8)])


    def test_a_call_of_a_server_that_is_taken_blocks(self) -> None:
        self.assertEqual(self.stands(TAKEN, TAKEN_ROWS, 24, 'H'), [(PENDING, 0, 4), (RUNNING, 4, 5), (BLOCKED, 5, 21), (RUNNING, 21, 24)])
        whys = [one.why for one in heard(TAKEN, TAKEN_ROWS, 24)[0].stands if one.standing == BLOCKED]
        self.assertEqual(whys, ['call'])

    def test_a_thread_that_runs_enters_and_leaves_and_goes_on(self) -> None:
        wanted = [(RUNNING, 0, 3), (THROTTLED, 3, 10), (RUNNING, 10, 13), (THROTTLED, 13, 20), (RUNNING, 20, 21), (DONE, 21, 24)]
        self.assertEqual(self.stands(TAKEN, TAKEN_ROWS, 24, 'L'), wanted)

    def test_a_thread_that_is_let_in_may_wait_for_budget(self) -> None:
        # H has used its only tick at 5, which comes back at 104; L leaves at 21
        few = TAKEN.replace('budget = 20, period = 100', 'budget = 1, period = 100')
        rows = TAKEN_ROWS.replace('21 0 run H', '')
        self.assertEqual(self.stands(few, rows, 24, 'H')[2:], [(BLOCKED, 5, 21), (THROTTLED, 21, 24)])

    def test_contexts_of_version_3_are_in_bandwidth_mode_unless_they_say_otherwise(self) -> None:
        text = 'version = 3\ncores = 1\ndelay = 1\n[[context]]\nname = "a"\ncore = 0\nbudget = 2\nperiod = 5\n'
        for given, wanted in ((text, True), (text + 'mode = "sporadic"', False), (text.replace('budget = 2', 'budget = 5'), False),
                              (text.replace('version = 3', 'version = 2'), False), (text.replace('version = 3', 'version = 2') + 'mode = "bandwidth"', True)):
            self.assertEqual(system(given).contexts['a'].is_bandwidth, wanted, given)

    def test_in_bandwidth_mode_the_choice_unblocks(self) -> None:
        # woken at 4 and chosen at 6: in bandwidth mode the two ticks that are left move to 6, else to 4
        text = '''
version = 3
cores = 1
delay = 1
context = [{ name = "a", core = 0, budget = 3, period = 20 }, { name = "h", core = 0, budget = 9, period = 9 }]
note = [{ name = "n", core = 0 }]
thread = [
    { name = "A", context = "a", priority = 5, script = ["wait n", "compute 1"] },
    { name = "H", context = "h", priority = 9, start = 3, rounds = 1, script = ["compute 3"] },
]
source = [{ name = "s", note = "n", badge = 1, period = 20, start = 4 }]
'''
        rows = '0 0 release A\n0 0 run A\n1 0 stop A wait 1\n3 0 release H\n3 0 run H\n4 0 interrupt s n 1\n4 0 wake A n 1\n6 0 round H 1 3\n' \
               '6 0 stop H done 3\n6 0 run A'
        for mode, wanted in (('', [[6, 2], [20, 1]]), (', mode = "sporadic"', [[4, 2], [20, 1]])):
            listener, _ = heard(text.replace('period = 20 }, {', f'period = 20{mode} }}, {{'), rows, 7, ('A',))
            self.assertEqual(listener.holdings[-1], (6, wanted, True), mode)


class Rounds(unittest.TestCase):
    def rounds(self, text: str, rows: str, horizon: int) -> list[tuple[str, int, int, int, bool]]:
        return [(one.thread.name, one.number, one.activated, one.response, one.is_missed) for one in heard(text, rows, horizon)[0].rounds]

    def test_one_that_begins_at_the_start(self) -> None:
        self.assertEqual(self.rounds(ONE, ONE_ROWS, 20), [('A', 1, 0, 11, True)])

    def test_at_the_deadline_itself_nothing_is_missed(self) -> None:
        self.assertEqual(self.rounds(ONE.replace('deadline = 10', 'deadline = 11'), ONE_ROWS, 20), [('A', 1, 0, 11, False)])

    def test_after_a_yield_the_release_activates(self) -> None:
        self.assertEqual(self.rounds(LOOP, LOOP_ROWS, 20), [('Loop', 1, 0, 3, False), ('Loop', 2, 10, 3, False)])

    def test_a_held_word_activates_when_it_was_first_set(self) -> None:
        # the first word comes at 3; the word that the second round takes was 0 until 4, and bits were added at 5
        own = [one for one in self.rounds(PAIR, PAIR_ROWS, 12) if one[0] == 'W']
        self.assertEqual(own, [('W', 1, 3, 3, False), ('W', 2, 4, 6, True)])

    def test_the_third_round_is_open(self) -> None:
        listener, _ = heard(PAIR, PAIR_ROWS, 12)
        self.assertEqual([(one.thread.name, one.activated, one.begun, one.is_overdue) for one in listener.open], [('W', 7, 11, True)])

    def test_overdue_at_the_deadline_itself(self) -> None:
        for horizon, wanted in ((6, False), (7, True), (8, True)):
            listener, _ = heard(STARVED, STARVED_ROWS, horizon)
            self.assertEqual([one.is_overdue for one in listener.open if one.thread.name == 'Ctl'], [wanted])

    def test_a_word_that_nobody_takes(self) -> None:
        # up to 6 the word of 4 is held, and no round has taken it; the deadline of W is 4
        rows = ''.join(f'{line}\n' for line in PAIR_ROWS.split('\n') if line and int(line.split()[0]) <= 6)
        for horizon, wanted in ((7, []), (8, [('n', ['W'], 3, 4)])):
            listener, _ = heard(PAIR, rows, horizon)
            self.assertEqual((listener.open, listener.nevers, listener.words), ([], [], wanted))
        # without its deadline, or with a wait more, nothing is due
        for text in (PAIR.replace('deadline = 4, ', ''), PAIR.replace('"compute 3"', '"compute 2", "wait n", "compute 1"')):
            self.assertEqual(heard(text, rows, 8)[0].words, [])

    def test_others_that_take_words_leave_a_thread_idle(self) -> None:
        # V waits for the words of W and is given none
        text = PAIR.replace('{ name = "d",', '{ name = "v", core = 0, budget = 1, period = 9 }, { name = "d",').replace(
            '    { name = "D"', '    { name = "V", context = "v", priority = 4, deadline = 9, script = ["wait n", "compute 1"] },\n    { name = "D"')
        self.assertEqual(heard(text, PAIR_ROWS, 11)[0].nevers, [])
        self.assertEqual(heard(text, '', 2)[0].nevers, ['W', 'V'])

    def test_never(self) -> None:
        self.assertEqual(heard(WAITS, WAITS_ROWS, 9)[0].nevers, ['W'])
        self.assertEqual(heard(STARVED, STARVED_ROWS, 9)[0].nevers, [])
        self.assertEqual(heard(STARVED, STARVED_ROWS.rpartition('\n')[0], 1)[0].nevers, ['Ctl'])
        # released at the horizon itself, it is ready then, and in no tick
        listener, _ = heard(STARVED, STARVED_ROWS, 2)
        self.assertEqual((listener.nevers, [one.thread.name for one in listener.open]), ([], ['Hog']))

    def test_a_handler_s_round_is_activated_by_its_word(self) -> None:
        # the second word was held at 2, and taken at 5
        self.assertEqual(self.rounds(HANDLERS, HANDLERS_ROWS, 12), [('D', 1, 2, 2, False), ('D', 2, 2, 6, True)])
        self.assertEqual([(one.activated, one.begun) for one in heard(HANDLERS, HANDLERS_ROWS, 12)[0].open], [(12, 12)])

    def test_bits_that_no_handler_takes_activate_nothing(self) -> None:
        # from 3 on the word has the bit of k alone; that of s is set at 4
        self.assertEqual(self.rounds(BUSY, BUSY_ROWS, 13), [('D', 1, 2, 5, False), ('D', 2, 4, 9, True)])
        self.assertEqual(heard(BUSY, BUSY_ROWS, 13)[0].open, [])

    def test_words_that_no_handler_takes_begin_no_round(self) -> None:
        self.assertEqual(self.rounds(NOBODY, NOBODY_ROWS, 9), [('D', 1, 6, 2, False)])
        up_to_5 = NOBODY_ROWS[:NOBODY_ROWS.index('6 0')]
        listener, _ = heard(NOBODY, up_to_5, 5)
        self.assertEqual((listener.rounds, listener.open, listener.nevers), ([], [], ['D']))

    def test_a_held_word_activates_no_round(self) -> None:
        later = NOBODY.replace('priority = 5', 'start = 20, priority = 5')
        listener, _ = heard(later, HELD_ROWS[:HELD_ROWS.index('6 0')], 5)
        self.assertEqual((listener.open, listener.nevers), ([], ['D']))
        # the word of 6 is for D, which has a deadline and has not come to its wait
        listener, _ = heard(later, HELD_ROWS, 12)
        self.assertEqual((listener.open, listener.nevers), ([], ['D']))
        self.assertEqual([since for *_, since in listener.words], [6])

    def test_a_word_is_set_by_the_first_bit_that_any_waiter_has_something_to_do_for(self) -> None:
        text = '''
version = 3
cores = 1
delay = 1
context = [{ name = "a", core = 0, budget = 9, period = 9 }, { name = "b", core = 0, budget = 9, period = 9 }]
note = [{ name = "n", core = 0 }]
thread = [
    { name = "A", context = "a", priority = 5, start = 5, script = ["wait n", "on 1", "compute 2"] },
    { name = "B", context = "b", priority = 4, start = 20, script = ["wait n", "on 2", "compute 1"] },
]
source = [{ name = "s", note = "n", badge = 2, period = 50, start = 3 }, { name = "k", note = "n", badge = 1, period = 50, start = 4 }]
'''
        rows = '3 0 interrupt s n 2\n3 0 hold n 2\n4 0 interrupt k n 1\n4 0 hold n 3\n5 0 release A\n5 0 run A\n6 0 got A n 3\n8 0 round A 1 2'
        self.assertEqual([one[2] for one in self.rounds(text, rows, 8)], [3])
        # without B nobody has something to do for the first bit
        alone = text.replace('"on 2", "compute 1"', '"on 4", "compute 1"')
        self.assertEqual([one[2] for one in self.rounds(alone, rows, 8)], [4])

    def test_a_first_word_activates_at_0(self) -> None:
        self.assertEqual(self.rounds(FIRST_WORD, FIRST_WORD_ROWS, 9), [('W', 1, 0, 3, True)])
        # the bit 4 alone is nobody's
        self.assertEqual(heard(FIRST_WORD.replace('word = 6', 'word = 4'), '', 3)[0].nevers, ['W'])
        self.assertEqual(heard(FIRST_WORD, '', 3)[0].open, [])

    def test_which_bits_leave_something_to_do(self) -> None:
        for script, wanted in (
            ('"wait n", "compute 1"', None), ('"compute 1", "wait n", "compute 1"', None), ('"wait n", "compute 1", "on 4", "compute 1"', None),
            ('"wait n", "on 1", "compute 2", "on 2", "compute 3"', 3), ('"wait n", "on 1", "on 2", "compute 3", "on 4"', 2), ('"wait n", "on 3"', 0),
        ):
            text = NOBODY.replace('"wait n", "on 1", "compute 2", "on 2", "on 8", "compute 1"', script)
            self.assertEqual(system(text).threads['D'].bits, wanted, script)

    def test_calls_leave_rounds_as_they_are(self) -> None:
        self.assertEqual(self.rounds(TAKEN, TAKEN_ROWS, 24), [('L', 1, 0, 21, False)])
        self.assertEqual([(one.thread.name, one.activated, one.is_overdue) for one in heard(TAKEN, TAKEN_ROWS, 24)[0].open], [('H', 4, True)])

    def test_a_round_that_begins_at_the_horizon_is_not_activated(self) -> None:
        # no tick follows in which the thread could be ready or run
        rows = '0 0 release Hog\n0 0 run Hog\n100 0 round Hog 1 100'
        for horizon, activated in ((100, []), (101, [100])):
            self.assertEqual([one.activated for one in heard(STARVED, rows, horizon)[0].open if one.thread.name == 'Hog'], activated)


class Signals(unittest.TestCase):
    def test_each_is_joined_to_what_it_came_to(self) -> None:
        found = [(one.made, one.arrived, one.outcome) for one in heard(PAIR, PAIR_ROWS, 12)[0].posts]
        self.assertEqual(found, [(1, 3, WOKE), (2, 4, HELD), (3, 5, MERGED), (4, 6, LOST), (5, 7, HELD)])

    def test_maker_and_thread(self) -> None:
        first = heard(PAIR, PAIR_ROWS, 12)[0].posts[0]
        self.assertEqual([thread.name for thread in (first.maker, first.thread) if thread], ['D', 'W'])
        self.assertEqual((first.core, first.badge), (1, 1))

    def test_those_under_way_at_the_horizon(self) -> None:
        self.assertEqual(heard(PAIR, PAIR_ROWS, 4)[0].signals, ['n', 'n'])


    def test_interrupts(self) -> None:
        found = [(one.arrived, one.source, one.badge, one.outcome) for one in heard(BUSY, BUSY_ROWS, 13)[0].posts]
        self.assertEqual(found, [
            (2, 's', 1, WOKE), (3, 'k', 4, HELD), (4, 's', 1, MERGED), (6, 's', 1, LOST), (8, 's', 1, HELD), (10, 's', 1, LOST), (12, 's', 1, LOST),
        ])
        self.assertEqual({(one.maker, one.made == one.arrived, one.thread and one.thread.name) for one in heard(BUSY, BUSY_ROWS, 13)[0].posts}, {(None, True, 'D')})

    def test_a_signal_behind_an_interrupt_has_its_maker(self) -> None:
        rows = PAIR_ROWS.replace('4 0 arrive n 1 from 1', '4 0 interrupt i n 8\n4 0 hold n 8\n4 0 arrive n 1 from 1').replace('4 0 hold n 1', '4 0 hold n 9')
        listener, _ = heard(PAIR + 'source = [{ name = "i", note = "n", badge = 8, period = 50, start = 4 }]', rows, 4)
        self.assertEqual([(one.source, one.maker and one.maker.name, one.outcome) for one in listener.posts], [('', 'D', WOKE), ('i', None, HELD), ('', 'D', MERGED)])

    def test_who_waits_in_servers_and_handlers(self) -> None:
        notes = ', '.join(f'{{ name = "{name}", core = 0 }}' for name in 'abcd')
        text = f'''
version = 3
cores = 1
delay = 1
context = [{{ name = "l", core = 0, budget = 3, period = 10 }}, {{ name = "h", core = 0, budget = 3, period = 10 }}]
note = [{notes}]
server = [
    {{ name = "u", core = 0, priority = 1, script = ["wait a", "on 1", "wait b", "on 2", "wait c"] }},
    {{ name = "v", core = 0, priority = 1, script = ["call u 2"] }},
]
thread = [
    {{ name = "L", context = "l", priority = 1, script = ["wait d", "on 1", "call u 5", "on 2", "call v 1"] }},
    {{ name = "H", context = "h", priority = 1, script = ["call v 7"] }},
]
'''
        found = system(text)
        self.assertEqual({name: thread.waits for name, thread in found.threads.items()}, {'L': ('d', 'a', 'b', 'c'), 'H': ('a', 'c')})
        self.assertEqual({note: [thread.name for thread in threads] for note, threads in found.waiters.items()},
                         {'a': ['L', 'H'], 'b': ['L'], 'c': ['L', 'H'], 'd': ['L']})
        self.assertEqual([thread.activated_by for thread in found.threads.values()], ['d', None])

    def test_servers_may_call_each_other_as_deep_as_a_script_has_steps(self) -> None:
        deep = ', '.join(f'{{ name = "v{n}", core = 0, priority = 1, script = ["{f"call v{n - 1} 1" if n else "wait n"}"] }}' for n in range(511))
        found = system(NOBODY.replace('"wait n", "on 1", "compute 2", "on 2", "on 8", "compute 1"', '"call v510 1"') + f'server = [{deep}]')
        self.assertEqual(found.threads['D'].waits, ('n',))


class Budgets(unittest.TestCase):
    def test_what_a_context_holds(self) -> None:
        found = heard(ONE, ONE_ROWS, 12, ('A',))[0].holdings
        # at 2 the 2 ticks of 0 and 1 leave, and come back at 5; at 7 those of 5 and 6, at 10; at 11 one tick of 10, at 15
        self.assertEqual(found[:4], [(0, [[0, 2]], False), (0, [[0, 2]], True), (2, [[5, 2]], False), (5, [[5, 2]], True)])
        self.assertEqual(found[-1], (11, [[11, 1], [15, 1]], False))

    def test_an_order_cuts_the_head_and_puts_the_rest_at_the_end(self) -> None:
        # 3 ticks in use are charged by the old configuration: one is left at 3, and 2 lack, which stand before 3 + 8
        rows = '0 0 release A\n0 0 run A\n3 0 order a\n3 0 stop A order 3\n3 0 run A'
        listener, _ = heard(ORDERED, rows, 4, ('A',))
        self.assertEqual(listener.orders, [('a', 3)])
        self.assertEqual(listener.holdings[-1], (3, [[3, 1], [9, 2]], True))

    def test_dates_that_do_not_follow_are_refused(self) -> None:
        with self.assertRaisesRegex(Fault, 'line 3 is no row of a schedule of this system: 2 0 stop A spent 2 until 6'):
            heard(ONE, ONE_ROWS.replace('until 5', 'until 6'), 20)


class NoSchedule(unittest.TestCase):
    def refused(self, rows: str, said: str) -> None:
        with self.assertRaisesRegex(Fault, said):
            heard(ONE, rows, 20)

    def test_lines_that_are_no_rows(self) -> None:
        self.refused('hello', 'line 1 is no row of a schedule of this system: hello')
        self.refused('0 0 release A\n\n0 0 run A', 'line 2 is no row of a schedule of this system: it is empty')
        self.refused('0 0 release', 'line 1 ')
        self.refused('x 0 release A', 'line 1 ')
        self.refused('0 0 release A\n0 0 run A\n2 0 stop A spent two until 5', 'line 3 ')

    def test_moments_that_fall(self) -> None:
        self.refused('5 0 release A\n4 0 run A', 'line 2 ')

    def test_names_that_the_system_has_not(self) -> None:
        self.refused('0 0 release B', 'line 1 ')

    def test_rows_that_no_thread_can_have(self) -> None:
        self.refused('0 0 run A', 'line 1 ')
        self.refused('0 0 release A\n0 0 stop A spent 2 until 5', 'line 2 ')
        self.refused('0 0 release A\n0 0 order a', 'line 2 ')
        # a reason that there is not, more ticks than the head has, a round that began before all
        self.refused('0 0 release A\n0 0 run A\n2 0 stop A bored 2', 'line 3 ')
        self.refused('0 0 release A\n0 0 run A\n3 0 stop A preempt 3', 'line 3 ')
        self.refused('0 0 release A\n0 0 run A\n2 0 round A 1 3', 'line 3 ')

    def test_rows_of_version_3_that_no_schedule_has(self) -> None:
        wrong = (
            # a server and a source that there are not, and another's notification
            (ONE, '0 0 release A\n0 0 run A\n1 0 enter A v', 3), (ONE, '0 0 interrupt s n 1', 1), (HANDLERS, '2 0 interrupt s m 1', 1),
            # who has left it, or is not in it; who enters one that is taken, or without a call, or does not run
            (TAKEN, TAKEN_ROWS.replace('21 0 enter H v', '21 0 leave L v'), 14), (TAKEN, TAKEN_ROWS.replace('21 0 leave L v', ''), 13),
            (TAKEN, TAKEN_ROWS.replace('10 0 release L', '10 0 enter L v'), 8), (TAKEN, '0 0 release L\n0 0 enter L v', 2),
            (TAKEN, TAKEN_ROWS.replace('5 0 stop H call 1', '5 0 stop H wait 1'), 14),
            # who waits for a server is woken by no signal
            (TAKEN + 'note = [{ name = "n", core = 0 }]', TAKEN_ROWS.replace('21 0 enter H v', '21 0 wake H n 1'), 14),
        )
        for text, rows, line in wrong:
            with self.assertRaisesRegex(Fault, f'line {line} is no row'):
                heard(text, rows, 40)

    def test_reports_are_passed_over(self) -> None:
        reports = 'thread A ran 3 rounds 0 least 0 greatest 0 total 0 late 0 spent 1 throttled 3 longest 3\ncore 0 busy 3 idle 3'
        self.assertEqual(heard(ONE, f'{ONE_ROWS}{reports}', 11)[1].count, 10)


if __name__ == '__main__':
    unittest.main()
