"""The package, on systems whose schedules were worked by hand from docs/FORMAT.md and docs/CHECK.md."""
from __future__ import annotations

import concurrent.futures
import dataclasses
import importlib
import pathlib
import tempfile
import unittest
from collections.abc import Callable
from typing import Any, Union, cast

import mcsim
from mcsim import explained, forever, library, rows, verdict

# A job of `H` takes 3 ticks and its wait 1. The tick at 0 is pending when `H` waits for the first time, from 0 to 1: its job is activated at 0, begins at 1
# and ends at 4. `H` waits from 4 to 5, is woken at 10, computes until 13, and waits until 14.
TICKING = mcsim.System(
    contexts=[mcsim.Context('own', core=0, budget=10, period=20)],
    notes=[mcsim.Note('tick', core=0)],
    sources=[mcsim.Source('clock', note='tick', badge=1, period=10)],
    threads=[mcsim.Thread('H', context='own', priority=20, script=['wait tick', 'compute 3'], deadline=3)],
)
# A budget of 2 in 5 is exhausted at 2 and at 7, and replenished at 5 and at 10. The job of 5 ticks ends at 11.
EXHAUSTED = mcsim.System(contexts=[mcsim.Context('a', 0, 2, 5)], threads=[mcsim.Thread('A', 'a', 5, ['compute 5'], rounds=1)])
# D waits from 1 on, is woken at 3, computes to 5, signals at 6; the signal arrives at 8, and C computes to 12
TWO_CORES = mcsim.System(
    cores=2, delay=2,
    contexts=[mcsim.Context('d', 0, 5, 20), mcsim.Context('c', 1, 9, 20)],
    notes=[mcsim.Note('n', 0), mcsim.Note('p', 1)],
    sources=[mcsim.Source('s', 'n', 1, 20, start=3)],
    threads=[mcsim.Thread('D', 'd', 5, ['wait n', 'compute 2', 'signal p 1']), mcsim.Thread('C', 'c', 5, ['wait p', 'compute 4'])],
    chains=[mcsim.Chain('way', source='s', thread='C', deadline=8)],
)


class Simulated(unittest.TestCase):
    def test_each_row_of_a_budget_that_is_exhausted(self) -> None:
        self.assertEqual(list(EXHAUSTED.simulate(12)), [
            rows.Release(0, 0, 'A'), rows.Run(0, 0, 'A'), rows.Stop(2, 0, 'A', 'spent', 2, 5),
            rows.Release(5, 0, 'A'), rows.Run(5, 0, 'A'), rows.Stop(7, 0, 'A', 'spent', 2, 10),
            rows.Release(10, 0, 'A'), rows.Run(10, 0, 'A'), rows.Round(11, 0, 'A', 1, 11), rows.Stop(11, 0, 'A', 'done', 1),
        ])

    def test_each_row_of_a_thread_that_waits(self) -> None:
        self.assertEqual(list(TICKING.simulate(14)), [
            rows.Interrupt(0, 0, 'clock', 'tick', 1), rows.Hold(0, 0, 'tick', 1), rows.Release(0, 0, 'H'), rows.Run(0, 0, 'H'),
            rows.Got(1, 0, 'H', 'tick', 1), rows.Round(4, 0, 'H', 1, 3), rows.Stop(5, 0, 'H', 'wait', 5),
            rows.Interrupt(10, 0, 'clock', 'tick', 1), rows.Wake(10, 0, 'H', 'tick', 1), rows.Run(10, 0, 'H'),
            rows.Round(13, 0, 'H', 2, 3), rows.Stop(14, 0, 'H', 'wait', 4),
        ])

    def test_a_signal_to_another_core_and_a_server(self) -> None:
        # `A` pays a tick to signal, and its signal takes 4 to the other core. `B` pays one to enter and one to leave, and computes 2 inside
        system = mcsim.System(
            cores=2, delay=4, contexts=[mcsim.Context('a', 0, 9, 99), mcsim.Context('b', 1, 9, 99)], notes=[mcsim.Note('n', 1)],
            servers=[mcsim.Server('v', 1, 9, ['compute 2'])],
            threads=[mcsim.Thread('A', 'a', 5, ['signal n 6'], rounds=1), mcsim.Thread('B', 'b', 5, ['call v 1'], rounds=1)],
            orders=[mcsim.Order(7, 0, 'a', 8, 99)],
        )
        found = [row for row in system.simulate(8) if not isinstance(row, (rows.Release, rows.Run, rows.Stop, rows.Round))]
        self.assertEqual(found, [
            rows.Signal(1, 0, 'A', 'n', 6), rows.Enter(1, 1, 'B', 'v'), rows.Leave(4, 1, 'B', 'v'),
            rows.Arrive(5, 1, 'n', 6, 0), rows.Hold(5, 1, 'n', 6), rows.Ordered(7, 0, 'a'),
        ])

    def test_a_long_run_takes_more_than_the_first_room(self) -> None:
        # a job each 10 ticks, from the tick at 0 on; that of the tick at 100,000 has not ended
        ends = [row.moment for row in TICKING.simulate(100_000) if isinstance(row, rows.Round)]
        self.assertEqual((len(ends), ends[:2], ends[-1]), (10_000, [4, 13], 99_993))

    def test_several_threads_at_once(self) -> None:
        wanted = list(TICKING.simulate(5000))
        with concurrent.futures.ThreadPoolExecutor(8) as pool:
            found = list(pool.map(lambda _: list(TICKING.simulate(5000)), range(64)))
        self.assertTrue(all(one == wanted for one in found))


class Checked(unittest.TestCase):
    def test_a_miss(self) -> None:
        found = TICKING.check(14)
        self.assertEqual(list(found), [mcsim.Miss(4, 0, 'H', 1, 4, 3, activated=0, queued=0, ready=0, running=4, throttled=0, blocked=0, server=0)])
        self.assertEqual(found.counts, mcsim.Counts(missed=1, overdue=0, untaken=0, lost=0, never=0, merged=0, allowed=0,
                                                    unjudged=0, hints=0, threads=1, deadlines=1, judged=2))
        self.assertEqual((found.is_clean, found.is_judged), (False, True))

    def test_a_deadline_that_is_met(self) -> None:
        found = TICKING.put(dataclasses.replace(TICKING.thread('H'), deadline=4)).check(14)
        self.assertEqual((found.is_clean, found.is_judged, len(found), found.hints), (True, True, 0, ()))

    def test_a_job_that_is_not_judged_yet(self) -> None:
        # at 3 the job that was activated at 0 goes on, and its deadline is 4
        found = TICKING.put(dataclasses.replace(TICKING.thread('H'), deadline=4)).check(3)
        self.assertEqual((list(found.unjudged), found.is_clean, found.is_judged), ([mcsim.Unjudged(3, 0, 'H', 4, activated=0)], True, False))

    def test_nothing_to_judge(self) -> None:
        for system, kind in ((mcsim.System(), 'no_thread'), (TICKING.put(dataclasses.replace(TICKING.thread('H'), deadline=0)), 'no_deadline')):
            found = system.check(14)
            self.assertEqual((found.is_clean, found.is_judged, found.hints[0]), (True, False, mcsim.Hint(kind)))
        self.assertEqual(list(mcsim.System().check(14).hints)[1:], [mcsim.Hint('unused', core=0)])

    def test_what_is_overdue_never_and_lost(self) -> None:
        # `H` starts at 25: the ticks at 10 and 20 find the word of that at 0
        late = TICKING.put(dataclasses.replace(TICKING.thread('H'), start=25))
        lost = [mcsim.Lost(10, 0, 'tick', 1), mcsim.Lost(20, 0, 'tick', 1)]
        found = late.check(24)
        self.assertEqual(list(found)[:2], lost)
        # nobody took the word of 0, and it is older than 3
        self.assertEqual(list(found)[2:], [mcsim.Never(24, 0, 'H', 3), mcsim.Untaken(24, 0, 'tick', ('H',), 1, age=24, deadline=3, set=0)])
        silent = TICKING.put(dataclasses.replace(TICKING.source('clock'), start=50)).check(24)
        self.assertEqual(list(silent), [mcsim.Never(24, 0, 'H', 3)])
        allowed = late.check(24, allow_lost=['tick'])
        self.assertEqual((len(allowed), allowed.counts.allowed, allowed.counts.lost, allowed.counts.untaken), (2, 2, 0, 1))
        # its wait and its computation run from 0 on: at 9 it ran 9 ticks of a budget of 10
        slow = TICKING.put(dataclasses.replace(TICKING.thread('H'), script=['wait tick', 'compute 23'])).check(9)
        self.assertEqual(list(slow), [
            mcsim.Overdue(9, 0, 'H', number=1, age=9, deadline=3, activated=0, queued=0, ready=0, running=9, throttled=0, blocked=0, server=0),
        ])

    def test_hints(self) -> None:
        system = TICKING.put(mcsim.Context('spare', 0, 15, 20)).put(mcsim.Note('none', 0)).put(mcsim.Context('more', 0, 15, 20))
        system = system.put(mcsim.Thread('L', 'more', 1, ['wait none', 'compute 1']))
        found = system.check(14)
        # 10/20 and 15/20 have a thread
        self.assertEqual(list(found.hints), [
            mcsim.Hint('unsignalled', note='none'), mcsim.Hint('unbound', context='spare'), mcsim.Hint('overcommitted', core=0, grants=1_250_000),
        ])
        self.assertEqual(found.counts.hints, 3)

    def test_hints_of_badges_and_calls(self) -> None:
        # nobody waits for z; H waits for the tick, has no handler and takes each badge; L calls a server of its own priority
        system = TICKING.put(mcsim.Note('z', 0)).put(mcsim.Source('late', 'z', 1, 20, start=30)).put(mcsim.Context('l', 0, 1, 20))
        system = system.put(mcsim.Server('s', 0, 1, ['compute 1'])).put(mcsim.Thread('L', 'l', 1, ['call s 1']))
        self.assertEqual(list(system.check(14).hints), [
            mcsim.Hint('unawaited', note='z', source='late'), mcsim.Hint('inverted', thread='L', server='s', priority=1, caller=1),
        ])

    def test_hints_of_chains(self) -> None:
        # H signals z with badges 2 and 4, and L has no handler for 4
        system = TICKING.put(mcsim.Note('z', 0)).put(mcsim.Context('l', 0, 1, 20)).put(mcsim.Thread('L', 'l', 1, ['wait z', 'on 2', 'compute 1']))
        system = system.put(dataclasses.replace(TICKING.thread('H'), script=['wait tick', 'compute 3', 'signal z 6']))
        system = system.put(mcsim.Chain('near', 'clock', 'H', deadline=9)).put(mcsim.Chain('far', 'clock', 'L', badges=4, deadline=9))
        self.assertEqual(list(system.check(14).hints), [mcsim.Hint('unreached', chain='far', source='clock', thread='L')])

    def test_figures(self) -> None:
        # up to 20: 5 ticks from 0 on and 4 from 10 on; the interrupt at 20 wakes it, and no tick follows
        figures, = TICKING.table(20)
        self.assertEqual((figures.thread, figures.rounds, figures.greatest, figures.p50, figures.margin), ('H', 2, 4, 3, -1))
        self.assertEqual((figures.granted, figures.used, figures.ticks_running, figures.ticks_blocked), (500_000, 450_000, 9, 11))
        self.assertEqual(TICKING.unused(20), {'own': 1})
        none = TICKING.put(dataclasses.replace(TICKING.source('clock'), start=50)).table(20)[0]
        self.assertEqual((none.rounds, none.greatest, none.margin), (0, None, None))

    def test_figures_in_pandas(self) -> None:
        try:
            pandas = importlib.import_module('pandas')
        except ImportError:
            self.skipTest('pandas is not installed')
        frame = pandas.DataFrame(TICKING.table(20))
        self.assertEqual(frame.shape, (1, len(dataclasses.fields(mcsim.Figures))))
        self.assertEqual((frame['thread'][0], frame['greatest'][0]), ('H', 4))

    def test_jobs(self) -> None:
        first, second = TICKING.jobs(14)
        self.assertEqual((first.number, first.activated, first.begun, first.moment, first.response, first.queued), (1, 0, 1, 4, 4, 0))
        self.assertEqual((second.number, second.activated, second.begun, second.moment, second.response, second.queued), (2, 10, 10, 13, 3, 0))

    def test_a_chain_of_two_cores(self) -> None:
        system = TWO_CORES
        self.assertEqual(list(system.answers(20)), [mcsim.Answer(12, 1, 'C', 1, 'way', 9, 3, 8)])
        found = system.check(31)
        self.assertEqual(list(found), [mcsim.Slow(12, 1, 'way', 9, 8, 3), mcsim.Unanswered(31, 1, 'way', 8, 23)])
        self.assertEqual((found.counts.slow, found.counts.unanswered), (1, 1))

    def test_a_kind_of_finding_that_is_not_known(self) -> None:
        counts = b'{"kind":"counts","missed":0,"overdue":0,"lost":0,"never":0,"merged":0,"allowed":0,"unjudged":0,"hints":0,"threads":1,' \
            b'"deadlines":0,"judged":0,"new":1}\n'
        found = verdict.verdict_of(b'{"moment":3,"core":1,"kind":"early","chain":"way","latency":9}\n' + counts)
        self.assertEqual(list(found), [mcsim.Other(3, 1, 'early', {'moment': 3, 'core': 1, 'chain': 'way', 'latency': 9})])
        self.assertFalse(found.is_clean)

    def test_a_verdict_that_was_cut_off(self) -> None:
        with self.assertRaises(EOFError):
            verdict.verdict_of(b'{"moment":20,"core":0,"kind":"lost","note":"tick","word":1}\n')


class Explained(unittest.TestCase):
    def test_a_job_whose_thread_was_woken(self) -> None:
        # the span begins when H stops to wait, at 5, and ends with the job, at 13; the core is idle until the tick at 10
        found = TICKING.why('H', 2, horizon=14)
        self.assertEqual(list(found.rows), [
            rows.Stop(5, 0, 'H', 'wait', 5), rows.Interrupt(10, 0, 'clock', 'tick', 1), rows.Wake(10, 0, 'H', 'tick', 1), rows.Run(10, 0, 'H'),
            rows.Round(13, 0, 'H', 2, 3),
        ])
        self.assertEqual((found.thread, found.number, found.begin, found.end, found.waited), ('H', 2, 5, 13, 5))
        self.assertEqual((found.activated, found.begun, found.ended, found.ran, found.idle), (10, 10, 13, {'H': 3}, 5))

    def test_a_job_that_has_not_ended(self) -> None:
        found = TICKING.why('H', 1, horizon=3)
        self.assertEqual((found.begin, found.end, found.waited, found.activated, found.begun, found.ended), (0, 3, 0, 0, 1, None))
        self.assertEqual((found.ran, found.idle, found.rows[-1]), ({'H': 3}, 0, rows.Got(1, 0, 'H', 'tick', 1)))

    def test_each_kind_of_row(self) -> None:
        # B leaves the server at 4 and has ended at 4; the signal of A, made at 1, arrives at 5
        system = mcsim.System(
            cores=2, delay=4, contexts=[mcsim.Context('a', 0, 9, 99), mcsim.Context('b', 1, 9, 99), mcsim.Context('c', 1, 9, 99)], notes=[mcsim.Note('n', 1)],
            servers=[mcsim.Server('v', 1, 9, ['compute 2'])],
            threads=[
                mcsim.Thread('A', 'a', 5, ['signal n 6'], rounds=1), mcsim.Thread('B', 'b', 5, ['call v 1'], rounds=1),
                mcsim.Thread('C', 'c', 4, ['wait n', 'compute 1'], rounds=1),
            ],
            orders=[mcsim.Order(3, 1, 'c', 8, 99)],
        )
        for thread in ('A', 'B', 'C'):
            core = 0 if thread == 'A' else 1
            shown = system.why(thread, 1, horizon=20)
            wanted = [row for row in system.simulate(20) if row.core == core and shown.begin <= row.moment <= shown.end]
            self.assertEqual(list(shown.rows), wanted)

    def test_the_way_of_an_answer(self) -> None:
        # The second interrupt, at 13, wakes D, which signals at 14. C gets the signal at 16 and works on the first one until 19, and for 7 ticks more.
        system = mcsim.System(
            cores=2, delay=2, contexts=[mcsim.Context('d', 0, 100, 100), mcsim.Context('c', 1, 100, 100)], notes=[mcsim.Note('n', 0), mcsim.Note('p', 1)],
            sources=[mcsim.Source('s', 'n', 1, 10, start=3)], threads=[
                mcsim.Thread('D', 'd', 5, ['wait n', 'signal p 1']), mcsim.Thread('C', 'c', 5, ['wait p', 'compute 13']),
            ],
            chains=[mcsim.Chain('way', 's', 'C')],
        )
        found = system.way('way', 2, 40)
        self.assertEqual(found.answer, mcsim.Answer(33, 1, 'C', 2, 'way', 20, 13))
        self.assertEqual(list(found.legs), [
            mcsim.Leg('ran', 13, 14, 0, thread='D', running=1), mcsim.Leg('delay', 14, 16, 0, home=1), mcsim.Leg('held', 16, 20, 1, note='p'),
            mcsim.Leg('ran', 20, 33, 1, thread='C', running=13),
        ])
        self.assertEqual(found.sums, {'held': 4, 'delay': 2, 'ready': 0, 'running': 14, 'throttled': 0, 'blocked': 0})
        with self.assertRaisesRegex(ValueError, 'no answer "9" of way: there are answers 1 to 2'):
            system.way('way', 9, 40)
        with self.assertRaisesRegex(ValueError, 'is a thread: why'):
            system.way('C', 1)
        with self.assertRaisesRegex(ValueError, 'is a chain: way'):
            system.why('way', 1)

    def test_a_way_that_was_cut_off(self) -> None:
        with self.assertRaises(EOFError):
            explained.way_of(b'{"moment":4,"core":0,"kind":"answer","thread":"A","number":1,"chain":"c","latency":1,"origin":3}\n')

    def test_what_is_not_there(self) -> None:
        with self.assertRaisesRegex(ValueError, 'no thread is called "X": the nearest is H'):
            TICKING.why('X', 1)
        for number in (0, 9, -1, 2**64):
            # at 14 the third job is not activated
            with self.assertRaisesRegex(ValueError, f'no round "{number}" of H: there are rounds 1 to 3'):
                TICKING.why('H', number, 14)

    def test_an_explanation_that_was_cut_off(self) -> None:
        with self.assertRaises(EOFError):
            explained.explanation_of(b'{"moment":20,"core":0,"kind":"run","thread":"H"}\n')


class Foretold(unittest.TestCase):
    # a job and a wait take 4 of 10 ticks, and the budget is half of the time, in refills enough: it is never exhausted
    granted = TICKING.put(mcsim.Context('own', core=0, budget=10, period=20, extra_refills=4))

    def test_a_miss_before_all_periods(self) -> None:
        # the job of the tick at 0 ends at 4, and each later one 3 ticks after its tick
        found = self.granted.forever()
        one, = found.sets
        self.assertEqual((list(found), one.cores, one.is_clean), ([mcsim.Misses('H', each_period=0, before=1)], (0,), False))
        self.assertEqual((one.begin is not None and one.begin > 4, one.period is not None and one.period % 10), (True, 0))
        self.assertEqual(one.responses, (mcsim.Response('H', 4, throttled='never'),))
        self.assertEqual((found.is_clean, found.is_judged, found.counts), (False, True, mcsim.Sets(1, 1, 1, 1, 1)))

    def test_nothing_is_ever_found(self) -> None:
        found = self.granted.put(dataclasses.replace(TICKING.thread('H'), deadline=4)).forever()
        self.assertEqual((found.is_clean, found.is_judged, len(found), found.sets[0].is_clean), (True, True, 0, True))

    def test_no_repetition_up_to_a_horizon(self) -> None:
        found = TICKING.forever(5)
        self.assertEqual(found.sets, (mcsim.CoreSet((0,), None, None, (mcsim.Misses('H', so_far=1),), (mcsim.Response('H', 4, is_so_far=True),), (), False),))
        self.assertEqual((found.is_clean, found.is_judged, found.counts), (False, False, mcsim.Sets(1, 0, 1, 1, 1)))

    def test_what_is_overdue_never_and_lost(self) -> None:
        late = TICKING.put(dataclasses.replace(TICKING.thread('H'), start=25))
        self.assertEqual(list(late.forever(24)), [mcsim.Losses('tick', so_far=2), mcsim.EndsNever('H', 24), mcsim.EndsUntaken('tick', moment=24)])
        self.assertEqual(list(late.forever(24, allow_lost=['tick'])), [mcsim.EndsNever('H', 24), mcsim.EndsUntaken('tick', moment=24)])
        silent = TICKING.put(dataclasses.replace(TICKING.source('clock'), start=50)).forever(24)
        self.assertEqual(list(silent), [mcsim.EndsNever('H', 24)])

    def test_two_sets_of_cores(self) -> None:
        # nobody signals another core
        system = mcsim.System(
            cores=2, contexts=[mcsim.Context('a', 0, 2, 5), mcsim.Context('b', 1, 3, 5)],
            threads=[mcsim.Thread('A', 'a', 5, ['compute 2']), mcsim.Thread('B', 'b', 5, ['compute 1'])],
        )
        self.assertEqual([one.cores for one in system.forever().sets], [(0,), (1,)])

    def test_workers_that_share_a_notification_are_unsettled(self) -> None:
        # each word begins a job of one worker, which takes a tick for its wait and one for its work
        system = mcsim.System(
            contexts=[mcsim.Context('a', 0, 3, 10), mcsim.Context('b', 0, 3, 10)],
            notes=[mcsim.Note('work', 0)],
            sources=[mcsim.Source('clock', 'work', 1, 10, start=5)],
            threads=[mcsim.Thread(name, name.lower(), 8, ['wait work', 'compute 1'], deadline=9) for name in ('A', 'B')],
        )
        found = system.forever()
        self.assertEqual([(one.unsettled, one.is_clean) for one in found.sets], [(('A', 'B'), False)])
        self.assertEqual((found.is_clean, found.is_judged), (True, False))

    def test_a_guest_that_only_computes(self) -> None:
        # the loop has 3 ticks of each 10 and the guest the rest; where the guest is in its script never comes again
        system = mcsim.System(
            contexts=[mcsim.Context('loop', 0, 3, 10), mcsim.Context('guest', 0, 10, 10)],
            threads=[
                mcsim.Thread('Loop', 'loop', 9, ['compute 2', 'yield'], deadline=5),
                mcsim.Thread('Guest', 'guest', 1, ['compute 1000000']),
            ],
        )
        one, = system.forever(1000).sets
        self.assertEqual((one.is_clean, one.responses[1]), (True, mcsim.Response('Guest', computes_without_end=True)))

    def test_a_chain_for_all_time(self) -> None:
        # each 20 ticks from 3 on an interrupt is answered 9 ticks later
        system = TWO_CORES
        found = system.forever()
        one, = found.latencies
        self.assertEqual((one.chain, one.period, one.greatest, one.answers, one.deadline), ('way', 20, 9, 1, 8))
        assert one.begin is not None
        # those before the first period come at 12, 32 and so on
        before = len(range(12, one.begin, 20))
        self.assertEqual(list(found), [mcsim.SlowAnswers('way', each_period=1, before=before)])
        self.assertEqual((found.is_clean, found.is_judged, found.counts.findings, found.counts.deadlines), (False, True, 1, 1))
        in_time = system.put(mcsim.Chain('way', source='s', thread='C', deadline=9)).forever()
        self.assertEqual((in_time.is_clean, in_time.is_judged, len(in_time)), (True, True, 0))
        # up to 31 no repetition is found, and the interrupt of 23 had to be answered by then
        early = system.forever(31)
        self.assertEqual(early.latencies, (mcsim.Latency('way', None, None, 9, 1, 8),))
        self.assertEqual(list(early), [mcsim.SlowAnswers('way', so_far=1), mcsim.MissingAnswers('way', so_far=1)])
        self.assertEqual((early.is_clean, early.is_judged), (False, False))

    def test_a_chain_without_a_period_is_not_judged(self) -> None:
        lines = b'{"kind":"repeats","cores":"0","from":3,"period":5}\n{"kind":"chain","chain":"way","horizon":90,"answers":0,"deadline":8}\n' \
            b'{"kind":"sets","sets":1,"repeating":1,"findings":0,"threads":1,"deadlines":1}\n'
        found = forever.outlook_of(lines)
        self.assertEqual((found.is_clean, found.is_judged, found.latencies), (True, False, (mcsim.Latency('way', None, None, None, 0, 8),)))
        self.assertTrue(forever.outlook_of(lines.replace(b',"deadline":8', b'')).is_judged)

    def test_an_outlook_that_was_cut_off(self) -> None:
        with self.assertRaises(EOFError):
            forever.outlook_of(b'{"kind":"open","cores":"0","horizon":9}\n')


class Files(unittest.TestCase):
    def test_a_file_that_was_written_is_read(self) -> None:
        with tempfile.TemporaryDirectory() as folder:
            file = pathlib.Path(folder, 'ticking.toml')
            TICKING.write(file)
            read = mcsim.System.read(file)
        self.assertEqual((read.name, read.text()), ('ticking', TICKING.text()))
        self.assertEqual(list(read.simulate(50)), list(TICKING.simulate(50)))

    def test_parts_of_the_text(self) -> None:
        system = mcsim.System(version=2, cores=3, links=[mcsim.Link(0, 1, 7)], contexts=[mcsim.Context('c', 1, 2, 3, mode='bandwidth')])
        self.assertEqual(system.text().splitlines(), [
            'version = 2', 'cores = 3', 'delay = 1', 'call = 1', 'min_budget = 1',
            'context = [', '  { name = "c", core = 1, budget = 2, period = 3, mode = "bandwidth" },', ']',
            'link = [', '  { maker = 0, home = 1, delay = 7 },', ']',
        ])

    def test_all_worked_systems_mean_the_same_when_they_are_written(self) -> None:
        files = sorted(pathlib.Path(__file__).resolve().parents[2].glob('crates/mcs_corpus/data/*/*.toml'))
        read = 0
        for file in files:
            with self.subTest(file.name):
                try:
                    system = mcsim.System.read(file)
                except mcsim.Fault:
                    continue
                read += 1
                horizon = 300
                self.assertEqual(library.run(system.data(), horizon, library.SCHEDULE), library.run(file.read_bytes(), horizon, library.SCHEDULE))
        self.assertTrue(not files or read > 50, read)

    def test_parts_by_name(self) -> None:
        changed = TICKING.put(mcsim.Context('own', 0, 7, 20))
        self.assertEqual((changed.context('own').budget, TICKING.context('own').budget, len(changed.contexts)), (7, 10, 1))
        self.assertEqual([note.name for note in changed.put(mcsim.Note('more', 0)).notes], ['tick', 'more'])
        with self.assertRaisesRegex(KeyError, "there is no 'other': there are H"):
            TICKING.thread('other')


class Refused(unittest.TestCase):
    def fault(self, system: mcsim.System) -> str:
        said = []
        calls: list[Callable[[], object]] = [
            system.simulate, system.check, system.table, system.view, system.forever, lambda: system.why('H', 1),
        ]
        for call in calls:
            with self.assertRaises(mcsim.Fault) as caught:
                call()
            said.append(str(caught.exception))
        self.assertEqual(set(said), {said[0]})
        return said[0]

    def test_a_fault_of_a_part(self) -> None:
        self.assertEqual(self.fault(TICKING.put(mcsim.Thread('L', 'none', 1, ['compute 1']))), 'unknown name at thread 2 context')
        self.assertEqual(self.fault(TICKING.put(mcsim.Context('own', 0, 30, 20))), 'control: budget over period at context 1 budget')

    def test_values_of_any_kind(self) -> None:
        texts = ('', 'a"b', 'a\\', 'a\nb', 'a\0b', '\x7f', 'ü', '🙂', "'''", '# "', 'x' * 100_000, '}]')
        for text in texts:
            with self.subTest(text[:20]):
                self.assertEqual(self.fault(TICKING.put(mcsim.Note(text, 0))), 'bad name at note 2 name')
        for value in (1.5, True, '1', None, float('nan'), [1], {}):
            with self.subTest(value=value):
                self.assertIn(self.fault(TICKING.put(mcsim.Note('n', cast(Any, value)))), {'wrong kind at note 2 core', 'not TOML at file'})
        for number in (-1, 1, 2**40, 2**64, 10**4000):
            with self.subTest(number=number % 1000):
                self.assertIn(self.fault(TICKING.put(mcsim.Note('n', number))), {'out of range at note 2 core', 'not TOML at file'})

    def test_a_horizon_out_of_range(self) -> None:
        for horizon in (-1, 2**40 + 1, 2**64, cast(Any, 1.5), cast(Any, '9')):
            calls: list[Callable[[int], object]] = [TICKING.simulate, TICKING.check, TICKING.table, TICKING.forever, lambda last: TICKING.why('H', 1, last)]
            for call in calls:
                with self.subTest(horizon=horizon), self.assertRaisesRegex(ValueError, 'a whole number of 0 to 2\\^40 is allowed'):
                    call(horizon)

    def test_a_text_that_is_no_system(self) -> None:
        texts: list[tuple[Union[str, bytes], str]] = [
            ('', 'missing key at top version'), (b'\xff', 'not TOML at file'), ('version = 4', 'out of range at top version'),
        ]
        for text, said in texts:
            with self.assertRaises(mcsim.Fault) as caught:
                mcsim.System.of(text)
            self.assertEqual(str(caught.exception), said)
        with self.assertRaises(FileNotFoundError):
            mcsim.System.read('/nowhere/system.toml')

    def test_a_notification_that_is_not_there(self) -> None:
        with self.assertRaisesRegex(ValueError, 'no notification is called "tack": the nearest is tick'):
            TICKING.check(14, allow_lost=['tack'])
        with self.assertRaisesRegex(ValueError, 'no notification is called "tack": the nearest is tick'):
            TICKING.forever(14, allow_lost=['tack'])
        for name in ('', 'tick\ntick'):
            with self.assertRaisesRegex(ValueError, 'no notification is called'):
                TICKING.check(14, allow_lost=[name])


class Seen(unittest.TestCase):
    def test_a_picture(self) -> None:
        view = dataclasses.replace(TICKING, name='ticking').view(40, begin=10, end=30)
        for text in ('<svg ', '>ticking</', '>H<', '10 to 30 of a run of 40 ticks'):
            self.assertIn(text, view._repr_svg_())
        with tempfile.TemporaryDirectory() as folder:
            view.save(pathlib.Path(folder, 'picture.svg'))
            self.assertEqual(pathlib.Path(folder, 'picture.svg').read_text(), view.svg)

    def test_a_window_that_is_none(self) -> None:
        with self.assertRaisesRegex(ValueError, '--from 50 is not before the end, 40'):
            TICKING.view(40, begin=50)


if __name__ == '__main__':
    unittest.main()
