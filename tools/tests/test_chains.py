"""Chains, read off rows that were worked out by hand, and parts of a run."""
from __future__ import annotations

import itertools
import unittest
from collections.abc import Iterator
from unittest import mock

from worked import BUSY, BUSY_ROWS, HANDLERS, HANDLERS_ROWS, PAIR, PAIR_ROWS, TAKEN, TAKEN_ROWS, Heard, system
from mcsim_tools import chains, parts
from mcsim_tools.chains import Answer
from mcsim_tools.packing import Packed
from mcsim_tools.reading import Listener, Reading

# an interrupt at 3 wakes D, whose signal at 6 reaches the other core at 8, where F ends its round at 12
TWO_CORES = '''
version = 3
cores = 2
delay = 2
context = [{ name = "d", core = 0, budget = 9, period = 20, mode = "sporadic" }, { name = "f", core = 1, budget = 9, period = 20, mode = "sporadic" }]
note = [{ name = "n", core = 0 }, { name = "m", core = 1 }]
thread = [
    { name = "D", context = "d", priority = 5, script = ["wait n", "compute 2", "signal m 1"] },
    { name = "F", context = "f", priority = 5, script = ["wait m", "compute 4"] },
]
source = [{ name = "s", note = "n", badge = 1, period = 20, start = 3 }]
chain = [{ name = "far", source = "s", thread = "F", deadline = 8 }, { name = "near", source = "s", thread = "D", deadline = 3 }]
'''
TWO_CORES_ROWS = '''
0 0 release D
0 0 run D
0 1 release F
0 1 run F
1 0 stop D wait 1
1 1 stop F wait 1
3 0 interrupt s n 1
3 0 wake D n 1
3 0 run D
6 0 signal D m 1
6 0 round D 1 3
7 0 stop D wait 4
8 1 arrive m 1 from 0
8 1 wake F m 1
8 1 run F
12 1 round F 1 4
13 1 stop F wait 5
'''


class Answers(Heard):
    hears_chains = True

    def __init__(self) -> None:
        super().__init__()
        self.answers: list[Answer] = []
        self.waits: list[tuple[str, str, int, int]] = []

    def answered(self, answer: Answer) -> None:
        self.answers.append(answer)

    def at_server(self, server: str, thread: chains.Thread, begin: int, end: int) -> None:
        self.waits.append((server, thread.name, begin, end))


def answers(text: str, rows: str, horizon: int) -> tuple[Answers, Reading]:
    heard = Answers()
    reading = Reading(system(text), heard)
    reading.read(rows.strip().splitlines(), horizon)
    return heard, reading


class OfChains(unittest.TestCase):
    def test_the_way_over_two_cores(self) -> None:
        heard, reading = answers(TWO_CORES, TWO_CORES_ROWS, 15)
        far = next(answer for answer in heard.answers if answer.chain.name == 'far')
        self.assertEqual((far.origin, far.moment, far.latency, far.is_slow), (3, 12, 9, True))
        way = [(hop.brought.made, hop.brought.arrived, hop.taken, hop.thread.name, hop.note) for hop in far.way]
        self.assertEqual(way, [(3, 3, 3, 'D', 'n'), (6, 8, 8, 'F', 'm')])
        # an answer at the deadline itself is not slow
        near = next(answer for answer in heard.answers if answer.chain.name == 'near')
        self.assertEqual((near.latency, near.is_slow), (3, False))

    def test_what_is_unanswered_at_the_horizon(self) -> None:
        for horizon, wanted in ((10, None), (11, 3)):
            _, reading = answers(TWO_CORES, TWO_CORES_ROWS, horizon)
            assert reading.chains
            figures = reading.chains.figures['far']
            self.assertEqual((figures.answered, figures.unanswered([3], horizon)), (0, wanted))

    def with_chain(self, text: str, rows: str, horizon: int, thread: str, badges: int = 0) -> list[tuple[int, int]]:
        chain = f'chain = [{{ name = "c", source = "s", thread = "{thread}", badges = {badges} }}]\n'
        heard, _ = answers(text + chain, rows, horizon)
        return [(answer.origin, answer.moment) for answer in heard.answers]

    def test_a_round_answers_what_its_badges_have(self) -> None:
        self.assertEqual(self.with_chain(HANDLERS, HANDLERS_ROWS, 15, 'D'), [(2, 4)])
        # no round with the badge 2 is based on an interrupt of s
        self.assertEqual(self.with_chain(HANDLERS, HANDLERS_ROWS, 15, 'D', 2), [])

    def test_interrupts_that_are_held_together_are_answered_together(self) -> None:
        # those of 4 and 6 are taken at 8; that of 8 is held then
        self.assertEqual(self.with_chain(BUSY, BUSY_ROWS, 14, 'D'), [(2, 7), (4, 13), (6, 13)])

    def test_ways_are_kept_for_the_earliest_answers_of_a_round(self) -> None:
        most, chains.MOST_WAYS = chains.MOST_WAYS, 1
        try:
            self.assertEqual(self.with_chain(BUSY, BUSY_ROWS, 14, 'D'), [(2, 7), (4, 13)])
        finally:
            chains.MOST_WAYS = most


class OfServers(unittest.TestCase):
    def test_a_thread_that_still_waits_at_the_end(self) -> None:
        for horizon, wanted in ((22, [('v', 'H', 5, 21)]), (15, [('v', 'H', 5, 15)])):
            heard, _ = answers(TAKEN, TAKEN_ROWS, horizon)
            self.assertEqual(heard.waits, wanted)

    def test_a_signal_that_the_script_has_not_there(self) -> None:
        with self.assertRaisesRegex(Exception, 'line 10 is no row'):
            answers(TWO_CORES, TWO_CORES_ROWS.replace('6 0 signal D m 1', '3 0 signal D n 1'), 15)


class Parts(unittest.TestCase):
    """A part that is read from a mark is what a reading of the whole run has of that window."""

    def packed(self, text: str, begin: int, end: int) -> Packed:
        packed = Packed(system(text), begin, end)
        # a budget that is followed from a mark on is one whose first state begins there
        packed.hears_holdings = ()
        return packed

    def test_from_each_line(self) -> None:
        for text, rows, begin, end in ((PAIR, PAIR_ROWS, 6, 12), (BUSY, BUSY_ROWS, 6, 14), (TAKEN, TAKEN_ROWS, 10, 22), (TWO_CORES, TWO_CORES_ROWS, 5, 15)):
            lines, whole = rows.strip().splitlines(), self.packed(text, begin, end)
            reading = Reading(whole.system, whole)
            kept: list[Reading] = []
            reading.read(self.marked(lines, reading, kept), end)
            whole.close(reading, end)
            # rounds that ended before the mark are not those of the part, though their deadlines may lie in it
            for mark in range(sum(int(row.split()[0]) < begin - 4 for row in lines)):
                packed = self.packed(text, begin, end)
                again = kept[mark].copy(packed)
                again.read(lines[mark:], end)
                packed.close(again, end)
                wanted, found = dict(whole.arrays()), dict(packed.arrays())
                # ways begin with interrupts behind the mark, here with all or with none
                wanted = wanted if kept[mark].end < 3 else {**wanted, **{name: found[name] for name in wanted if name.startswith(('way', 'leg'))}}
                self.assertEqual(found, wanted, (begin, mark))

    def marked(self, lines: list[str], reading: Reading, kept: list[Reading]) -> Iterator[str]:
        for line in lines:
            kept.append(reading.copy(Listener()))
            yield line

    def test_marks(self) -> None:
        """Marks are few before the end of the detail, and spread behind it."""
        packed = self.packed(PAIR, 0, 12)
        reading, marks = Reading(packed.system, packed), parts.Marks()
        with mock.patch.multiple(parts, STEP=1, STEP_OF_THREAD=1, MARKS=4):
            lines = marks.of(PAIR_ROWS.strip().splitlines(), reading, packed)
            reading.read(itertools.islice(lines, 7), None)
            self.assertEqual([mark.lines for mark in marks.list], [2, 4, 6])
            packed.detail = 3
            rest = list(lines)
        found = [mark.lines for mark in marks.list]
        self.assertEqual(found, sorted(found))
        self.assertTrue(found[0] <= 7 and found[-1] > 7 and 2 <= len(found) <= 4 < len(rest), found)


if __name__ == '__main__':
    unittest.main()
