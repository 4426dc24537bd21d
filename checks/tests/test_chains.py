"""The plain reading of chains on systems that were worked by hand."""
import tomllib
import unittest

from checks.program.chain_reading import ChainReading, read_chain
from checks.program.hint_reading import Uses, values_of

# an interrupt at 3 wakes D, whose signal reaches the other core at 8; there C ends its round at 12
TWO_CORES = '''note = [{ name = "n", core = 0 }, { name = "p", core = 1 }]
thread = [
    { name = "D", script = ["wait n", "compute 2", "signal p 1"] },
    { name = "C", script = ["wait p", "compute 4"] },
]
chain = [
    { name = "e", source = "s", thread = "C", deadline = 8 },
    { name = "f", source = "s", thread = "C", deadline = 9 },
    { name = "d", source = "s", thread = "D" },
]
'''
OVER_TWO_CORES = '''3 0 interrupt s n 1
3 0 wake D n 1
3 0 run D
6 0 signal D p 1
6 0 round D 1 3
8 1 arrive p 1 from 0
8 1 wake C p 1
12 1 round C 1 4
'''
# badges 1 and 2 have a handler each; a third one is nobody's
HANDLERS = '''note = [{ name = "n", core = 0 }, { name = "p", core = 0 }, { name = "q", core = 0 }]
server = [{ name = "v", core = 0, priority = 9, script = ["compute 1", "signal q 1"] }]
thread = [
    { name = "D", script = ["wait n", "on 1", "compute 1", "signal p 1", "on 2", "call v 1"] },
    { name = "P", script = ["wait p", "compute 1"] },
    { name = "Q", script = ["wait q", "compute 1"] },
]
chain = [
    { name = "sp", source = "s", thread = "P" },
    { name = "sq", source = "s", thread = "Q", deadline = 4 },
    { name = "kq", source = "k", thread = "Q" },
    { name = "one", source = "s", thread = "D", badges = 1 },
    { name = "two", source = "s", thread = "D", badges = 2 },
    { name = "nobody", source = "x", thread = "D", deadline = 5 },
]
'''
BOTH = '''2 0 interrupt s n 1
2 0 hold n 1
3 0 interrupt k n 2
3 0 hold n 3
3 0 interrupt x n 4
3 0 hold n 7
4 0 got D n 7
6 0 signal D p 1
6 0 wake P p 1
7 0 enter D v
9 0 signal D q 1
9 0 wake Q q 1
10 0 leave D v
10 0 round D 1 6
12 0 round P 1 6
14 0 round Q 1 5
'''
# interrupts that are held together are answered together, each once
OVERLOAD = '''2 0 interrupt s n 1
2 0 wake L n 1
12 0 interrupt s n 1
12 0 hold n 1
22 0 interrupt s n 1
22 0 hold n 1
22 0 round L 1 20
23 0 got L n 1
43 0 round L 2 20
44 0 interrupt s n 1
44 0 hold n 1
'''
LOOP = '''note = [{ name = "n", core = 0 }]
thread = [{ name = "L", script = ["wait n", "compute 20"] }]
chain = [{ name = "c", source = "s", thread = "L", deadline = 20 }]
'''


def reading_of(text: str, name: str, rows: str) -> ChainReading:
    tables = tomllib.loads(text)
    return read_chain(tables, next(chain for chain in tables['chain'] if chain['name'] == name), rows)


def latencies(text: str, name: str, rows: str) -> list[int]:
    return [answer.latency for answer in reading_of(text, name, rows).answers]


class TwoCores(unittest.TestCase):
    def test_a_latency_goes_from_the_interrupt_to_the_end_of_the_last_round(self) -> None:
        self.assertEqual(latencies(TWO_CORES, 'e', OVER_TWO_CORES), [9])
        self.assertEqual(latencies(TWO_CORES, 'd', OVER_TWO_CORES), [3])

    def test_an_answer_is_slow_above_its_deadline_alone(self) -> None:
        self.assertEqual(reading_of(TWO_CORES, 'e', OVER_TWO_CORES).slow(), ['12 1 slow e latency 9 deadline 8 origin 3'])
        self.assertEqual(reading_of(TWO_CORES, 'f', OVER_TWO_CORES).slow(), [])

    def test_an_origin_whose_deadline_passes_is_unanswered(self) -> None:
        rows = ''.join(OVER_TWO_CORES.splitlines(keepends=True)[:-1])
        self.assertEqual(reading_of(TWO_CORES, 'e', rows).left(11), 'unanswered e deadline 8 origin 3')
        self.assertIsNone(reading_of(TWO_CORES, 'e', rows).left(10))


class Handlers(unittest.TestCase):
    def test_a_signal_carries_what_its_handler_has(self) -> None:
        self.assertEqual(latencies(HANDLERS, 'sp', BOTH), [10])
        self.assertEqual(latencies(HANDLERS, 'sq', BOTH), [])
        self.assertEqual(latencies(HANDLERS, 'kq', BOTH), [11])

    def test_a_round_answers_for_the_badges_of_the_chain(self) -> None:
        self.assertEqual(latencies(HANDLERS, 'one', BOTH), [8])
        self.assertEqual(latencies(HANDLERS, 'two', BOTH), [])

    def test_a_badge_that_no_handler_takes_has_no_answer(self) -> None:
        reading = reading_of(HANDLERS, 'nobody', BOTH)
        self.assertEqual((reading.interrupts, reading.answers, reading.unanswered), ([3], [], [3]))
        self.assertEqual(reading.left(8), 'unanswered nobody deadline 5 origin 3')


# S interrupts n with badge 1, for which D signals m with badge 2; M signals p with badge 1 for badge 2 of its words, and q with badge 1 for badge 4; E answers
WAY = '''note = [{ name = "n", core = 0 }, { name = "m", core = 0 }, { name = "p", core = 0 }, { name = "q", core = 0 }, { name = "z", core = 0 }]
server = [{ name = "v", core = 0, priority = 9, script = ["on 1", "signal m 2", "on 2", "signal m 4"] }]
thread = [
    { name = "D", priority = 5, script = ["wait n", "on 1", "compute 2", "signal m 2", "on 2", "signal m 4"] },
    { name = "M", priority = 5, script = ["wait m", "on 2", "signal p 1", "on 4", "signal q 1", "on 8"] },
    { name = "E", priority = 5, script = ["wait p", "compute 4"] },
    { name = "Q", priority = 5, script = ["wait q", "compute 4"] },
]
source = [{ name = "s", note = "n", badge = 1 }, { name = "t", note = "z", badge = 1 }]
chain = [
    { name = "e", source = "s", thread = "E" },
    { name = "q", source = "s", thread = "Q" },
    { name = "m", source = "s", thread = "M", badges = 2 },
    { name = "m4", source = "s", thread = "M", badges = 4 },
    { name = "t", source = "t", thread = "E" },
    { name = "w", source = "t", thread = "M", badges = 4 },
]
'''


class Unreached(unittest.TestCase):
    """The chains that no signal can complete."""

    def hinted(self, old: str = '', new: str = '') -> list[str]:
        self.assertIn(old, WAY)
        return [line.split()[2].removesuffix(':') for line in Uses(tomllib.loads(WAY.replace(old, new))).unreached()]

    def test_an_origin_goes_where_signals_of_its_handlers_lead(self) -> None:
        self.assertEqual(self.hinted(), ['q', 'm4', 't', 'w'])
        # the signal in the handler for badge 2 leads to Q, and so does one before all handlers
        self.assertEqual(self.hinted('{ name = "s", note = "n", badge = 1 }', '{ name = "s", note = "n", badge = 2 }'), ['e', 'm', 't', 'w'])
        self.assertEqual(self.hinted('"wait n", "on 1"', '"wait n", "signal m 4", "on 1"'), ['t', 'w'])
        self.assertEqual(self.hinted('"signal m 2", "on 2"', '"on 2"'), ['e', 'q', 'm', 'm4', 't', 'w'])

    def test_a_badge_that_leaves_nothing_to_do_answers_nothing(self) -> None:
        # M has an empty handler for 8
        eight = ('"signal m 2", "on 2"', '"signal m 8", "on 2"')
        self.assertEqual(self.hinted(*eight), ['e', 'q', 'm', 'm4', 't', 'w'])
        self.assertEqual(self.hinted('"compute 2", "signal m 2"', '"compute 2", "signal m 12"'), ['e', 'm', 't', 'w'])

    def test_a_call_is_of_the_handlers_for_its_badge(self) -> None:
        self.assertEqual(self.hinted('"compute 2", "signal m 2"', '"call v 2"'), ['e', 'm', 't', 'w'])
        self.assertEqual(self.hinted('"compute 2", "signal m 2"', '"call v 3"'), ['t', 'w'])

    def test_a_later_wait_gives_its_handler_or_the_whole_job(self) -> None:
        # a signal behind the wait for z carries what t posts there; one before it does not, nor one of another handler
        self.assertEqual(self.hinted('"compute 2"', '"wait z", "compute 2"'), ['q', 'm4', 'w'])
        self.assertEqual(self.hinted('"signal m 2", "on 2"', '"signal m 2", "wait z", "compute 1", "on 2"'), ['q', 'm4', 't', 'w'])
        self.assertEqual(self.hinted('"on 2", "signal m 4"', '"on 2", "wait z", "signal m 4"'), ['q', 'm4', 't'])
        # in no handler it gives to all of them, and what the first wait takes stays where it is
        self.assertEqual(self.hinted('"wait n", "on 1"', '"wait n", "wait z", "on 1"'), ['q', 'm4'])
        # in a handler it gives to those that have a badge in common with it
        self.assertEqual(self.hinted('"on 1", "compute 2"', '"on 3", "wait z", "on 1", "compute 2"'), ['q', 'm4'])

    def test_a_whole_job_answers_for_any_badge(self) -> None:
        self.assertEqual(self.hinted('"wait m", "on 2"', '"wait m", "wait z", "compute 1", "on 2"'), ['q', 'm4'])

    def test_the_line(self) -> None:
        text, *_ = Uses(tomllib.loads(WAY)).unreached()
        self.assertEqual(text, 'hint chain q: no signal leads from s to Q')
        self.assertEqual(values_of(text), {'kind': 'hint', 'hint': 'unreached', 'chain': 'q', 'source': 's', 'thread': 'Q'})


class Overload(unittest.TestCase):
    def test_each_origin_is_answered_once(self) -> None:
        self.assertEqual(latencies(LOOP, 'c', OVERLOAD), [20, 31, 21])
        self.assertEqual(reading_of(LOOP, 'c', OVERLOAD).unanswered, [44])

    def test_the_earliest_origin_of_a_row_is_found(self) -> None:
        self.assertEqual(reading_of(LOOP, 'c', OVERLOAD).slow(), ['43 0 slow c latency 31 deadline 20 origin 12'])


if __name__ == '__main__':
    unittest.main()
