"""The plain reading of chains for ever on systems that were worked by hand, and programs that are wrong: the check has to see it."""
import contextlib
import io
import json
import pathlib
import tempfile
import tomllib
import unittest
from unittest import mock

from checks import common
from checks.common import Ran
from checks.program import forever, forever_chains
from checks.program.forever_chains import ChainClaim
from checks.program.verdicts import System

# an interrupt at 40, 60, .. wakes Driver, which signals 3 ticks later; the signal arrives 3 ticks after that, and Filter works 5
PIPELINE = '''version = 3
cores = 2
delay = 3
context = [
    { name = "driver", core = 0, budget = 10, period = 20, extra_refills = 4 },
    { name = "filter", core = 1, budget = 12, period = 20, extra_refills = 4 },
]
note = [{ name = "irq", core = 0 }, { name = "data", core = 1 }]
source = [{ name = "nic", note = "irq", badge = 1, period = 20, start = 40 }]
thread = [
    { name = "Driver", context = "driver", priority = 50, script = ["wait irq", "compute 2", "signal data 1"] },
    { name = "Filter", context = "filter", priority = 50, script = ["wait data", "compute 5"] },
]
chain = [{ name = "packet", source = "nic", thread = "Filter", deadline = 15 }]
'''
FIRST = '''0 0 release Driver
0 0 run Driver
0 1 release Filter
0 1 run Filter
1 0 stop Driver wait 1
1 1 stop Filter wait 1
'''
ROWS = (
    (0, '0 interrupt nic irq 1'), (0, '0 wake Driver irq 1'), (0, '0 run Driver'), (3, '0 signal Driver data 1'), (3, '0 round Driver {} 3'), (4, '0 stop Driver wait 4'),
    (6, '1 arrive data 1 from 0'), (6, '1 wake Filter data 1'), (6, '1 run Filter'), (11, '1 round Filter {} 5'), (12, '1 stop Filter wait 6'),
)
SETS = '''cores 0: repeats from 51 with period 20
thread Driver: greatest response 3, throttled: never
nothing is ever found
cores 0 1: repeats from 72 with period 20
thread Filter: greatest response 5, throttled: never
nothing is ever found
'''
IN_TIME = SETS + '''chain packet: repeats from 72 with period 20, greatest latency 11, answers 1 in each period
sets 2 repeating 2 findings 0 threads 2 deadlines 1
'''
# the answers of 51 and 71 come before 72
SLOW = PIPELINE.replace('deadline = 15', 'deadline = 10')
SLOW_TEXT = SETS + '''chain packet: repeats from 72 with period 20, greatest latency 11, answers 1 in each period
slow packet: 1 in each period, 2 before
sets 2 repeating 2 findings 1 threads 2 deadlines 1
'''
# no job of Filter has a badge of 2
NEVER = PIPELINE.replace('deadline = 15', 'badges = 2, deadline = 30')
NEVER_TEXT = SETS + '''chain packet: repeats from 72 with period 20, greatest latency -, answers 0 in each period
unanswered packet: 1 in each period, 2 before
sets 2 repeating 2 findings 1 threads 2 deadlines 1
'''
# up to 84 two interrupts have their answer, and the third one came 4 ticks ago
SO_FAR = SLOW.replace('deadline = 10', 'deadline = 4')
SO_FAR_TEXT = SETS.replace('repeats from 51 with period 20', 'no repetition found up to 84').replace('repeats from 72 with period 20', 'no repetition found up to 84') \
    .replace('nothing is ever found\n', '').replace(', throttled: never', ' so far') + '''\
chain packet: no repetition found up to 84, greatest latency 11 so far, answers 2 so far
slow packet: 2 so far
unanswered packet: 1 so far
sets 2 repeating 0 findings 2 threads 2 deadlines 1
'''
# the first job of Filter ends at 55, and is the only one that is late
ONCE = PIPELINE.replace('deadline = 15', 'deadline = 11')
ONCE_TEXT = SETS.replace('response 5', 'response 9') + '''chain packet: repeats from 72 with period 20, greatest latency 15, answers 1 in each period
slow packet: 0 in each period, 1 before
sets 2 repeating 2 findings 1 threads 2 deadlines 1
'''
# the sets repeat, and nobody knows of the chain
OPEN_TEXT = SETS + '''chain packet: no repetition found up to 95, greatest latency 11 so far, answers 3 so far
sets 2 repeating 2 findings 0 threads 2 deadlines 1
'''


def rows(far: int) -> str:
    """The rows up to a moment."""
    lines = [(40 + 20 * number + after, what.format(number + 1)) for number in range(max(0, far // 20)) for after, what in ROWS]
    return FIRST + ''.join(f'{moment} {what}\n' for moment, what in lines if moment <= far)


def once(text: str) -> str:
    """The rows where the first job of Filter takes 9 ticks."""
    return text.replace('51 1 round Filter 1 5', '55 1 round Filter 1 9').replace('52 1 stop Filter wait 6', '56 1 stop Filter wait 10')


def object_of(line: str, cores: str, deadline: int) -> dict[str, object]:
    """A line as an object."""
    words = line.replace(':', '').replace(',', '').split()
    match words:
        case ['cores', *cores_, 'repeats', 'from', start, 'with', 'period', period]:
            return {'kind': 'repeats', 'cores': ' '.join(cores_), 'from': int(start), 'period': int(period)}
        case ['cores', *cores_, 'no', 'repetition', 'found', 'up', 'to', horizon]:
            return {'kind': 'open', 'cores': ' '.join(cores_), 'horizon': int(horizon)}
        case ['thread', name, 'greatest', 'response', greatest, *rest]:
            of, never = ('thread_so_far', {}) if 'far' in rest else ('thread', {'throttled': 'never'})
            return {'kind': of, 'thread': name, 'greatest': int(greatest), **never}
        case ['nothing', *_]:
            return {'kind': 'clean', 'cores': cores}
        case ['chain', name, 'repeats', 'from', start, 'with', 'period', period, 'greatest', 'latency', greatest, 'answers', answers, *_]:
            known = {} if greatest == '-' else {'greatest': int(greatest)}
            return {'kind': 'chain', 'chain': name, 'from': int(start), 'period': int(period), **known, 'answers': int(answers), 'deadline': deadline}
        case ['chain', name, 'no', 'repetition', 'found', 'up', 'to', horizon, 'greatest', 'latency', greatest, 'so', 'far', 'answers', answers, *_]:
            known = {} if greatest == '-' else {'greatest': int(greatest)}
            return {'kind': 'chain', 'chain': name, 'horizon': int(horizon), **known, 'answers': int(answers), 'deadline': deadline}
        case [kind, name, many, 'in', 'each', 'period', before, 'before']:
            return {'kind': kind, 'chain': name, 'each_period': int(many), 'before': int(before)}
        case [kind, name, many, 'so', 'far']:
            return {'kind': kind, 'chain': name, 'so_far': int(many)}
    return {'kind': 'sets', **{key: int(number) for key, number in zip(words[::2], words[1::2])}}


def as_json(text: str, deadline: int) -> str:
    """A verdict as JSON, from its text."""
    found: list[dict[str, object]] = []
    for line in text.splitlines():
        cores = next((str(each['cores']) for each in reversed(found) if 'cores' in each), '')
        found.append(object_of(line, cores, deadline))
    return ''.join(json.dumps(each, separators=(',', ':')) + '\n' for each in found)


class Programs(unittest.TestCase):
    def failed(self, text: str, written: str, status: int, horizon: int = 95, wrong: object = None, late: str = '', json_text: str = '') -> int:
        """How many tries fail of a program that writes this."""
        deadline = tomllib.loads(text)['chain'][0].get('deadline', 0)

        def ran(given: list[common.Word], _text: bytes = b'', **_: object) -> Ran:
            command = [str(word) for word in given]
            far = next(int(word.partition('=')[2]) for word in command if word.startswith('--horizon'))
            if command[0] == 'mcsim':
                return Ran(0, (wrong(rows(far)) if callable(wrong) else rows(far)).encode(), b'')
            if '--forever' not in command:
                return Ran(0, late.encode(), b'')
            return Ran(status, ((json_text or as_json(written, deadline)) if '--format=json' in command else written).encode(), b'')

        trial = forever.Trial(pathlib.Path('mcsim'), pathlib.Path('mcscheck'))
        with tempfile.TemporaryDirectory() as folder, mock.patch('checks.common.run', ran), mock.patch('tempfile.tempdir', folder):
            with contextlib.redirect_stdout(io.StringIO()):
                trial.agrees(System('worked', text, horizon))
        self.seen, self.repeating, self.on_sets = trial.seen, trial.repeating, trial.on_sets
        return trial.count.tally.failed


class RightPrograms(Programs):
    def test_answers_in_time(self) -> None:
        self.assertEqual(self.failed(PIPELINE, IN_TIME, 0), 0)
        self.assertEqual((self.seen['a chain'], self.seen['clean with a chain'], self.seen['a chain from one core to another']), (1, 1, 1))
        self.assertEqual((self.repeating, self.on_sets), (1, 1))

    def test_slow_answers(self) -> None:
        self.assertEqual(self.failed(SLOW, SLOW_TEXT, 5), 0)
        self.assertEqual((self.seen['slow in each period'], self.seen['unanswered in each period'], self.seen['clean with a chain']), (1, 0, 0))

    def test_interrupts_that_never_have_an_answer(self) -> None:
        self.assertEqual(self.failed(NEVER, NEVER_TEXT, 5), 0)
        self.assertEqual((self.seen['unanswered in each period'], self.seen['a chain with answers']), (1, 0))
        # without a deadline none is late
        text = NEVER_TEXT.replace('unanswered packet: 1 in each period, 2 before\n', '').replace('findings 1', 'findings 0').replace('deadlines 1', 'deadlines 0')
        objects = as_json(text, 0).replace(',"deadline":0', '')
        self.assertEqual(self.failed(NEVER.replace(', deadline = 30', ''), text, 6, json_text=objects), 0)

    def test_no_repetition_so_far(self) -> None:
        self.assertEqual(self.failed(SO_FAR, SO_FAR_TEXT, 5, horizon=84), 0)
        self.assertEqual((self.seen['slow so far'], self.seen['unanswered so far'], self.seen['a chain that is open']), (1, 1, 1))

    def test_an_answer_that_is_late_once(self) -> None:
        self.assertEqual(self.failed(ONCE, ONCE_TEXT, 5, wrong=once), 0)
        self.assertEqual(self.seen['slow before alone'], 1)

    def test_a_chain_that_is_open(self) -> None:
        self.assertEqual(self.failed(PIPELINE, OPEN_TEXT, 6), 0)
        self.assertEqual((self.repeating, self.on_sets, self.seen['a chain that is open']), (0, 1, 1))

    def test_the_objects(self) -> None:
        self.assertEqual(as_json(SLOW_TEXT, 10).splitlines()[-3:], [
            '{"kind":"chain","chain":"packet","from":72,"period":20,"greatest":11,"answers":1,"deadline":10}',
            '{"kind":"slow","chain":"packet","each_period":1,"before":2}',
            '{"kind":"sets","sets":2,"repeating":2,"findings":1,"threads":2,"deadlines":1}',
        ])

    def test_claims(self) -> None:
        self.assertEqual(forever_chains.chain_claims_of(SLOW_TEXT), [ChainClaim('packet', 72, 20)])
        self.assertEqual(forever_chains.chain_claims_of(SO_FAR_TEXT), [ChainClaim('packet')])


class WrongPrograms(Programs):
    def test_numbers_that_are_off_by_one(self) -> None:
        for text, written, status, old, new in (
            (PIPELINE, IN_TIME, 0, 'latency 11', 'latency 12'), (PIPELINE, IN_TIME, 0, 'latency 11', 'latency 10'),
            (PIPELINE, IN_TIME, 0, 'answers 1', 'answers 2'), (PIPELINE, IN_TIME, 0, 'answers 1', 'answers 0'),
            (SLOW, SLOW_TEXT, 5, 'slow packet: 1', 'slow packet: 2'), (SLOW, SLOW_TEXT, 5, '2 before', '3 before'), (SLOW, SLOW_TEXT, 5, '2 before', '1 before'),
            (NEVER, NEVER_TEXT, 5, 'unanswered packet: 1', 'unanswered packet: 0'), (NEVER, NEVER_TEXT, 5, '2 before', '1 before'),
            (NEVER, NEVER_TEXT, 5, 'latency -', 'latency 0'), (SLOW, SLOW_TEXT, 5, 'findings 1', 'findings 0'),
            (PIPELINE, IN_TIME, 0, 'deadlines 1', 'deadlines 0'), (PIPELINE, OPEN_TEXT, 6, 'answers 3', 'answers 4'), (PIPELINE, OPEN_TEXT, 6, 'up to 95', 'up to 96'),
        ):
            self.assertIn(old, written)
            self.assertGreaterEqual(self.failed(text, written.replace(old, new), status), 1, new)

    def test_a_claim_that_the_rows_contradict(self) -> None:
        for new in ('from 72 with period 10', 'from 72 with period 30', 'from 20 with period 20', 'from 72 with period 0', 'from 77 with period 20'):
            written = IN_TIME.replace('packet: repeats from 72 with period 20', f'packet: repeats {new}')
            self.assertNotEqual(written, IN_TIME)
            self.assertGreaterEqual(self.failed(PIPELINE, written, 0), 1, new)

    def test_answers_that_do_not_come_again(self) -> None:
        for old, new in (('111 1 round Filter 4 5', '112 1 round Filter 4 6'), ('111 1 round Filter 4 5\n', ''), ('120 0 interrupt nic irq 1\n', '')):
            self.assertIn(old, rows(152))
            self.assertGreaterEqual(self.failed(PIPELINE, IN_TIME, 0, wrong=lambda text: text.replace(old, new)), 1, old)

    def test_lines_that_are_not_there(self) -> None:
        for text, written, status in ((SLOW, SLOW_TEXT, 5), (NEVER, NEVER_TEXT, 5), (PIPELINE, IN_TIME, 0), (PIPELINE, OPEN_TEXT, 6)):
            for line in written.splitlines(keepends=True)[len(SETS.splitlines()):]:
                self.assertGreaterEqual(self.failed(text, written.replace(line, ''), status), 1, line)

    def test_lines_too_much(self) -> None:
        for text, written, status, line in (
            (PIPELINE, IN_TIME, 0, 'slow packet: 0 in each period, 0 before\n'), (SLOW, SLOW_TEXT, 5, 'unanswered packet: 0 in each period, 0 before\n'),
            (PIPELINE, IN_TIME, 0, 'unanswered packet: 0 in each period, 0 before\n'),
            (PIPELINE, IN_TIME, 0, 'chain other: repeats from 72 with period 20, greatest latency -, answers 0 in each period\n'),
        ):
            self.assertGreaterEqual(self.failed(text, written.replace('sets 2', f'{line}sets 2'), status), 1, line)

    def test_another_status(self) -> None:
        for status in (0, 5, 6):
            self.assertEqual(self.failed(PIPELINE, IN_TIME, status) > 0, status != 0)
            self.assertEqual(self.failed(PIPELINE, OPEN_TEXT, status) > 0, status != 6)
            self.assertEqual(self.failed(SLOW, SLOW_TEXT, status) > 0, status != 5)

    def test_objects_of_something_else(self) -> None:
        right = as_json(SLOW_TEXT, 10)
        for old, new in (('"kind":"slow"', '"kind":"unanswered"'), (',"deadline":10', ''), ('"each_period":1', '"each_period":2'), ('"answers":1', '"answers":3')):
            self.assertIn(old, right)
            self.assertEqual(self.failed(SLOW, SLOW_TEXT, 5, json_text=right.replace(old, new)), 1, new)

    def test_a_verdict_that_finds_what_never_is(self) -> None:
        self.assertGreaterEqual(self.failed(PIPELINE, IN_TIME, 0, late='80 1 unanswered packet deadline 15 origin 60\n'), 1)
        self.assertEqual(self.failed(PIPELINE, IN_TIME, 0, late='80 1 miss Filter round 1 response 5 deadline 4 activated 1\n'), 0)


if __name__ == '__main__':
    unittest.main()
