"""The plain reading of verdicts for ever on systems that were worked by hand, and programs that are wrong: the check has to see it."""
import contextlib
import io
import json
import pathlib
import sys
import tempfile
import tomllib
import unittest
from collections.abc import Callable
from unittest import mock

CHECKS = pathlib.Path(__file__).resolve().parent.parent
from checks import common
from checks.common import DATA, TOP, Ran
from checks.measure import forever_rows
from checks.program import forever, forever_model, forever_reading, model
from checks.program.forever_reading import Claim, CoreSet
from checks.program.verdicts import System

# the clock ticks at 0, 10, .., and signals a tick later; the loop is woken at 2, 12, .., has ended its round 2 ticks later, and waits a tick after that
SYSTEMS = TOP / 'examples' / 'systems'
LOOP = '''# A loop of 2 ticks, woken every 10 by a clock thread on another core.
version = 1
cores = 2
delay = 1
context = [
    { name = "loop", core = 0, budget = 4, period = 10 },
    { name = "clock", core = 1, budget = 1, period = 10 },
]
note = [{ name = "tick", core = 0 }]
thread = [
    { name = "Loop", context = "loop", priority = 9, deadline = 5, script = ["wait tick", "compute 2"] },
    { name = "Clock", context = "clock", priority = 9, script = ["signal tick 1"] },
]
'''
LATE = LOOP.replace('deadline = 5', 'deadline = 1')
# whose clock has a third thing to do, behind its one round
DONE = LOOP.replace('priority = 9, script', 'priority = 9, rounds = 1, script')
FIRST = '''0 0 release Loop
0 0 run Loop
0 1 release Clock
0 1 run Clock
1 0 stop Loop wait 1
1 1 signal Clock tick 1
1 1 round Clock 1 1
1 1 stop Clock spent 1 until 10
2 0 arrive tick 1 from 1
2 0 wake Loop tick 1
2 0 run Loop
4 0 round Loop 1 2
5 0 stop Loop wait 3
'''
NEXT = '''{0}0 1 release Clock
{0}0 1 run Clock
{0}1 1 signal Clock tick 1
{0}1 1 round Clock {1} 10
{0}1 1 stop Clock spent 1 until {1}0
{0}2 0 arrive tick 1 from 1
{0}2 0 wake Loop tick 1
{0}2 0 run Loop
{0}4 0 round Loop {1} 2
{0}5 0 stop Loop wait 3
'''
IN_TIME = '''cores 0 1: repeats from 13 with period 10
thread Loop: greatest response 2, throttled: never
nothing is ever found
cores 1: repeats from 2 with period 20
thread Clock: greatest response 1
nothing is ever found
sets 2 repeating 2 findings 0 threads 2 deadlines 1
'''
IN_TIME_AS_JSON = '''{"kind":"repeats","cores":"0 1","from":13,"period":10}
{"kind":"thread","thread":"Loop","greatest":2,"throttled":"never"}
{"kind":"clean","cores":"0 1"}
{"kind":"repeats","cores":"1","from":2,"period":20}
{"kind":"thread","thread":"Clock","greatest":1}
{"kind":"clean","cores":"1"}
{"kind":"sets","sets":2,"repeating":2,"findings":0,"threads":2,"deadlines":1}
'''
# each round misses; up to 4, to 14, .. they are one, two, ..
TOO_LATE = '''cores 0 1: repeats from 14 with period 10
miss Loop: 1 in each period, 1 before
thread Loop: greatest response 2, throttled: never
cores 1: no repetition found up to 95
thread Clock: greatest response 1 so far
sets 2 repeating 1 findings 1 threads 2 deadlines 1
'''
TOO_LATE_AS_JSON = '''{"kind":"repeats","cores":"0 1","from":14,"period":10}
{"kind":"miss","thread":"Loop","each_period":1,"before":1}
{"kind":"thread","thread":"Loop","greatest":2,"throttled":"never"}
{"kind":"open","cores":"1","horizon":95}
{"kind":"thread_so_far","thread":"Clock","greatest":1}
{"kind":"sets","sets":2,"repeating":1,"findings":1,"threads":2,"deadlines":1}
'''
# nobody takes what T signals each 10, so that all but the first are lost; U waits for what nobody signals, and V ends once
LOST = '''version = 1
cores = 1
delay = 1
context = [{ name = "t", core = 0, budget = 1, period = 10 }, { name = "u", core = 0, budget = 1, period = 10 }, { name = "v", core = 0, budget = 9, period = 10 }]
note = [{ name = "n", core = 0 }, { name = "m", core = 0 }]
thread = [
    { name = "T", context = "t", priority = 9, script = ["signal n 1"] },
    { name = "U", context = "u", priority = 8, deadline = 3, script = ["wait m", "compute 1"] },
    { name = "V", context = "v", priority = 7, rounds = 1, script = ["compute 1"] },
]
'''
LOST_FIRST = '''0 0 release T
0 0 release U
0 0 release V
0 0 run T
1 0 signal T n 1
1 0 hold n 1
1 0 round T 1 1
1 0 stop T spent 1 until 10
1 0 run U
2 0 stop U wait 1
2 0 run V
3 0 round V 1 1
3 0 stop V done 1
'''
LOST_NEXT = '''{0}0 0 release T
{0}0 0 run T
{0}1 0 signal T n 1
{0}1 0 hold n 1
{0}1 0 round T {1} 10
{0}1 0 stop T spent 1 until {1}0
'''
LOST_TEXT = '''cores 0: repeats from 15 with period 20
lost n: 2 in each period, 1 before
never U for ever
thread T: greatest response 1
thread U: greatest response -, throttled: never, ends no round from 15 on
thread V: greatest response 3, throttled: never, ends no round from 15 on
sets 1 repeating 1 findings 2 threads 3 deadlines 1
'''
ALLOWED_TEXT = LOST_TEXT.replace('lost n: 2 in each period, 1 before\n', '').replace('findings 2', 'findings 1')
# the same where V has a deadline, which it meets, in place of U; and what is said of it where signals of n may be lost
QUIET = LOST.replace('deadline = 3, ', '').replace('rounds = 1,', 'rounds = 1, deadline = 5,')
QUIET_TEXT = ALLOWED_TEXT.replace('never U for ever\n', '').replace('findings 1', 'findings 0').replace('sets', 'nothing is ever found\nsets')

# U has one word and computes without end, and each later one is left there
ENDLESS = LOST.replace('"wait m", "compute 1"', '"wait n", "wait m", "compute 1"')
ENDLESS_FIRST = '''0 0 release T
0 0 release U
0 0 release V
0 0 run T
1 0 signal T n 1
1 0 hold n 1
1 0 round T 1 1
1 0 stop T spent 1 until 10
1 0 run U
2 0 got U n 1
2 0 stop U spent 1 until 11
2 0 run V
3 0 round V 1 1
3 0 stop V done 1
11 0 release U
11 0 run U
12 0 stop U wait 1
'''
ENDLESS_TEXT = '''cores 0: repeats from 25 with period 10
lost n: 1 in each period, 1 before
overdue U round 1 activated 1 for ever
untaken n by U word 1 set 11 for ever
thread T: greatest response 1
thread U: greatest response -, ends no round from 25 on
thread V: greatest response 3, throttled: never, ends no round from 25 on
sets 1 repeating 1 findings 3 threads 3 deadlines 1
'''
ENDLESS_AS_JSON = '''{"kind":"repeats","cores":"0","from":25,"period":10}
{"kind":"lost","note":"n","each_period":1,"before":1}
{"kind":"overdue","thread":"U","number":1,"activated":1}
{"kind":"untaken","note":"n","by":["U"],"word":1,"set":11}
{"kind":"thread","thread":"T","greatest":1}
{"kind":"thread","thread":"U","ends_no_round_from":25}
{"kind":"thread","thread":"V","greatest":3,"throttled":"never","ends_no_round_from":25}
{"kind":"sets","sets":1,"repeating":1,"findings":3,"threads":3,"deadlines":1}
'''
# a second thread waits for the tick from 2 on; each tick is there for Loop, of the greater priority
SPARE = '    { name = "Spare", context = "spare", priority = 1, script = ["wait tick", "compute 1"] },\n'
SHARED = LOOP.replace('    { name = "clock"', '    { name = "spare", core = 0, budget = 4, period = 10 },\n    { name = "clock"').replace('    { name = "Clock"', f'{SPARE}    {{ name = "Clock"')
SHARED_FIRST = FIRST.replace('0 0 run Loop\n', '0 0 release Spare\n0 0 run Loop\n').replace('1 0 stop Loop wait 1\n', '1 0 stop Loop wait 1\n1 0 run Spare\n').replace(
    '2 0 arrive', '2 0 stop Spare wait 1\n2 0 arrive')
SHARED_TEXT = IN_TIME.replace('never\nnothing is ever found\n', 'never\nthread Spare: greatest response -, throttled: never, ends no round from 13 on\nnothing is ever found\n').replace(
    'threads 2', 'threads 3')


# G has 4 ticks of each 10 behind T, and only computes: each third of its ticks ends a round of it, and the other rows repeat
GUEST = '''version = 1
cores = 1
delay = 1
context = [{ name = "t", core = 0, budget = 1, period = 10 }, { name = "g", core = 0, budget = 4, period = 10 }]
thread = [
    { name = "T", context = "t", priority = 9, deadline = 12, script = ["compute 1"] },
    { name = "G", context = "g", priority = 1, script = ["compute 3"] },
]
'''
GUEST_FIRST = '''0 0 release T
0 0 release G
0 0 run T
1 0 round T 1 1
1 0 stop T spent 1 until 10
1 0 run G
5 0 stop G spent 4 until 10
'''
GUEST_NEXT = '''{0}0 0 release T
{0}0 0 release G
{0}0 0 run T
{0}1 0 round T {1} 10
{0}1 0 stop T spent 1 until {1}0
{0}1 0 run G
{0}5 0 stop G spent 4 until {1}0
'''
GUEST_TEXT = '''cores 0: repeats from 5 with period 10
thread T: greatest response 1
thread G: computes without end
nothing is ever found
sets 1 repeating 1 findings 0 threads 2 deadlines 1
'''
GUEST_AS_JSON = '''{"kind":"repeats","cores":"0","from":5,"period":10}
{"kind":"thread","thread":"T","greatest":1}
{"kind":"computes","thread":"G"}
{"kind":"clean","cores":"0"}
{"kind":"sets","sets":1,"repeating":1,"findings":0,"threads":2,"deadlines":1}
'''


def with_rounds(text: str) -> str:
    """The rows with the rounds of G: the tick 3 k of it is one of its four ticks in some 10."""
    found = text.splitlines(keepends=True)
    far = forever_reading.moment_of(found[-1])
    for number in range(1, far):
        turn, place = divmod(3 * number - 1, 4)
        moment = 10 * turn + 2 + place
        if moment > far:
            return ''.join(found)
        behind = next(at for at, line in enumerate(found) if forever_reading.moment_of(line) >= moment)
        found.insert(behind, f'{moment} 0 round G {number} 9\n')
    return ''.join(found)


def rows(first: str, later: str, far: int) -> str:
    """The rows up to a moment."""
    text = first + ''.join(later.format(n, n + 1) for n in range(1, far // 10 + 1))
    return ''.join(line for line in text.splitlines(keepends=True) if forever_reading.moment_of(line) <= far)


def as_json(text: str) -> str:
    """A verdict as JSON, from its text, by the words of each line."""
    names = {'miss': 'thread', 'lost': 'note'}
    found = []
    for line in text.splitlines():
        words = line.replace(':', '').replace(',', '').split()
        match words:
            case ['cores', *cores, 'repeats', 'from', start, 'with', 'period', period]:
                found.append({'kind': 'repeats', 'cores': ' '.join(cores), 'from': int(start), 'period': int(period)})
            case ['cores', *cores, 'no', 'repetition', 'found', 'up', 'to', horizon]:
                found.append({'kind': 'open', 'cores': ' '.join(cores), 'horizon': int(horizon)})
            case ['miss' | 'lost' as kind, name, many, 'in', 'each', 'period', before, 'before']:
                found.append({'kind': kind, names[kind]: name, 'each_period': int(many), 'before': int(before)})
            case ['miss' | 'lost' as kind, name, many, 'so', 'far']:
                found.append({'kind': kind, names[kind]: name, 'so_far': int(many)})
            case ['overdue', name, 'round', round_, 'activated', activated, 'for', 'ever']:
                found.append({'kind': 'overdue', 'thread': name, 'number': int(round_), 'activated': int(activated)})
            case ['untaken', name, 'by', by, 'word', word, 'set', since, 'for', 'ever']:
                found.append({'kind': 'untaken', 'note': name, 'by': [by], 'word': int(word), 'set': int(since)})
            case ['never', name, 'for', 'ever']:
                found.append({'kind': 'never', 'thread': name})
            case ['overdue' | 'never' as kind, name, *_, moment]:
                found.append({'kind': kind, 'thread': name, 'moment': int(moment)})
            case ['thread', name, 'computes', 'without', 'end', *rest]:
                found.append({'kind': 'computes', 'thread': name, **({'throttled': 'never'} if rest else {})})
            case ['thread', name, 'greatest', 'response', greatest, *rest]:
                number = {} if greatest == '-' else {'greatest': int(greatest)}
                of = 'thread_so_far' if rest == ['so', 'far'] else 'thread'
                never = {'throttled': 'never'} if 'throttled' in rest else {}
                found.append({'kind': of, 'thread': name, **number, **never, **({'ends_no_round_from': int(rest[-2])} if 'ends' in rest else {})})
            case ['sets', *_]:
                found.append({'kind': 'sets', **{key: int(number) for key, number in zip(words[::2], words[1::2])}})
            case ['nothing', *_]:
                found.append({'kind': 'clean', 'cores': next(each['cores'] for each in reversed(found) if 'cores' in each)})
    return ''.join(json.dumps(each, separators=(',', ':')) + '\n' for each in found)


class Programs(unittest.TestCase):
    def failed(
        self, text: str, written: str, status: int, first: str = FIRST, later: str = NEXT, wrong: Callable[[Ran], Ran] = lambda ran: ran,
        written_as_json: str = '', rows_wrong: Callable[[str], str] = lambda rows: rows, allowed: tuple[str, ...] = (), horizon: int = 95,
    ) -> int:
        """How many tries fail of a program that writes this, wrong in some way."""

        def ran(given: list[common.Word], text: bytes = b'', **_: object) -> Ran:
            command = [str(word) for word in given]
            far = next(int(word.partition('=')[2]) for word in command if word.startswith('--horizon'))
            if command[0] == 'mcsim':
                return Ran(0, rows_wrong(rows(first, later, far)).encode(), b'')
            form = (written_as_json or as_json(written)) if '--format=json' in command else written
            return wrong(Ran(status, form.encode(), b''))

        trial = forever.Trial(pathlib.Path('mcsim'), pathlib.Path('mcscheck'))
        with tempfile.TemporaryDirectory() as folder, mock.patch('checks.common.run', ran), mock.patch('tempfile.tempdir', folder):
            with contextlib.redirect_stdout(io.StringIO()):
                trial.agrees(System('worked', text, horizon), allowed=allowed)
        self.seen = trial.seen
        return trial.count.tally.failed


class RightPrograms(Programs):
    def test_nothing_is_ever_found(self) -> None:
        self.assertEqual(as_json(IN_TIME), IN_TIME_AS_JSON)
        self.assertEqual(self.failed(LOOP, IN_TIME, 0), 0)
        self.assertEqual((self.seen['clean'], self.seen['repeats'], self.seen['rounds that go on']), (2, 2, 2))

    def test_a_deadline_is_missed_in_each_period(self) -> None:
        self.assertEqual(as_json(TOO_LATE), TOO_LATE_AS_JSON)
        self.assertEqual(self.failed(LATE, TOO_LATE, 5), 0)
        self.assertEqual((self.seen['miss in each period'], self.seen['overdue'], self.seen['open']), (1, 0, 1))

    def test_signals_are_lost_and_a_thread_never_comes(self) -> None:
        self.assertEqual(self.failed(LOST, LOST_TEXT, 5, LOST_FIRST, LOST_NEXT), 0)
        self.assertEqual((self.seen['lost in each period'], self.seen['never'], self.seen['ends no round']), (1, 1, 2))

    def test_lost_signals_that_are_allowed_are_not_told(self) -> None:
        self.assertEqual(self.failed(LOST, ALLOWED_TEXT, 5, LOST_FIRST, LOST_NEXT, allowed=('n',)), 0)
        quiet = QUIET_TEXT.replace('nothing is ever found\n', '')
        self.assertEqual(self.failed(QUIET, quiet, 0, LOST_FIRST, LOST_NEXT, allowed=('n',)), 0)

    def test_nothing_is_judged_without_a_deadline(self) -> None:
        text = QUIET_TEXT.replace('deadlines 1', 'deadlines 0')
        for status in (0, 6):
            failed = self.failed(QUIET.replace('deadline = 5, ', ''), text, status, LOST_FIRST, LOST_NEXT, allowed=('n',))
            self.assertEqual(failed, 2 * (status != 6))
        self.assertEqual(self.seen['clean without a deadline'], 1)

    def test_nothing_is_found_so_far(self) -> None:
        text = 'cores 0 1: no repetition found up to 95\nthread Loop: greatest response 2 so far\n' + IN_TIME.split('found\n', 1)[1].replace('g 2 f', 'g 1 f')
        self.assertEqual(self.failed(LOOP, text, 6), 0)
        self.assertEqual(self.seen['status 6'], 2)


    def test_a_spare_worker(self) -> None:
        self.assertIn('Spare', SHARED)
        self.assertEqual(self.failed(SHARED, SHARED_TEXT, 0, SHARED_FIRST), 0)
        self.assertEqual((self.seen['clean'], self.seen['repeats']), (2, 2))

    def test_a_round_that_never_ends_and_a_word_that_nobody_ever_takes(self) -> None:
        # U is woken by the signal of 1 and waits on for what nobody signals; the next one is held from 11 on
        self.assertEqual(as_json(ENDLESS_TEXT), ENDLESS_AS_JSON)
        self.assertEqual(self.failed(ENDLESS, ENDLESS_TEXT, 5, ENDLESS_FIRST, LOST_NEXT, horizon=65), 0)
        self.assertEqual((self.seen['overdue'], self.seen['untaken'], self.seen['lost in each period']), (1, 1, 1))


    def test_a_thread_that_computes_without_end(self) -> None:
        self.assertEqual(as_json(GUEST_TEXT), GUEST_AS_JSON)
        self.assertEqual(self.failed(GUEST, GUEST_TEXT, 0, GUEST_FIRST, GUEST_NEXT, rows_wrong=with_rounds), 0)
        self.assertEqual((self.seen['computes'], self.seen['computes and is never throttled'], self.seen['clean']), (1, 0, 1))
        # the same without the rounds, if it spins
        spins = GUEST.replace('version = 1', 'version = 3').replace('compute 3', 'spin')
        self.assertEqual(self.failed(spins, GUEST_TEXT, 0, GUEST_FIRST, GUEST_NEXT), 0)


class WrongPrograms(Programs):
    def test_a_thread_that_computes_without_end(self) -> None:
        for old, new in (
            ('without end', 'without end, throttled: never'), ('G: computes without end', 'G: greatest response 9'),
            ('T: greatest response 1', 'T: computes without end'), ('thread G: computes without end\n', ''),
        ):
            self.assertIn(old, GUEST_TEXT)
            written = GUEST_TEXT.replace(old, new)
            self.assertGreaterEqual(self.failed(GUEST, written, 0, GUEST_FIRST, GUEST_NEXT, rows_wrong=with_rounds), 1, new)
        # its place decides something if it has a deadline, a last round, or an item that does something
        for old, new in (('priority = 1', 'priority = 1, deadline = 99'), ('priority = 1', 'priority = 1, rounds = 99'), ('"compute 3"', '"compute 3", "yield"')):
            self.assertIn(old, GUEST)
            self.assertGreaterEqual(self.failed(GUEST.replace(old, new), GUEST_TEXT, 0, GUEST_FIRST, GUEST_NEXT, rows_wrong=with_rounds), 1, new)

    def test_a_line_for_ever_that_the_rows_contradict(self) -> None:
        for old, new in (
            ('round 1 activated 1', 'round 2 activated 1'), ('activated 1', 'activated 2'), ('set 11', 'set 21'), ('word 1', 'word 2'), ('by U', 'by T'),
            ('overdue U round 1 activated 1 for ever\n', ''), ('untaken n by U word 1 set 11 for ever\n', ''), ('overdue U round 1 activated 1', 'never U'),
        ):
            self.assertIn(old, ENDLESS_TEXT)
            self.assertGreaterEqual(self.failed(ENDLESS, ENDLESS_TEXT.replace(old, new), 5, ENDLESS_FIRST, LOST_NEXT, horizon=65), 1, new)

    def replaced(self, old: str, new: str, **how: object) -> int:
        """How many tries fail of each program, which writes something in place of something else, and that as JSON too."""
        texts = {LOOP: (IN_TIME, 0, FIRST, NEXT), LATE: (TOO_LATE, 5, FIRST, NEXT), LOST: (LOST_TEXT, 5, LOST_FIRST, LOST_NEXT)}
        found = [self.failed(text, written.replace(old, new), status, first, later) for text, (written, status, first, later) in texts.items() if old in written]
        self.assertTrue(found, old)
        return min(found)

    def test_a_claim_that_the_rows_contradict(self) -> None:
        for old, new in (
            ('from 13 with period 10', 'from 13 with period 5'), ('from 13 with period 10', 'from 1 with period 10'), ('with period 20', 'with period 11'),
            ('from 13 with period 10', 'from 13 with period 0'), ('from 13 with period 10', 'from 90 with period 10'),
            ('from 15 with period 20', 'from 1 with period 10'), ('from 15 with period 20', 'from 0 with period 20'),
        ):
            self.assertGreaterEqual(self.replaced(old, new), 1, new)

    def test_a_first_period_in_which_less_is_lost(self) -> None:
        # the signal of 1 is held, and each from 11 on is lost, though the rows are the same
        text, first = LOST.partition('    { name = "U"')[0] + ']', LOST_NEXT.format('', 1)
        good = 'cores 0: repeats from 2 with period 10\nlost n: 1 in each period, 0 before\nthread T: greatest response 1\nsets 1 repeating 1 findings 1 threads 1 deadlines 0\n'
        bad = 'cores 0: repeats from 0 with period 10\nthread T: greatest response 1\nsets 1 repeating 1 findings 0 threads 1 deadlines 0\n'
        self.assertEqual(self.failed(text, good, 5, first, LOST_NEXT), 0)
        self.assertEqual(self.failed(text, bad, 6, first, LOST_NEXT), 1)

    def test_a_line_that_tells_something_else(self) -> None:
        for old, new in (
            ('1 in each period, 1 before', '2 in each period, 1 before'), ('1 in each period, 1 before', '1 in each period, 0 before'),
            ('2 in each period, 1 before', '1 in each period, 1 before'), ('never U for ever', 'never V for ever'), ('Loop: greatest response 2', 'Loop: greatest response 3'),
            ('Clock: greatest response 1 so far', 'Clock: greatest response 10 so far'), ('response -', 'response 0'),
            ('Clock: greatest response 1\n', 'Clock: greatest response 1, throttled: never\n'), (', throttled: never', ''),
            (', ends no round from 15 on', ''), ('ends no round from 15', 'ends no round from 35'),
            ('T: greatest response 1\n', 'T: greatest response 1, ends no round from 15 on\n'), ('up to 95', 'up to 94'),
            ('miss Loop', 'miss Clock'), ('lost n', 'lost m'), ('never U', 'never V'), ('findings 1', 'findings 3'),
            ('repeating 1', 'repeating 2'), ('sets 2', 'sets 1'), ('threads 2', 'threads 1'), ('deadlines 1', 'deadlines 2'),
        ):
            # as text, and as JSON
            self.assertEqual(self.replaced(old, new), 2, new)

    def test_a_line_that_is_not_there(self) -> None:
        for line in {*TOO_LATE.splitlines(keepends=True), *LOST_TEXT.splitlines(keepends=True)}:
            self.assertGreaterEqual(self.replaced(line, ''), 1, line)

    def test_a_line_too_much(self) -> None:
        for before, line in (
            ('thread Loop', 'miss Loop: 0 in each period, 0 before\n'), ('thread Loop', 'overdue Loop round 2 activated 22 for ever\n'), ('sets', 'nothing is ever found\n'),
            ('thread Clock', 'lost tick: 1 so far\n'), ('sets', 'thread X: greatest response -\n'),
        ):
            self.assertGreaterEqual(self.replaced(before, f'{line}{before}'), 1, line)

    def test_nothing_is_ever_found_where_something_is(self) -> None:
        self.assertEqual(self.failed(LATE, TOO_LATE.replace('never\n', 'never\nnothing is ever found\n'), 5), 1)
        # but where it is allowed
        self.assertEqual(self.failed(QUIET, QUIET_TEXT, 0, LOST_FIRST, LOST_NEXT, allowed=('n',)), 0)
        self.assertGreaterEqual(self.failed(QUIET, QUIET_TEXT, 0, LOST_FIRST, LOST_NEXT), 1)

    def test_nothing_is_found_and_that_is_not_said(self) -> None:
        self.assertEqual(self.failed(LOOP, IN_TIME.replace('never\nnothing is ever found\n', 'never\n'), 0), 1)

    def test_lines_in_another_order(self) -> None:
        loop, clock, last = IN_TIME.split('found\n')
        self.assertGreaterEqual(self.failed(LOOP, f'{clock}found\n{loop}found\n{last}', 0), 1)
        self.assertEqual(self.replaced('never U for ever\nthread T: greatest response 1\n', 'thread T: greatest response 1\nnever U for ever\n'), 2)

    def test_other_sets(self) -> None:
        self.assertGreaterEqual(self.replaced('cores 0 1', 'cores 0'), 1)
        self.assertGreaterEqual(self.replaced('cores 0 1', 'cores 1 0'), 1)
        self.assertGreaterEqual(self.failed(LOOP, IN_TIME.partition('cores 1')[0] + 'sets 1 repeating 1 findings 0 threads 2 deadlines 1\n', 0), 1)

    def test_another_status(self) -> None:
        for status in (0, 1, 5, 6):
            self.assertEqual(self.failed(LOOP, IN_TIME, status), 2 * (status != 0))
            self.assertEqual(self.failed(LATE, TOO_LATE, status), 2 * (status != 5))

    def test_words_on_standard_error(self) -> None:
        self.assertEqual(self.failed(LOOP, IN_TIME, 0, wrong=lambda ran: ran._replace(stderr=b'mcscheck: 1 of 9\n')), 2)

    def test_json_of_something_else(self) -> None:
        for old, new in (('"from":13', '"from":3'), ('"kind":"thread"', '"kind":"thread_so_far"'), (',"throttled":"never"', ''), ('{"kind":"clean","cores":"1"}\n', '')):
            self.assertIn(old, IN_TIME_AS_JSON)
            self.assertEqual(self.failed(LOOP, IN_TIME, 0, written_as_json=IN_TIME_AS_JSON.replace(old, new)), 1, new)

    def test_rows_that_do_not_come_again(self) -> None:
        for old, new in (
            ('35 0 stop Loop wait 3', '36 0 stop Loop wait 3'), ('44 0 round Loop 5 2', '44 0 round Loop 5 3'), ('44 0 round Loop 5 2\n', ''),
            ('41 1 stop Clock spent 1 until 50', '41 1 stop Clock spent 1 until 51'), ('24 0 round Loop 3 2', '24 0 round Loop 2 2'),
            ('44 0 round Loop 5 2', '44 0 round Loop 6 2'), ('33', '32 0 hold tick 1\n33'), ('52 0 wake Loop tick 1', '52 0 wake Loop tick 2'),
        ):
            self.assertGreaterEqual(self.failed(LOOP, IN_TIME, 0, rows_wrong=lambda text: text.replace(old, new, 1)), old in rows(FIRST, NEXT, 53), new)

    def test_a_round_more_of_a_thread_that_has_a_last_one(self) -> None:
        self.assertEqual(self.failed(LOOP.replace('deadline = 5', 'deadline = 5, rounds = 9'), IN_TIME, 0), 1)

    def test_orders_come_first(self) -> None:
        order = '[[order]]\nat = {}\ncore = 0\ncontext = "loop"\nbudget = 4\nperiod = 10\n'
        self.assertEqual(self.failed(LOOP + order.format(1), IN_TIME, 0), 0)
        self.assertEqual(self.failed(LOOP + order.format(13), IN_TIME, 0), 1)

    def test_a_program_that_says_nothing(self) -> None:
        self.assertEqual(self.failed(LOOP, '', 0), 1)

    def script(self, folder: str, text: str) -> common.Tally:
        """What the script counts of programs that are these lines of the shell."""
        for name in ('mcsim', 'mcscheck'):
            file = pathlib.Path(folder, name)
            file.write_text(f'#!/bin/sh\n{text}\n')
            file.chmod(0o755)
        command = [sys.executable, str(CHECKS / 'program' / 'forever.py'), '--program', str(pathlib.Path(folder, 'mcsim')), '--systems', '1']
        return common.last_tally(common.run(command).stdout.decode())

    def test_systems_that_show_nothing_are_a_failure(self) -> None:
        with tempfile.TemporaryDirectory() as folder:
            self.assertGreaterEqual(self.script(folder, 'echo --forever').failed, len(forever.SEEN) - 1)


class Sets(unittest.TestCase):
    def test_the_least_sets(self) -> None:
        self.assertEqual(forever_reading.core_sets(tomllib.loads(LOOP)), [CoreSet((0, 1), (0,)), CoreSet((1,), (1,))])

    def test_a_chain_and_a_ring(self) -> None:
        names = 'abcdef'
        note = [{'name': name, 'core': core} for core, name in enumerate(names)]
        context = [{'name': name, 'core': core} for core, name in enumerate(names)]
        # 0 signals 1, 1 signals 2, 2 signals 1; 4 signals itself and 3, and 5 has no thread
        to = {'a': 'b', 'b': 'c', 'c': 'b', 'd': '', 'e': 'de'}
        thread = [{'context': name, 'script': [*(f'signal {other} 1' for other in others), 'yield']} for name, others in to.items()]
        found = forever_reading.core_sets({'cores': 6, 'note': note, 'context': context, 'thread': thread})
        self.assertEqual(found, [CoreSet((0,), (0,)), CoreSet((0, 1, 2), (1, 2)), CoreSet((3, 4), (3,)), CoreSet((4,), (4,)), CoreSet((5,), (5,))])

    def test_claims(self) -> None:
        self.assertEqual(forever_reading.claims_of(TOO_LATE), [Claim('0 1', 14, 10), Claim('1')])
        self.assertEqual(forever_reading.claims_of(IN_TIME)[1], Claim('1', 2, 20, True))


class Rows(unittest.TestCase):
    def test_the_least_period_of_rows(self) -> None:
        lines = rows(FIRST, NEXT, 125).splitlines()
        self.assertEqual(forever_rows.period_of(lines, 129), (2, 10))
        # the next row is due at 130
        self.assertIsNone(forever_rows.period_of(lines, 130))
        self.assertEqual(forever_rows.period_of([line for line in lines if forever_reading.core_of(line) == 1], 125), (2, 10))

    def test_rows_that_come_too_seldom(self) -> None:
        self.assertIsNone(forever_rows.period_of(rows(FIRST, NEXT, 75).splitlines(), 75))

    def test_at_rest(self) -> None:
        self.assertEqual(forever_rows.period_of(['3 0 stop V done 1'], 30), (4, 1))
        self.assertEqual(forever_rows.period_of([], 30), (0, 1))
        self.assertIsNone(forever_rows.period_of(['3 0 stop V done 1'], 10))

    def test_rows_of_one_moment_are_told_apart(self) -> None:
        lines = ['0 0 run A'] + [f'{moment} 0 run B' for moment in range(13)]
        self.assertEqual(forever_rows.period_of(lines, 12), (1, 1))



class Models(unittest.TestCase):
    def test_it_has_the_worked_rows(self) -> None:
        tried = 0
        # those of `files` are refused
        folders = ('events', 'examples', 'orders', 'random_one', 'random_several', 'turns', 'worked')
        for file in (file for folder in folders for file in DATA.glob(f'{folder}/*/schedule.stdout')):
            asked = file.with_suffix('.words').read_text().split()
            words = dict(zip(asked[::2], asked[1::2]))
            tables = tomllib.loads(file.parent.with_suffix('.toml').read_text())
            horizon = int(words.get('--horizon', 1000))
            if horizon <= 300 and all(context['budget'] < 10_000 for context in tables.get('context', [])):
                system = model.System(tables)
                world, found = model.World(system), []
                while world.moment <= horizon:
                    is_busy = world.is_busy()
                    new = [model.text_of(row, system) for row in world.turn()]
                    self.assertTrue(is_busy or not new, file)
                    found += new
                self.assertEqual(found, file.read_text().splitlines(), file)
                tried += 1
        self.assertGreater(tried, 80)

    def seen(self, text: str, horizon: int) -> list[tuple[int, int] | None]:
        tables = tomllib.loads(text)
        found = forever_model.Search(model.System(tables), forever_reading.core_sets(tables)).run(horizon)
        return [None if repeats is None else (repeats.start, repeats.period) for repeats in found]

    def test_what_repeats(self) -> None:
        # moments are kept before 0, 1, 4, 12 and 30; before 12 the dates of the loop are 10, 12, 13, 14, and before 22 they are 15, 22, 23, 24
        self.assertEqual(self.seen(LOOP, 100), [(30, 10), (12, 10)])
        # before 0, 2 and 10
        self.assertEqual(self.seen((SYSTEMS / 'loop_by_its_budget.toml').read_text(), 100), [(10, 10)])
        self.assertEqual(self.seen(LOOP, 38), [None, (12, 10)])

    def test_at_rest_each_tick_is_as_the_one_before(self) -> None:
        # the clock signals once, at 1, and the loop has ended its one round at 4
        once = LOOP.replace('priority = 9, deadline = 5', 'priority = 9, rounds = 1').replace('priority = 9, script', 'priority = 9, rounds = 1, script')
        self.assertEqual(self.seen(once, 99), [(5, 1), (4, 1)])
        self.assertEqual(self.seen('version = 1\ncores = 2\ndelay = 1\n', 9), [(0, 1)] * 2)

    def test_a_last_round_comes_once(self) -> None:
        self.assertEqual(self.seen(LOOP.replace('deadline = 5', 'deadline = 5, rounds = 99'), 200)[0], None)

    def failed(self, start: int, period: int, is_clean: bool = True) -> tuple[int, int]:
        """How many tries fail of a program that claims this of the loop, and how many repetitions it has missed."""
        line = f'cores 0 1: repeats from {start} with period {period}' if period else 'cores 0 1: no repetition found up to 100'
        text = f'{line}\n{forever_reading.CLEAN}\n' if is_clean else f'{line}\n'
        answer = Ran(0, f'{text}cores 1: repeats from 12 with period 10\n'.encode(), b'')
        words = mock.Mock(program=None, horizon=100)
        with mock.patch('checks.common.run', lambda *_: answer), mock.patch('checks.common.built_program'), mock.patch('checks.common.beside'):
            trial = forever_model.Trial(words)
            with contextlib.redirect_stdout(io.StringIO()):
                trial.look('loop', LOOP)
        return trial.count.tally.failed, trial.missed

    def test_a_program_beside_it(self) -> None:
        self.assertEqual(self.failed(30, 10), (0, 0))
        self.assertEqual(self.failed(30, 10, is_clean=False), (0, 0))
        # two periods are one too
        self.assertEqual(self.failed(30, 20), (0, 0))
        self.assertEqual([self.failed(12, 10), self.failed(30, 5)], [(1, 0)] * 2)
        self.assertEqual(self.failed(0, 0), (0, 1))

    def test_a_finding_at_some_horizon_is_seen_where_none_is_claimed(self) -> None:
        # a round is activated at 32, 42, .. and takes 2: with a deadline of 1 it is overdue at 33, and missed at 34
        with mock.patch.object(sys.modules[__name__], 'LOOP', LATE):
            self.assertEqual([self.failed(30, 10), self.failed(30, 10, is_clean=False)], [(1, 0), (0, 0)])


if __name__ == '__main__':
    unittest.main()
