"""What mcscheck has to write of chains, on systems that were worked by hand, and checkers that are wrong: the check has to see it."""
import contextlib
import io
import pathlib
import random
import tempfile
import tomllib
import unittest
from collections.abc import Callable, Sequence
from unittest import mock

from checks import common
from checks.common import Ran
from checks.program import latencies, reading, verdicts, way_reading
from checks.program.chained import Chained, reading_of
from checks.program.latencies import LOOP, LOOP_FIGURES, LOOP_JOBS, LOOP_OBJECTS, LOOP_ROWS, LOOP_TABLE, TWO_CORES, TWO_CORES_FOUND, TWO_CORES_JOBS
from checks.program.way_reading import Ways

# the schedule of LOOP up to 52
ROWS = '''0 0 release L
0 0 run L
1 0 stop L wait 1
2 0 interrupt s n 1
2 0 wake L n 1
2 0 run L
12 0 interrupt s n 1
12 0 hold n 1
22 0 round L 1 20
22 0 interrupt s n 1
22 0 hold n 1
23 0 got L n 1
32 0 interrupt s n 1
32 0 hold n 1
42 0 interrupt s n 1
42 0 hold n 1
43 0 round L 2 20
44 0 got L n 1
52 0 interrupt s n 1
52 0 hold n 1
'''
# what TWO_CORES shows up to 22 of D, C and Z
TWO_CORES_ROWS = '''0 0 release D
0 0 release Z
0 0 run D
0 1 release C
0 1 run C
1 0 stop D wait 1
1 0 run Z
1 1 stop C wait 1
2 0 stop Z wait 1
3 0 interrupt s n 1
3 0 wake D n 1
3 0 run D
6 0 signal D p 1
6 0 round D 1 3
7 0 stop D wait 4
8 1 arrive p 1 from 0
8 1 wake C p 1
8 1 run C
12 1 round C 1 4
13 0 interrupt s n 1
13 0 wake D n 1
13 0 run D
13 1 stop C wait 5
16 0 signal D p 1
16 0 round D 2 3
17 0 stop D wait 4
18 1 arrive p 1 from 0
18 1 wake C p 1
18 1 run C
22 1 round C 2 4
'''
REPORTS = 'thread L ran 51 late 0\n'


def loop() -> Chained:
    return Chained(tomllib.loads(LOOP), ROWS, 52)


def way(command: Sequence[str]) -> Ran:
    """What a right checker writes of an answer of LOOP."""
    found = loop()
    number, chain = command[command.index('--why') + 2], found.chains[0]
    if number not in map(str, range(1, len(chain.answers) + 1)):
        return Ran(2, b'', way_reading.refused(chain, number).encode())
    form = 'json' if '--format=json' in command else 'text'
    return Ran(0, Ways(tomllib.loads(LOOP), ROWS, found).written(chain, int(number), form).encode(), b'')


def of_chains(text: str) -> str:
    """The lines without those of threads and contexts."""
    return ''.join(line for line in text.splitlines(keepends=True) if not line.startswith(latencies.OF_OTHERS))


class Readings(unittest.TestCase):
    def test_what_is_found_follows_the_rows_of_its_time(self) -> None:
        found = Chained(tomllib.loads(TWO_CORES), TWO_CORES_ROWS, 22)
        self.assertEqual(found.wanted().text, TWO_CORES_FOUND)
        self.assertEqual(found.wanted().status(), 5)

    def test_figures_follow_those_of_contexts(self) -> None:
        lines = loop().wanted(show='table').text.splitlines()
        self.assertEqual([line.split()[0] for line in lines], ['thread', 'context', 'chain', 'missed'])
        self.assertEqual(of_chains(loop().wanted(show='table').text), LOOP_TABLE)

    def test_rows_and_objects(self) -> None:
        self.assertEqual(loop().wanted(form='csv').text, LOOP_ROWS)
        self.assertEqual(loop().wanted(form='json').text, LOOP_OBJECTS)
        # a table of CSV has no contexts
        self.assertEqual([line.split(',')[0] for line in loop().wanted(show='table', form='csv').text.splitlines()], ['kind', 'thread', 'chain'])
        self.assertEqual(of_chains(loop().wanted(show='table', form='csv').text), LOOP_FIGURES)

    def test_answers_follow_their_job(self) -> None:
        self.assertEqual(loop().wanted(show='jobs').text, LOOP_JOBS)
        found = Chained(tomllib.loads(TWO_CORES), TWO_CORES_ROWS, 22)
        self.assertEqual(found.wanted(show='jobs', form='csv').text, TWO_CORES_JOBS)

    def test_an_exit_code_for_chains_alone(self) -> None:
        counts = [{**dict.fromkeys(reading.KINDS, 0), 'judged': 1, 'slow': slow, 'unanswered': unanswered} for slow, unanswered in ((0, 0), (1, 0), (0, 1))]
        statuses = [reading.Wanted('', each).status() for each in counts]
        self.assertEqual(statuses, [0, 5, 5])

    def test_an_interrupt_of_the_deadlines_age_is_unanswered(self) -> None:
        before = Chained(tomllib.loads(LOOP), ROWS.replace('52 0 interrupt s n 1\n52 0 hold n 1\n', ''), 51)
        self.assertNotIn('unanswered c', before.wanted().text)
        self.assertIn('52 0 unanswered c deadline 20 origin 32\n', loop().wanted().text)

    def test_answers_are_judged_if_their_chain_has_a_deadline(self) -> None:
        for text, many in ((LOOP, 4), (LOOP.replace(', deadline = 20', ''), 0)):
            found = Chained(tomllib.loads(text), ROWS, 52)
            self.assertEqual((found.deadlines(), found.judged(), len(list(found.hints()))), (int(many > 0), many, int(many == 0)))
            self.assertEqual(found.wanted().status(), 5)

    def test_a_file_without_chains_has_nothing_of_them(self) -> None:
        tables = tomllib.loads(LOOP)
        del tables['chain']
        told = reading_of(tables, ROWS, 52).wanted(form='csv')
        self.assertEqual(told.text.splitlines()[0].split(',')[-1], 'server')
        self.assertNotIn('slow', reading_of(tables, ROWS, 52).wanted().text)


class WayReadings(unittest.TestCase):
    def test_the_notification_holds_an_interrupt_until_the_job_before_has_ended(self) -> None:
        # that of 12 is held to 23, and the job computes to 43
        self.assertEqual(way(['--why', 'c', '2']), Ran(0, b'''43 0 answer c round 2 origin 12 latency 31 deadline 20
12 0 held n to 23 ticks 11
23 0 ran L to 43 ticks 20 ready 0 running 20 throttled 0 blocked 0 server 0
sum ticks 31 held 11 delay 0 ready 0 running 20 throttled 0 blocked 0 server 0
''', b''))

    def test_a_number_that_no_answer_has(self) -> None:
        self.assertEqual(way(['--why', 'c', '4']), Ran(2, b'', b'mcscheck: --why: no answer "4" of c: there are answers 1 to 3\n'))


class WrongCheckers(unittest.TestCase):
    def failed(self, wrong: Callable[[Ran], Ran]) -> int:
        """How many tries fail with a checker that is wrong in this way."""
        found = loop()

        def ran(given: Sequence[common.Word], text: bytes = b'', **_: object) -> Ran:
            command = [str(word) for word in given]
            if command[0] == 'mcsim':
                return Ran(0, (ROWS + REPORTS).encode(), b'')
            if '--why' in command:
                return way(command)
            show, form = (next(word.partition('=')[2] for word in command if word.startswith(f'--{key}=')) for key in ('show', 'format'))
            if (show, form) == ('both', 'csv'):
                return Ran(2, b'', reading.MIXED.encode())
            return wrong(verdicts.answer(found.wanted((), show, form)))

        trial = latencies.Trial(pathlib.Path('mcsim'), pathlib.Path('mcscheck'))
        with tempfile.TemporaryDirectory() as folder, mock.patch('checks.common.run', ran), mock.patch('tempfile.tempdir', folder):
            with contextlib.redirect_stdout(io.StringIO()):
                trial.looks(verdicts.System('worked', LOOP, 52), random.Random(1))
        return trial.count.tally.failed

    def replaced(self, old: str, new: str) -> int:
        return self.failed(lambda ran: ran._replace(stdout=ran.stdout.replace(old.encode(), new.encode())))

    def test_one_that_is_right_passes(self) -> None:
        self.assertEqual(self.failed(lambda ran: ran), 0)

    def test_another_status(self) -> None:
        self.assertEqual(self.failed(lambda ran: ran._replace(status=0)), 11)

    def test_lines_that_are_not_there(self) -> None:
        # as text: of findings and of both
        self.assertEqual(self.replaced('43 0 slow c latency 31 deadline 20 origin 12\n', ''), 2)
        self.assertEqual(self.replaced('52 0 unanswered c deadline 20 origin 32\n', ''), 2)

    def test_another_origin_of_a_row(self) -> None:
        # of findings and of jobs
        self.assertEqual(self.replaced('c,31,20,12', 'c,21,20,22'), 2)

    def test_another_value_of_an_object(self) -> None:
        self.assertEqual(self.replaced('"latency":31', '"latency":21'), 3)

    def test_an_answer_that_is_not_there(self) -> None:
        self.assertEqual(self.replaced('43 0 answer c round 2 origin 22 latency 21 deadline 20\n', ''), 1)

    def test_answers_in_another_order(self) -> None:
        first, second = LOOP_JOBS.splitlines(keepends=True)[3:5]
        self.assertEqual(self.replaced(first + second, second + first), 1)

    def test_figures_in_other_columns(self) -> None:
        self.assertEqual(self.replaced('chain,,', 'chain,'), 1)

    def test_another_percentile(self) -> None:
        self.assertEqual(self.replaced('p50 21', 'p50 20'), 2)

    def test_other_counts_of_what_was_judged(self) -> None:
        for old, new in (('judged 4', 'judged 3'), ('deadlines 1', 'deadlines 0'), ('unjudged 0', 'unjudged 1'), ('threads 1', 'threads 2')):
            self.assertEqual(self.replaced(old, new), 4, new)

    def test_counts_without_chains(self) -> None:
        self.assertEqual(self.replaced(' slow 1 unanswered 1', ''), 4)


if __name__ == '__main__':
    unittest.main()
