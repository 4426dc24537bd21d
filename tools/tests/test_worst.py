"""Searches for the worst response. mcscheck is a script here, so each response is known beforehand."""
from __future__ import annotations

import pathlib
import random
import tempfile
import tomllib
import unittest
from typing import Any
from unittest import mock

import worked
from worked import Ended
from mcsim_tools import bounding, climbing, guiding, journal, ranges, system, worst
from mcsim_tools.bounding import NoBound
from mcsim_tools.climbing import Climb, Point
from mcsim_tools.faults import Fault
from mcsim_tools.guiding import Guide
from mcsim_tools.latency import Latencies
from mcsim_tools.ranges import Space
from mcsim_tools.trying import Responses

# B waits for a source of period 10, and A, which is above it, for one of period 20
SYSTEM = '''
version = 3
cores = 1
delay = 1
context = [
    { name = "a", core = 0, budget = 20, period = 20 },
    { name = "b", core = 0, budget = 4, period = 10, mode = "sporadic" },
]
note = [{ name = "m", core = 0 }, { name = "n", core = 0 }]
source = [{ name = "r", note = "m", badge = 1, period = 20, start = 30 }, { name = "s", note = "n", badge = 1, period = 10, start = 30, at = [2, 6] }]
thread = [
    { name = "A", context = "a", priority = 9, script = ["wait m", "compute 5"] },
    { name = "B", context = "b", priority = 5, deadline = 18, script = ["wait n", "compute 3"] },
]
'''
# B responds in 20 less the distance of the start of s from 37; 34 is refused, and with 39 its job does not end
CHECKER = """#!/bin/sh
cd "$(dirname "$0")" || exit 9
text=$(cat)
start=$(printf '%s\\n' "$text" | sed -n 's/.*name = "s".*start = \\([0-9]*\\).*/\\1/p')
echo "$start" >>asked
[ ! -e fails ] || { echo 'mcscheck: no memory' >&2; exit 4; }
[ "$start" != 34 ] || { echo 'mcscheck: out of range at source 2' >&2; exit 1; }
response=$((start < 37 ? start - 17 : 57 - start))
case $* in *jobs*)
    echo moment,core,kind,thread,number,activated,begun,response
    echo "60,0,job,A,1,30,30,$response"
    echo "70,0,job,B,3,$((70 - response)),50,$response"
    exit 0
esac
[ "$start" != 39 ] || echo '{"moment":100,"core":0,"kind":"overdue","thread":"B","deadline":1,"activated":78}'
echo '{"kind":"thread","thread":"A","core":0,"greatest":99}'
echo "{\\"kind\\":\\"thread\\",\\"thread\\":\\"B\\",\\"core\\":0,\\"greatest\\":$response}"
exit 5
"""
PROGRAM = '#!/bin/sh\nexit 0\n'


def tables() -> dict[str, Any]:
    return tomllib.loads(SYSTEM)


class Case(unittest.TestCase):
    def setUp(self) -> None:
        place = tempfile.TemporaryDirectory()
        self.addCleanup(place.cleanup)
        self.folder = pathlib.Path(place.name).resolve()
        self.file = self.folder / 'system.toml'
        self.file.write_text(SYSTEM)
        paths = {'MCSCHECK': self.script('mcscheck', CHECKER), 'MCSIM': self.script('mcsim', PROGRAM)}
        patch = mock.patch.dict('os.environ', {name: str(path) for name, path in paths.items()})
        patch.start()
        self.addCleanup(patch.stop)

    def script(self, name: str, text: str) -> pathlib.Path:
        path = self.folder / name
        path.write_text(text)
        path.chmod(0o755)
        return path

    def asked(self) -> list[int]:
        """The starts for which mcscheck was asked."""
        return [int(line) for line in (self.folder / 'asked').read_text().split()]

    def ran(self, *words: object) -> Ended:
        ended = worked.ran('worst', worst.main, self.file, '--of', 'B', '--horizon', '100', *words)
        return ended._replace(stdout=ended.stdout.replace(f'{self.folder}/', ''), stderr=ended.stderr.replace(f'{self.folder}/', ''))


class Answers(Case):
    def test_the_worst_of_all(self) -> None:
        told = self.ran('--vary', 'source.s.start=30..38', '--all')
        self.assertEqual((told.status, told.stdout), (5, """B: worst response found 20, deadline 18, slack -2 (as the file stands: 13)
with source.s.start=37
All 9 combinations were tried, 1 of them refused, the first source.s.start=34: out of range at source 2: exhaustive, so no response of these systems up to 100 is longer
response-time analysis: none, since B does not wait for one source with one date in its period
job 3, activated 50, ended 70; -o FILE writes this system
"""))

    def test_a_job_that_does_not_end(self) -> None:
        lines = self.ran('--vary', 'source.s.start=36,39').stdout.splitlines()
        self.assertEqual(lines[0], 'B: worst response found 22 or more, deadline 18, slack -4 (as the file stands: 13)')
        self.assertEqual(lines[-1], 'the job had not ended at the horizon; -o FILE writes this system')

    def test_a_deadline_that_is_met(self) -> None:
        self.assertEqual(self.ran('--vary', 'source.s.start=30..35').status, 0)

    def test_a_part_of_the_combinations_is_no_bound(self) -> None:
        told = self.ran('--vary', 'source.s.start=30..33', '--vary', 'source.r.start=0..99', '--runs', '3')
        self.assertIn('3 of 400 combinations were tried, seed 1: no bound, so the worst case is this or more', told.stdout)
        self.assertEqual(len(self.asked()), 5)

    def test_the_file_has_the_values(self) -> None:
        file = self.folder / 'worst.toml'
        told = self.ran('--vary', 'source.s.start=30..38', '-o', file)
        made = tomllib.loads(file.read_text())
        self.assertEqual(made, {**tables(), 'source': [tables()['source'][0], {**tables()['source'][1], 'start': 37}]})
        self.assertEqual(told.stdout.splitlines()[-2:], [
            'job 3, activated 50, ended 70: mcscheck worst.toml --horizon 100 --why B 3',
            'picture: tools/view worst.toml --horizon 100 --from 50 --to 70 -o worst.html',
        ])
        self.assertFalse((self.folder / 'worst.toml.part').exists())

    def test_workers_change_nothing(self) -> None:
        words = ('--vary', 'source.s.start=35..38', '--vary', 'source.r.start=0..9999', '--runs', '40', '--seed', '7')
        self.assertEqual(self.ran(*words, '--jobs', '1'), self.ran(*words, '--jobs', '3'))


# An interrupt of s at its start wakes D, whose signal is made 3 later and reaches the other core 2 after that, where F computes 4: a latency of 9.
# With 5 the signal is 2 longer under way: 11. With 6 the file is refused. With 7 F does not end its job: the interrupt is 40 - 7 = 33 old at 40.
# With 8 and with 1000 no interrupt comes.
CHAIN = """
version = 3
cores = 2
delay = 2
context = [{ name = "d", core = 0, budget = 9, period = 40, mode = "sporadic" }, { name = "f", core = 1, budget = 9, period = 40, mode = "sporadic" }]
note = [{ name = "n", core = 0 }, { name = "m", core = 1 }]
thread = [
    { name = "D", context = "d", priority = 5, script = ["wait n", "compute 2", "signal m 1"] },
    { name = "F", context = "f", priority = 5, deadline = 9, script = ["wait m", "compute 4"] },
]
source = [{ name = "s", note = "n", badge = 1, period = 40, start = 3 }]
chain = [{ name = "far", source = "s", thread = "F", deadline = 10 }, { name = "F", source = "s", thread = "D" }]
"""
ROWS = """#!/bin/sh
start=$(sed -n 's/.*name = "s".*start = \\([0-9]*\\).*/\\1/p')
[ "$start" != 6 ] || { echo 'mcsim: out of range at source 1' >&2; exit 1; }
row() { echo "$@"; }
row 0 0 release D
row 0 0 run D
row 0 1 release F
row 0 1 run F
row 1 0 stop D wait 1
row 1 1 stop F wait 1
[ "$start" -lt 8 ] || exit 0
row $start 0 interrupt s n 1
row $start 0 wake D n 1
row $start 0 run D
row $((start + 3)) 0 signal D m 1
row $((start + 3)) 0 round D 1 3
row $((start + 4)) 0 stop D wait 4
there=$((start + 5))
[ "$start" != 5 ] || there=$((start + 7))
row $there 1 arrive m 1 from 0
row $there 1 wake F m 1
row $there 1 run F
[ "$start" != 7 ] || exit 0
row $((there + 4)) 1 round F 1 4
row $((there + 5)) 1 stop F wait 5
"""


class Chains(Case):
    def setUp(self) -> None:
        super().setUp()
        self.file.write_text(CHAIN)
        self.script('mcsim', ROWS)

    def of(self, chain: str, starts: str, *words: object) -> Ended:
        told = worked.ran('worst', worst.main, self.file, '--of', chain, '--horizon', '40', '--vary', f'source.s.start={starts}', *words)
        return told._replace(stdout=told.stdout.replace(f'{self.folder}/', ''))

    def test_the_greatest_latency(self) -> None:
        told = self.of('far', '3..6', '--all')
        self.assertEqual((told.status, told.stdout), (5, """far: worst latency found 11, deadline 10, slack -1 (as the file stands: 9)
with source.s.start=5
All 4 combinations were tried, 1 of them refused, the first source.s.start=6: out of range at source 1: exhaustive, so no latency of these systems up to 40 is longer
response-time analysis: none, since far is a chain
latency: the greatest of an answer, from an interrupt of s to the end of the first job of F that answers it; an interrupt without an answer at 40 counts with its age, if that is more
the interrupt of s at 5 is answered at 16, by job 1 of F; -o FILE writes this system
"""))

    def test_an_interrupt_without_an_answer_counts_with_its_age(self) -> None:
        lines = self.of('far', '5,7').stdout.splitlines()
        self.assertEqual(lines[0], 'far: worst latency found 33 or more, deadline 10, slack -23 (as the file stands: 9)')
        self.assertEqual(lines[-1], 'the interrupt of s at 7 has no answer at 40; -o FILE writes this system')

    def test_a_deadline_that_is_met(self) -> None:
        self.assertEqual(self.of('far', '3,4').status, 0)

    def test_no_interrupt(self) -> None:
        told = self.of('far', '8,9')
        self.assertEqual((told.status, told.stdout.splitlines()[0]), (5, 'far: no interrupt of s came before 40 in any run'))

    def test_a_thread_of_the_same_name(self) -> None:
        # the signal that ends the job of D is made 3 after the interrupt
        self.assertTrue(self.of('chain.F', '3,4').stdout.startswith('F: worst latency found 3 (as the file stands: 3)\n'))
        self.assertIn('mcscheck has no line of F', self.of('F', '3,4').stderr)

    def test_the_file_has_the_values(self) -> None:
        file = self.folder / 'far.toml'
        told = self.of('far', '3..5', '-o', file)
        self.assertEqual(tomllib.loads(file.read_text())['source'][0]['start'], 5)
        self.assertIn('# The worst latency of far that tools/worst found up to 40: 11.', file.read_text())
        self.assertEqual(told.stdout.splitlines()[-2:], [
            'the interrupt of s at 5 is answered at 16, by job 1 of F',
            'picture: tools/view far.toml --horizon 40 --from 5 --to 16 -o far.html',
        ])


class Spans(Case):
    """From when to when the worst value was."""

    def setUp(self) -> None:
        super().setUp()
        self.script('mcsim', ROWS)

    def of_jobs(self, *lines: str) -> Any:
        text = '\n'.join(lines)
        checker = self.script('spans', f"#!/bin/sh\ncat >/dev/null\ncat <<'E'\n{text}\nE\nexit 5\n")
        return Responses(str(checker), 'B', 100).span(tables())

    def test_a_response(self) -> None:
        # B has two jobs of 15 ticks, and A one of 20: the first job of B counts
        lines = [f'{{"moment":{end},"core":0,"kind":"miss","thread":"{name}","activated":{begin}}}' for name, begin, end in (('B', 10, 25), ('A', 10, 30), ('B', 30, 45))]
        self.assertEqual(self.of_jobs(*lines), (10, 25))
        # a job that has not ended is 40 ticks old
        self.assertEqual(self.of_jobs(*lines, '{"moment":100,"core":0,"kind":"overdue","thread":"B","activated":60}'), (60, 100))
        self.assertIsNone(self.of_jobs('{"kind":"counts"}'))

    def latency(self, start: int) -> Any:
        made = tomllib.loads(CHAIN)
        made['source'][0]['start'] = start
        return Latencies(str(self.folder / 'mcsim'), system.system_of(made).chains['far'], 40).span(made)

    def test_the_rows_up_to_the_end(self) -> None:
        # the answer to the interrupt at 3 comes at 12; rows so late that they would be too many are not read
        made = tomllib.loads(CHAIN)
        space = Space(made, [ranges.choice_of('source.s.start=3..4', made, 40)])
        program = str(self.folder / 'mcsim')
        question = Latencies(program, system.system_of(made).chains['far'], 40)
        found = guiding.runs_of(space, question, program)((0,))
        assert found
        self.assertEqual((found[0], found[1][6]), ((3, 12), '3 0 interrupt s n 1'))
        with mock.patch.object(guiding, 'FARTHEST', 11):
            self.assertIsNone(guiding.runs_of(space, question, program)((0,)))

    def test_a_latency(self) -> None:
        # the answer to the interrupt at 3 comes 9 later; that at 7 has none, 6 is refused, and with 8 none comes
        self.assertEqual([self.latency(start) for start in (3, 7, 6, 8)], [(3, 12), (7, 40), None, None])


class Faults(Case):
    def expect(self, said: str, *words: object) -> None:
        self.assertEqual(self.ran(*words)[:3:2], (2, f'worst: {said}\n'))

    def test_nothing_is_open(self) -> None:
        self.expect('nothing is left open: give --vary PLACE=RANGE, --ranges FILE, --phases or --times PERCENT')

    def test_a_range_that_is_none(self) -> None:
        self.expect(f'source.s.start=5..2: {ranges.ALLOWED}', '--vary', 'source.s.start=5..2')

    def test_a_place_that_is_none(self) -> None:
        self.expect('source.q.at: there is no source \'q\': there are r, s', '--vary', 'source.q.at=jitter 2')

    def test_a_thread_that_is_none(self) -> None:
        self.expect('--of D: there is no thread and no chain \'D\': there are A, B', '--of', 'D', '--phases')

    def test_too_many_for_all(self) -> None:
        self.expect('--all: 100,000,000 combinations, of at most 1,000,000', '--vary', 'source.s.start=1..10000', '--vary', 'source.r.start=1..10000', '--all')

    def test_twice(self) -> None:
        self.expect('source.s.start: it is left open twice', '--vary', 'source.s.start=1..2', '--vary', 'source.s.start=3..4')

    def test_a_table_of_ranges(self) -> None:
        table = self.folder / 'work.toml'
        table.write_text('source.s.start = "30..37"\nthread.A.script.2 = [4, 5]\n')
        self.assertIn('with source.s.start=37 thread.A.script.2=4\n', self.ran('--ranges', table).stdout)
        table.write_text('source.s.start = 1.5\n')
        self.expect(f'work.toml: source.s.start: {ranges.ALLOWED}', '--ranges', table)

    def test_a_run_that_fails(self) -> None:
        (self.folder / 'fails').touch()
        file = self.folder / 'worst.toml'
        told = self.ran('--vary', 'source.s.start=30..38', '-o', file)
        self.assertEqual((told.status, told.stderr), (4, 'worst: mcscheck ended with 4: mcscheck: no memory\n'))
        self.assertFalse(file.exists())


class Interrupted(Case):
    def test_it_goes_on(self) -> None:
        file, words = self.folder / 'worst.toml', ('--vary', 'source.s.start=30..38', '--jobs', '1')
        add = journal.Journal.add

        def stops(own: journal.Journal, result: Any) -> None:
            if len(own.results) == 3:
                raise KeyboardInterrupt
            add(own, result)

        with mock.patch.object(journal.Journal, 'add', stops):
            told = self.ran(*words, '-o', file)
        self.assertEqual(told.status, 130)
        self.assertEqual(told.stderr, 'worst: interrupted after 3 of 9 runs: worst 15 with source.s.start=32; the same command goes on\n')
        (self.folder / 'asked').unlink()
        self.assertEqual(self.ran(*words, '-o', file).stdout.splitlines()[0], 'B: worst response found 20, deadline 18, slack -2 (as the file stands: 13)')
        # the file itself, those that were left, and the worst once more
        self.assertEqual(self.asked(), [30, 33, 34, 35, 36, 37, 38, 37])

    def test_another_search_stays(self) -> None:
        (self.folder / 'worst.toml.part').write_text('{}\n')
        told = self.ran('--vary', 'source.s.start=30..38', '-o', self.folder / 'worst.toml')
        self.assertEqual(told.status, 2)
        self.assertEqual((self.folder / 'worst.toml.part').read_text(), '{}\n')


class Ranges(unittest.TestCase):
    def space(self, *texts: str, horizon: int = 100) -> Space:
        return Space(tables(), [ranges.choice_of(text, tables(), horizon) for text in texts])

    def test_numbers(self) -> None:
        space = self.space('source.s.start=30..40:5', 'thread.A.script.2=7,5')
        self.assertEqual(space.count, 6)
        self.assertEqual(space.said((2, 1)), ['source.s.start=40', 'thread.A.script.2=7'])
        made = space.tables_of((1, 0))
        self.assertEqual((made['source'][1]['start'], made['thread'][0]['script']), (35, ['wait m', 'compute 5']))

    def test_jitter_covers_several_periods(self) -> None:
        # the dates 2 and 6 in 10: from 30 to 60 there are three periods, and each date has 0 to 3 ticks
        space = self.space('source.s.at=jitter 3', horizon=60)
        self.assertEqual((space.count, len(space.sizes)), (4**6, 6))
        source = space.tables_of((0, 1, 2, 3, 0, 3))['source'][1]
        self.assertEqual((source['period'], source['at']), (30, [2, 7, 14, 19, 22, 29]))

    def test_jitter_keeps_the_order(self) -> None:
        with self.assertRaisesRegex(Fault, 'J is 0 to 3$'):
            self.space('source.s.at=jitter 4')

    def test_a_burst(self) -> None:
        space = self.space('source.r.at=burst 3 in 5')
        made = [space.tables_of(point)['source'][0]['at'] for point in space.all()]
        every = [[a, b, c] for a in range(5) for b in range(a + 1, 5) for c in range(b + 1, 5)]
        self.assertEqual((space.count, sorted(made)), (10, every))

    def test_phases_and_times(self) -> None:
        self.assertEqual(ranges.phases_of(tables()), ['source.r.start=30..49', 'source.s.start=30..39'])
        self.assertEqual(ranges.times_of(tables(), 50), ['thread.A.script.2=3..5', 'thread.B.script.2=2..3'])

    def test_the_critical_instant(self) -> None:
        # both at 45, the latest beginning: r at 45, and s at 35, a period before; the longest times first
        space = self.space('source.r.start=45..64', 'source.s.start=35..44', 'thread.A.script.2=3..5')
        self.assertEqual(space.said(space.corners()[0]), ['source.r.start=45', 'source.s.start=35'])
        self.assertEqual(space.said(space.corners()[1]), ['source.r.start=45', 'source.s.start=35', 'thread.A.script.2=3'])
        self.assertEqual(self.space('source.s.start=20..40').said((10,)), ['the values of the file'])

    def test_the_critical_instant_with_jitter(self) -> None:
        # the first date of r is late by 4, so its start is 4 before that of the others
        space = self.space('source.r.start=40..59', 'source.s.start=40..49', 'source.r.at=jitter 4', horizon=70)
        said = space.said(space.corners()[0])
        self.assertEqual(said, ['source.r.start=56', 'source.s.start=40', 'source.r.at=[4, 20] (period 40)'])


class Climbs(unittest.TestCase):
    @staticmethod
    def found(sizes: list[int], value: Any, tries: int, seed: int = 1) -> Climb:
        climb = Climb(sizes, [(0,) * len(sizes)], tries, seed)
        climbing.drive(climb.run(), lambda batch: [value(point) for point in batch])
        return climb

    def test_a_hill(self) -> None:
        climb = self.found([100] * 4, lambda point: 400 - sum(abs(own - 63) for own in point), 400)
        self.assertEqual((climb.best, len(climb.known)), ((63,) * 4, 400))

    def test_all_of_a_small_space(self) -> None:
        climb = self.found([3, 4], lambda point: point[0] * point[1] % 5, 100)
        self.assertEqual(len(climb.known), 12)

    def test_points_without_a_value(self) -> None:
        climb = self.found([9], lambda point: None if point[0] < 8 else 0, 50)
        self.assertEqual(climb.best, (8,))

    def test_no_point_is_tried_twice(self) -> None:
        tried: list[Point] = []
        self.found([50, 50], lambda point: (tried.append(point), 0)[1], 300)
        self.assertEqual(len(tried), len(set(tried)))


    def test_coordinates_of_a_block_are_one_choice(self) -> None:
        # two of three steps change the first or the last coordinate, not two of 22
        climb = Climb([9] * 22, [(0,) * 22], 100, 1)
        climb.join([[0], range(1, 21), [21]])
        climbing.drive(climb.run(), lambda batch: [0] * len(batch))
        chosen = [climb.random.choice(climb.blocks) for _ in range(300)]
        self.assertEqual(len(climb.blocks), 3)
        self.assertGreater(sum(len(block) == 1 for block in chosen), 150)

    def test_a_guide_leads_to_a_needle(self) -> None:
        # one point of a million has a value above 0, and the guide names it
        needle = (777, 333)
        climb = Climb([1000, 1000], [(0, 0)], 200, 1)
        climb.guide = lambda point, chance: needle
        climbing.drive(climb.run(), lambda batch: [int(point == needle) for point in batch])
        self.assertEqual(climb.best, needle)


class Guides(unittest.TestCase):
    """s has the period 10, and a start of 30 to 39; r has 20, and a start of 30 to 49."""

    def guide(self, *texts: str, rows: Any = None, horizon: int = 100) -> Guide:
        space = Space(tables(), [ranges.choice_of(text, tables(), horizon) for text in texts])
        return Guide(space, horizon, rows or (lambda point: None))

    def test_a_window(self) -> None:
        # the job was from 60 to 70, so 30 ticks before it are looked at
        rows = [f'{time} 0 run A' for time in (10, 29, 30, 45, 45, 60, 70, 71)]
        window = guiding.window_of((60, 70), rows)
        self.assertEqual(window, ((60, 70), [30, 45, 60, 70]))
        # 40 ticks before a job of 40
        self.assertEqual(guiding.window_of((50, 90), rows)[1], [10, 29, 30, 45, 60, 70, 71])

    def test_a_start_moves_in_its_period(self) -> None:
        guide = self.guide('source.r.start=30..49', 'source.s.start=30..39')
        self.assertEqual(guide.moved((19, 9), guide.starts, 3), (2, 2))
        self.assertEqual(guide.moved((0, 0), guide.starts[1:], -13), (0, 7))

    def test_a_start_stays_in_its_range(self) -> None:
        guide = self.guide('source.s.start=30..38:4')
        # 30, 34 and 38: 34 is 4 after 30, and 44 is 14; 35 and 41 are no places
        self.assertEqual([guide.moved((0,), guide.starts, ticks) for ticks in (4, 14, 5, 11)], [(1,), (1,), None, None])
        guide = self.guide('source.s.start=31,38')
        self.assertEqual([guide.moved((0,), guide.starts, ticks) for ticks in (7, -3, 1)], [(1,), (1,), None])

    def test_jitter_moves_with_its_interrupts(self) -> None:
        # two dates in each period of 10: with 3 ticks more, a start of 39 is 42, so the start is 32
        # and each interrupt is that of one period later in the list
        guide = self.guide('source.s.start=30..39', 'source.s.at=jitter 3', horizon=60)
        point = (9, 1, 2, 0, 0, 3, 0)
        self.assertEqual(guide.moved(point, guide.starts, 3), (2, 3, 0, 1, 2, 0, 0))
        self.assertEqual(guide.moved((2, 3, 0, 1, 2, 0, 0), guide.starts, -3), point)

    def test_an_interrupt_comes_to_a_row(self) -> None:
        # s comes 2 and 6 after its start. One of both is at 64 to 66 if the start ends with 2, 3, 4
        # or with 8, 9, 0
        guide = self.guide('source.s.start=30..39', rows=lambda point: ((65, 70), ['65 0 run A']))
        chance = random.Random(1)
        made = {guide.aligned((0,), guiding.Window((65, 70), [65]), chance) for _ in range(100)}
        self.assertEqual(made, {(2,), (3,), (4,), (8,), (9,), (0,)})

    def test_an_open_job_comes_sooner(self) -> None:
        # from 60 to the horizon of 100: 40 % of the moves are 1 to 100 ticks forward
        guide = self.guide('source.s.start=30..39')
        chance = random.Random(1)
        away = [guide.away(guiding.Window((60, 100), [60]), chance) for _ in range(200)]
        self.assertGreater(sum(-10 <= ticks < 0 for ticks in away), 20)
        # the start of the job comes to the earliest time, 30
        self.assertIn(-30, away)

    def test_nothing_to_read(self) -> None:
        chance = random.Random(1)
        self.assertEqual(self.guide('source.s.start=30..39').step((4,), chance), (4,))
        none = self.guide('thread.A.script.2=3..5', rows=lambda point: ((1, 2), ['1 0 run A']))
        self.assertEqual(none.step((1,), chance), (1,))


class Bounds(unittest.TestCase):
    """A needs 5 each 20, and a call; B 3 each 10: by hand 3 + 6 = 9."""

    @staticmethod
    def system(**changes: Any) -> dict[str, Any]:
        made = tables()
        del made['source'][1]['at']
        return {**made, **changes}

    def test_two_tasks(self) -> None:
        self.assertEqual(bounding.bound(self.system(), 'B'), 9)
        self.assertEqual(bounding.bound(self.system(), 'A'), 5)

    def test_contexts_as_clocks(self) -> None:
        contexts = [{'name': 'a', 'core': 0, 'budget': 2, 'period': 5}, {'name': 'b', 'core': 0, 'budget': 4, 'period': 12}]
        threads = [{'name': 'A', 'context': 'a', 'priority': 9, 'script': ['compute 2']}, {'name': 'B', 'context': 'b', 'priority': 5, 'script': ['compute 4']}]
        # 4 + 2 x 2 = 8, in which A comes at 0 and 5
        self.assertEqual(bounding.bound({'version': 2, 'context': contexts, 'thread': threads}, 'B'), 8)

    def expect(self, reason: str, made: dict[str, Any]) -> None:
        with self.assertRaisesRegex(NoBound, reason):
            bounding.bound(made, 'B')

    def test_what_it_does_not_cover(self) -> None:
        self.expect('min_budget', self.system(min_budget=2))
        self.expect('an order', self.system(order=[{'at': 9, 'core': 0, 'context': 'a', 'budget': 2, 'period': 20}]))
        early = self.system()
        early['source'][0]['start'] = 21
        self.expect('r may interrupt before 22', early)
        called = self.system(server=[{'name': 'v', 'core': 0, 'priority': 20, 'script': ['compute 2']}])
        called['thread'][0]['script'].append('call v 1')
        self.expect('A calls a server', called)
        poor = self.system()
        poor['context'][1]['budget'] = 3
        self.expect('the budget of B may be exhausted', poor)

    def test_a_source_that_a_script_signals_too(self) -> None:
        made = self.system()
        made['thread'][0]['script'].append('signal n 1')
        self.expect('A does more than to compute', made)


if __name__ == '__main__':
    unittest.main()
