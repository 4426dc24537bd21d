"""Schedules beside traces, with schedules that were worked out by hand."""
from __future__ import annotations

import pathlib
import tempfile
import unittest
import xml.etree.ElementTree as ElementTree
from typing import Optional
from unittest import mock

import worked
from worked import Ended
from mcsim_tools import compare, comparing, measured, system, view
from mcsim_tools.comparing import Fitting, Job, Side, Spell
from mcsim_tools.faults import Fault

SVG = '{http://www.w3.org/2000/svg}'
# A runs for 5 ticks at 10, 30, 50, 70 and 90, and B for 8 at 13, 43 and 73: it ends at 23, 51 and 83
SYSTEM = '''
version = 3
cores = 1
delay = 1
context = [{ name = "a", core = 0, budget = 20, period = 20 }, { name = "b", core = 0, budget = 30, period = 30 }]
note = [{ name = "m", core = 0 }, { name = "n", core = 0 }]
source = [{ name = "r", note = "m", badge = 1, period = 20, start = 10 }, { name = "s", note = "n", badge = 1, period = 30, start = 13 }]
thread = [
    { name = "A", context = "a", priority = 9, script = ["wait m", "compute 4"] },
    { name = "B", context = "b", priority = 5, script = ["wait n", "compute 7"] },
]
'''
# a wait each, and then 4 + 1 ticks of A and 7 + 1 of B
ROWS = '''0 0 release A
0 0 release B
0 0 run A
1 0 stop A wait 1
1 0 run B
2 0 stop B wait 1
'''
SPELLS = [(0, 1, 'A'), (1, 2, 'B'), (10, 15, 'A'), (15, 23, 'B'), (30, 35, 'A'), (43, 50, 'B'), (50, 55, 'A'), (55, 56, 'B'), (70, 75, 'A'), (75, 83, 'B'), (90, 95, 'A')]
WAKES = {'A': [10, 30, 50, 70, 90], 'B': [13, 43, 73]}


def rows() -> str:
    """The rows of the schedule by hand."""
    return ROWS + '''10 0 interrupt r m 1
10 0 wake A m 1
10 0 run A
13 0 interrupt s n 1
13 0 wake B n 1
14 0 round A 1 4
15 0 stop A wait 5
15 0 run B
22 0 round B 1 9
23 0 stop B wait 8
30 0 interrupt r m 1
30 0 wake A m 1
30 0 run A
34 0 round A 2 4
35 0 stop A wait 5
43 0 interrupt s n 1
43 0 wake B n 1
43 0 run B
50 0 round B 2 7
50 0 interrupt r m 1
50 0 wake A m 1
50 0 stop B preempt 7
50 0 run A
54 0 round A 3 4
55 0 stop A wait 5
55 0 run B
56 0 stop B wait 1
70 0 interrupt r m 1
70 0 wake A m 1
70 0 run A
73 0 interrupt s n 1
73 0 wake B n 1
74 0 round A 4 4
75 0 stop A wait 5
75 0 run B
82 0 round B 3 9
83 0 stop B wait 8
90 0 interrupt r m 1
90 0 wake A m 1
90 0 run A
94 0 round A 5 4
95 0 stop A wait 5
'''


def spells(told: list[tuple[float, float, str]]) -> list[Spell]:
    return [Spell(*one) for one in told]


def trace_text(told: list[tuple[float, float, str]], unit: float = 1000, offset: float = 5_000_000) -> str:
    lines = ['time,core,thread']
    for (begin, end, name), after in zip(told, [*told[1:], None]):
        lines.append(f'{offset + unit * begin:.0f},0,{name}')
        if after is None or after[0] > end:
            lines.append(f'{offset + unit * end:.0f},0,idle')
    return ''.join(f'{line}\n' for line in lines)


class Case(unittest.TestCase):
    def setUp(self) -> None:
        place = tempfile.TemporaryDirectory()
        self.addCleanup(place.cleanup)
        self.folder = pathlib.Path(place.name).resolve()
        self.file, self.trace = self.folder / 'system.toml', self.folder / 'trace.csv'
        self.file.write_text(SYSTEM)
        program = self.folder / 'mcsim'
        (self.folder / 'rows').write_text(rows())
        program.write_text('#!/bin/sh\ncat "$(dirname "$0")/rows"\n')
        program.chmod(0o755)
        patch = mock.patch.dict('os.environ', {'MCSIM': str(program)})
        patch.start()
        self.addCleanup(patch.stop)
        self.known = system.parse(self.file, SYSTEM.encode())

    def ran(self, text: str, *words: object) -> Ended:
        self.trace.write_text(text)
        ended = worked.ran('compare', compare.main, self.file, self.trace, '--horizon', '100', *words)
        return ended._replace(stderr=ended.stderr.replace(f'{self.folder}/', ''))


class Answers(Case):
    def test_both_agree(self) -> None:
        told = self.ran(trace_text(SPELLS))
        self.assertEqual((told.status, told.stdout, told.stderr), (0, """a tick is 1000 units of the trace, and tick 0 is at 5000000.0; 100.0% of its runs begin within 1 tick of the schedule's

thread  jobs  in trace  run time  in trace  differs  worst  in trace
A          5         5       4.2       4.2               5         5
B          4         4       6.2       6.2              13        13
worst: from the first tick of a job to its end, in ticks

up to 95.0 both run the same threads at the same times, within 1.0 ticks
""", ''))

    def test_an_interrupt_that_is_lost(self) -> None:
        told = self.ran(trace_text([one for one in SPELLS if one != (30, 35, 'A')]))
        self.assertEqual(told.status, 5)
        self.assertIn('both part at 30.0 on core 0: the schedule runs A from 30 on, and the trace B from 43.0 on\n', told.stdout)
        self.assertRegex(told.stdout, r'\n +15 +23  B +15 +23  B\n +30 +35  A +43 +50  B  <\n +43 +50  B +50 +55  A\n')

    def test_a_longer_time(self) -> None:
        longer = [(43, 50, 'B'), (50, 55, 'A'), (55, 59, 'B')]
        told = self.ran(trace_text([*SPELLS[:5], *longer, *SPELLS[8:]]))
        self.assertIn('both part at 56.0 on core 0: B runs until 56 in the schedule, and until 59.0 in the trace\n', told.stdout)

    def test_another_order(self) -> None:
        other = [*SPELLS[:2], (10, 13, 'A'), (13, 21, 'B'), (21, 23, 'A'), *SPELLS[4:]]
        self.assertIn('both part at 13.0 on core 0: A runs until 15 in the schedule, and until 13.0', self.ran(trace_text(other)).stdout)

    def test_a_trace_that_begins_later(self) -> None:
        self.assertEqual(self.ran(trace_text(SPELLS[4:], unit=24, offset=-700)).status, 0)

    def test_a_unit_and_an_offset_that_are_given(self) -> None:
        told = self.ran(trace_text(SPELLS), '--unit', '1000', '--offset', '5000000')
        self.assertTrue(told.stdout.startswith('a tick is 1000 units of the trace, and tick 0 is at 5000000.0; 100.0%'))

    def test_other_names(self) -> None:
        text = trace_text(SPELLS).replace(',A', ',sc_a').replace('time,core', 'ns,cpu').replace(',thread', ',comm')
        told = self.ran(text.replace('idle', 'swapper/0'), '--name', 'sc_a=A', '--time', 'ns', '--core', 'cpu', '--thread', 'comm', '--idle', 'swapper/0')
        self.assertEqual((told.status, told.stderr), (0, ''))

    def test_what_is_not_of_the_system(self) -> None:
        told = self.ran(trace_text(SPELLS).replace('idle', 'kworker'))
        self.assertEqual((told.status, told.stderr), (0, 'compare: trace.csv: thread kworker is not of the system, 6 rows\n'))


class Taken(Case):
    def test_times_and_arrivals(self) -> None:
        lines = ['time,core,thread,event']
        for begin, end, name in SPELLS:
            lines += [f'{begin * 10},0,{name},run', f'{end * 10},0,{name},stop']
        lines += [f'{time * 10},0,r,irq' for time in (10, 30, 50)]
        ordered = [lines[0], *sorted(lines[1:], key=lambda line: (int(line.split(',')[0]), 'run' in line))]
        taken = self.folder / 'taken.toml'
        told = self.ran('\n'.join(ordered), '--take', taken, '--events', 'interrupt=irq')
        self.assertEqual(told.status, 0)
        self.assertEqual(taken.read_text().splitlines()[1:], [
            'thread.A.script.2 = "4..4"', 'thread.B.script.2 = "7..7"',
            '# source r: period = 41, start = 10, at = [0, 20, 40]',
        ])

    def test_scripts_with_several_times(self) -> None:
        self.assertEqual(compare.computed(['wait n', 'compute 4', 'signal m 1'], 2), (2, 4))
        self.assertEqual(compare.computed(['compute 4', 'compute 5'], 2), (0, 0))
        self.assertEqual(compare.computed(['wait n', 'call v 1', 'compute 5'], 1), (0, 0))


class Jobs(Case):
    def jobs(self, has_wakes: bool) -> dict[str, list[Job]]:
        return comparing.jobs_of(self.known, Side({0: spells(SPELLS)}, {name: list(map(float, times)) for name, times in WAKES.items()}), has_wakes)

    def test_a_job_goes_on_after_a_higher_priority(self) -> None:
        self.assertEqual(self.jobs(False)['B'], [Job(1, 2, 1), Job(15, 23, 8), Job(43, 56, 8), Job(75, 83, 8)])

    def test_from_the_wake(self) -> None:
        self.assertEqual(self.jobs(True)['B'], [Job(1, 2, 1), Job(13, 23, 8), Job(43, 56, 8), Job(73, 83, 8)])

    def longer(self, times: list[float]) -> Optional[float]:
        ours = [Job(20 * number, 20 * number + 10, 10) for number in range(len(times))]
        theirs = [job._replace(ran=time) for job, time in zip(ours, times)]
        return comparing.compared('A', ours, theirs, 1, 0.01).longer

    def test_longer_jobs(self) -> None:
        self.assertEqual(self.longer([11] * 8), 0.1)
        # one job that is quite different hides nothing
        self.assertEqual(self.longer([11] * 8 + [2]), 0.1)
        self.assertIsNone(self.longer([10.05] * 8))
        self.assertIsNone(self.longer([9.5, 10.5, 9.8, 10.3, 10.1, 9.7, 10.2, 9.6]))
        self.assertIsNone(self.longer([11] * 3))


class Pictures(Case):
    """A tick has 34 pixels, and time begins at 176."""

    # A runs for 3 ticks more at 10, so B is later by 3
    LONGER = [(0.0, 1.0, 'A'), (1.0, 2.0, 'B'), (10.0, 18.0, 'A'), (18.0, 26.0, 'B')]

    def drawn(self, told: list[tuple[float, float, str]], *words: object) -> ElementTree.Element:
        trace, made = self.folder / 'trace.csv', self.folder / 'made.svg'
        trace.write_text(trace_text(told))
        fitted = ('--unit', '1000', '--offset', '5000000', '--tolerance', '1')
        ended = worked.ran('view', view.main, self.file, '--trace', trace, *fitted, '--horizon', '20', '-o', made, *words)
        self.assertEqual((ended.status, ended.stderr), (0, ''))
        return ElementTree.fromstring(made.read_text())

    @staticmethod
    def bars(svg: ElementTree.Element, look: str) -> list[tuple[float, float]]:
        """From which tick to which there is a bar."""
        legend = svg.find(f'{SVG}g[@id="legend"]')
        explained = [] if legend is None else list(legend.iter(f'{SVG}rect'))
        found = [rect for rect in svg.iter(f'{SVG}rect') if rect.get('class') == look and rect not in explained]
        places = [(float(rect.attrib['x']), float(rect.attrib['width'])) for rect in found]
        return [((x - 176) / 34, (x + wide - 176) / 34) for x, wide in places]

    def test_a_strip_for_each_thread(self) -> None:
        svg = self.drawn(self.LONGER)
        self.assertEqual(self.bars(svg, 'traced c0'), [(0, 1), (10, 18)])
        # the window ends at 20
        self.assertEqual(self.bars(svg, 'traced c1'), [(1, 2), (18, 20)])

    def test_what_differs(self) -> None:
        svg = self.drawn(self.LONGER)
        self.assertEqual(self.bars(svg, 'differs'), [(15, 18)])
        parts = [path for path in svg.iter(f'{SVG}path') if path.get('class') == 'part']
        # one in the picture and one in the legend
        self.assertEqual((parts[0].attrib['d'].split('V')[0].split()[0], len(parts)), (f'M{176 + 34 * 15}', 2))
        self.assertIn('both part at 15.0 on core 0: A runs until 15 in the schedule, and until 18.0 in the trace', ''.join(svg.itertext()))

    def test_nothing_differs(self) -> None:
        svg = self.drawn([(0.0, 1.0, 'A'), (1.0, 2.0, 'B'), (10.0, 15.0, 'A'), (15.0, 23.0, 'B')])
        self.assertEqual((self.bars(svg, 'differs'), self.bars(svg, 'traced c0')), ([], [(0, 1), (10, 15)]))

    def test_a_fit_of_few_runs(self) -> None:
        # none of four runs begins where one of the schedule does
        svg = self.drawn([(3.0, 4.5, 'A'), (5.5, 7.0, 'B'), (17.0, 18.5, 'A'), (19.5, 23.0, 'B')])
        self.assertIn('few runs agree, so --unit or --offset may be wrong', ''.join(svg.itertext()))

    def test_a_page_has_no_trace(self) -> None:
        trace = self.folder / 'trace.csv'
        trace.write_text(trace_text(self.LONGER))
        ended = worked.ran('view', view.main, self.file, '--trace', trace, '-o', self.folder / 'made.html')
        self.assertEqual(ended.stderr, f'view: {self.folder}/made.html: --trace draws a picture, a .svg, .png or .pdf, and no page\n')

    def test_when_cores_differ(self) -> None:
        ours, theirs = [Spell(0, 4, 'A'), Spell(6, 9, 'B')], [Spell(0, 5.5, 'A'), Spell(6.5, 8, 'B'), Spell(8, 9, 'A')]
        # A goes on until 5.5, B begins half a tick later, and A runs from 8 on
        self.assertEqual(comparing.differing(ours, theirs, 0, 20, 0), [(4, 5.5), (6, 6.5), (8, 9)])
        self.assertEqual(comparing.differing(ours, theirs, 0, 20, 0.5), [(4, 5.5), (8, 9)])
        self.assertEqual(comparing.differing(ours, theirs, 5, 8.5, 0.4), [(5, 5.5), (6, 6.5), (8, 8.5)])


class Fits(unittest.TestCase):
    def test_noise(self) -> None:
        ours = Side({0: spells(SPELLS)}, {})
        noise = [0.2, -0.1, 0.3, -0.2, 0.1, 0, -0.3, 0.2, -0.1, 0.1, 0]
        theirs = Side({0: [Spell(500 + 24 * (one.begin + off), 500 + 24 * (one.end + off), one.name) for one, off in zip(spells(SPELLS), noise)]}, {})
        fit = Fitting(ours.begins(), theirs.begins()).fit(None, None, None)
        self.assertAlmostEqual(fit.unit, 24, delta=0.1)
        self.assertAlmostEqual(fit.offset, 500, delta=5)
        self.assertEqual(fit.matched, 1)

    def test_short_spells_may_be_missing(self) -> None:
        theirs = spells([one for one in SPELLS if one[1] - one[0] > 1])
        self.assertIsNone(comparing.parting(0, spells(SPELLS), theirs, 1, 90))


class Faults(Case):
    def expect(self, said: str, text: str, *words: object) -> None:
        self.assertEqual(self.ran(text, *words)[:3:2], (2, f'compare: {said}\n'))

    def test_columns(self) -> None:
        self.expect("trace.csv:1: there is no column 'time': there are t, thread", 't,thread\n1,A\n')

    def test_times(self) -> None:
        self.expect("trace.csv:2: the time 'x' is no number", 'time,thread\nx,A\n')
        self.expect("trace.csv:2: the time '1e99' is no number", 'time,thread\n1e99,A\n')
        self.expect('trace.csv:3: the time 1 is before that of the row above', 'time,thread\n2,A\n1,B\n')

    def test_nothing_of_the_system(self) -> None:
        self.expect('trace.csv: no thread of the system runs in it', 'time,thread\n1,X\n')
        self.expect('trace.csv: no thread runs for some time both in it and in the schedule', 'time,thread\n1,A\n')

    def test_cells(self) -> None:
        self.expect('trace.csv:3: 1 cells for 2 columns', 'time,thread\n1,A\n2\n')

    def test_words(self) -> None:
        self.expect('--events go=x: KIND=WORD is wanted, where KIND is one of run, stop, wake, interrupt', trace_text(SPELLS), '--events', 'go=x')
        self.expect('--name x=C: TRACE=THREAD is wanted: there are A, B', trace_text(SPELLS), '--name', 'x=C')

    def test_cores_of_the_trace(self) -> None:
        two = system.parse(self.file, SYSTEM.replace('cores = 1', 'cores = 2').replace('"b", core = 0', '"b", core = 1').replace('"n", core = 0', '"n", core = 1').encode())
        self.trace.write_text('time,core,thread\n1,7,A\n2,7,B\n')
        with self.assertRaisesRegex(Fault, 'trace.csv:3: core 7 is core 0 of the system by a row above, and core 1 by this one'):
            measured.Reader(self.trace, two, measured.Words()).read()


if __name__ == '__main__':
    unittest.main()
