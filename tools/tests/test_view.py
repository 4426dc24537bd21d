"""What is drawn, in single things and in columns. A tick of a small picture has 34 pixels, and time begins at 176."""
from __future__ import annotations

import argparse
import base64
import collections
import decimal
import json
import os
import pathlib
import re
import sys
import tempfile
import unittest
import xml.etree.ElementTree as ElementTree
import zlib
from typing import Any

import worked
from worked import BUSY, BUSY_ROWS, HANDLERS, HANDLERS_ROWS, ONE, ONE_ROWS, PAIR, PAIR_ROWS, TAKEN, TAKEN_ROWS, TOOLS, told
from mcsim_tools import view
from mcsim_tools.faults import Fault
from mcsim_tools.page import script_json
from mcsim_tools.scale import Clock, Scale, step_of
from mcsim_tools.source import Words

SVG = '{http://www.w3.org/2000/svg}'


def words(*given: str) -> argparse.Namespace:
    parser = Words(None).takes_rows()
    view.add_looks(parser)
    return parser.parse_args(['system.toml', *given])


def drawn(text: str, rows: str, *given: str) -> ElementTree.Element:
    asked = words(*given)
    window = view.window_of(asked, True)
    return ElementTree.fromstring(view.draw(told(text, rows, window.horizon), asked, window, False))


def paged(text: str, rows: str, *given: str) -> str:
    asked = words(*given)
    window = view.window_of(asked, True)
    return view.draw(told(text, rows, window.horizon), asked, window, True)


def bars(svg: ElementTree.Element, thread: str) -> list[tuple[str, float, float]]:
    """The bars of a thread's lane: what each shows, where it begins, how wide it is."""
    lane = next(group for group in svg.iter(f'{SVG}g') if group.get('class') == 'T' and group.get('data-name') == thread)
    return [(rect.attrib['class'].split()[0], float(rect.attrib['x']), float(rect.attrib['width'])) for rect in lane.iter(f'{SVG}rect')]


def signs(svg: ElementTree.Element, thread: str) -> list[tuple[str, float]]:
    lane = next(group for group in svg.iter(f'{SVG}g') if group.get('class') == 'M' and group.get('data-name') == thread)
    return [(use.attrib['href'][1:], float(use.attrib['x'])) for use in lane]


def text_of(svg: ElementTree.Element, path: str) -> str:
    """All text of an element."""
    found = svg.find(path)
    return '' if found is None else ''.join(found.itertext())


def part_of(page: str, pattern: str) -> str:
    """The part of a page that a pattern has in parentheses."""
    return str(re.findall(pattern, page, re.S)[0])


def at(moment: int) -> float:
    return 176 + 34 * moment


class SingleThings(unittest.TestCase):
    def test_a_thread(self) -> None:
        svg = drawn(ONE, ONE_ROWS, '--horizon', '12')
        wanted = [('running', at(0), 68), ('throttled', at(2), 102), ('running', at(5), 68), ('throttled', at(7), 102), ('running', at(10), 34)]
        # the response is 11, and the deadline at 10 is missed
        self.assertEqual(bars(svg, 'A'), [*wanted, ('resp', at(0), 374), ('late', at(10), 34)])
        self.assertEqual(signs(svg, 'A'), [('up', at(0)), ('down', at(10)), ('endlate', at(11))])

    def test_a_window_cuts_what_reaches_beyond(self) -> None:
        svg = drawn(ONE, ONE_ROWS, '--horizon', '12', '--from', '1', '--to', '11')
        self.assertEqual(bars(svg, 'A')[:2], [('running', 176, 34), ('throttled', 176 + 34, 102)])
        self.assertEqual(signs(svg, 'A'), [('down', 176 + 9 * 34), ('endlate', 176 + 10 * 34)])

    def test_signals(self) -> None:
        svg = drawn(PAIR, PAIR_ROWS, '--horizon', '12')
        found = signs(svg, 'W')
        self.assertEqual([sign for sign in found if sign[0] in ('hold', 'lost')], [('hold', at(4)), ('hold', at(5)), ('lost', at(6)), ('hold', at(7))])
        self.assertEqual([sign for sign in signs(svg, 'D') if sign[0] == 'made'], [('made', at(k)) for k in range(1, 6)])
        self.assertEqual(len([path for path in svg.iter(f'{SVG}path') if path.get('class') == 'join' and path.find(f'{SVG}title') is not None]), 5)

    def test_interrupts_arrive_in_the_lane_of_the_thread_that_waits(self) -> None:
        svg = drawn(BUSY, BUSY_ROWS, '--horizon', '13')
        found = signs(svg, 'D')
        arrived = [('hold', 3), ('hold', 4), ('lost', 6), ('hold', 8), ('lost', 10), ('lost', 12)]
        self.assertEqual([sign for sign in found if sign[0] in ('hold', 'lost')], [(sign, at(moment)) for sign, moment in arrived])
        # each interrupt is a mark at the top edge, whatever comes of it
        self.assertEqual([sign for sign in found if sign[0] == 'irq'], [('irq', at(moment)) for moment in (2, 3, 4, 6, 8, 10, 12)])
        # the word of 3 activates no round, that of 4 does; that of 8 is not taken
        self.assertEqual([sign for sign in found if sign[0] == 'up'], [('up', at(2)), ('up', at(4))])
        titles = [title.text for title in svg.iter(f'{SVG}title')]
        self.assertIn('interrupt of s at 2 to n, badge 1: wakes D', titles)
        self.assertIn('interrupt of s at 6 to n, badge 1: is lost: its bits were there already', titles)
        legend = text_of(svg, f"./{SVG}g[@id='legend']")
        self.assertIn('interrupt', legend)
        self.assertNotIn('signal made', legend)
        self.assertNotIn('a server', legend)

    def test_who_waits_for_a_server_is_blocked(self) -> None:
        svg = drawn(TAKEN, TAKEN_ROWS, '--horizon', '22')
        self.assertIn(('blocked', at(5), 16 * 34), bars(svg, 'H'))
        self.assertIn('H blocked 5 to 21: 16, its call waits for a server', [title.text for title in svg.iter(f'{SVG}title')])
        self.assertIn('blocked: waits for a signal or a server', text_of(svg, f"./{SVG}g[@id='legend']"))

    def test_who_is_inside_a_server_has_a_band(self) -> None:
        svg = drawn(TAKEN, TAKEN_ROWS, '--horizon', '22')
        found = [(rect.attrib['class'], float(rect.attrib['x']), float(rect.attrib['width'])) for rect in svg.iter(f'{SVG}rect')
                 if rect.get('class', '-').split()[0] in ('inside', 'waits') and rect.find(f'{SVG}title') is not None]
        # L has the second lane; H waits from 5 until L leaves, and is inside from then on
        self.assertEqual(sorted(found), [('inside c0', at(21), 34), ('inside c1', at(1), 20 * 34), ('waits c0', at(5), 16 * 34)])
        self.assertIn('server v: H waits for it 5 to 21: 16', [title.text for title in svg.iter(f'{SVG}title')])

    def test_a_free_lock_is_no_pending_signal(self) -> None:
        text = ONE.replace('rounds = 1, deadline = 10, script = ["compute 5"]', 'script = ["compute 1", "signal n 1", "wait n"]').replace('thread =', 'note = [{ name = "n", core = 0 }]\nthread =')
        rows = '0 0 release A\n0 0 run A\n2 0 signal A n 1\n2 0 hold n 1\n2 0 stop A spent 2 until 5\n'
        self.assertIn(('free', at(2)), signs(drawn(text, rows, '--horizon', '12'), 'A'))

    def test_what_is_queued_stands_before_the_round(self) -> None:
        own = bars(drawn(PAIR, PAIR_ROWS, '--horizon', '12'), 'W')
        # the second round was activated at 4, took its word at 7, and ended at 10, 2 after its deadline; the third is overdue at 12
        self.assertIn(('queued', at(4), 102), own)
        self.assertIn(('resp', at(7), 102), own)
        self.assertEqual([bar for bar in own if bar[0] == 'late'], [('late', at(8), 68), ('late', at(11), 34)])

    def test_the_core_shows_who_runs(self) -> None:
        svg = drawn(PAIR, PAIR_ROWS, '--horizon', '12')
        lanes = {group.get('data-core'): [rect.get('data-n') for rect in group] for group in svg.iter(f'{SVG}g') if group.get('class') == 'C'}
        self.assertEqual(lanes, {'0': ['W', 'W'], '1': ['D']})

    def test_a_thread_without_a_lane_is_no_idle_time(self) -> None:
        for most in ('20000', '3'):
            svg = drawn(TAKEN, TAKEN_ROWS, '--horizon', '22', '--threads', 'H', '--most', most)
            lane = next(group for group in svg.iter(f'{SVG}g') if group.get('class') == 'C')
            self.assertEqual({one.attrib['class'] for one in lane}, {'other', 'on c0'})
            self.assertIn('another thread, without a lane', text_of(svg, f"./{SVG}g[@id='legend']"))
        svg = drawn(TAKEN, TAKEN_ROWS, '--horizon', '22', '--threads', 'H')
        lane = next(group for group in svg.iter(f'{SVG}g') if group.get('class') == 'C')
        # L runs from 0 to 3, from 10 to 13 and from 20 to 21, H from 4 to 5 and from 21 on
        wanted = [('other', 0, 3), ('on', 4, 5), ('other', 10, 13), ('other', 20, 21), ('on', 21, 22)]
        found = [(rect.attrib['class'].split()[0], float(rect.attrib['x']), float(rect.attrib['width'])) for rect in lane]
        self.assertEqual(found, [(look, at(begin), 34.0 * (end - begin)) for look, begin, end in wanted])

    def test_threads_with_findings_have_lanes_first(self) -> None:
        names = {group.get('data-name') for group in drawn(PAIR, PAIR_ROWS, '--horizon', '12', '--lanes', '1').iter(f'{SVG}g') if group.get('class') == 'T'}
        self.assertEqual(names, {'W'})
        # L stands first, and H misses
        names = {group.get('data-name') for group in drawn(TAKEN.replace('priority = 10', 'priority = 31'), TAKEN_ROWS, '--horizon', '22', '--lanes', '1').iter(f'{SVG}g')
                 if group.get('class') == 'T'}
        self.assertEqual(names, {'H'})

    def test_one_unit_everywhere(self) -> None:
        svg = drawn(ONE, ONE_ROWS, '--horizon', '12', '--tick-us', '2.5')
        said = ''.join(svg.itertext())
        # a budget of 2 in 5, a deadline of 10, a miss by 1
        for text in ('system: 30 µs, 10 rows', 'prio 5, 5/12.5 µs, due 25 µs', 'A running 0 µs to 5 µs: 5 µs', 'response 27.5 µs, deadline 25 µs: missed by 2.5 µs'):
            self.assertIn(text, said)

    def test_colours_and_lines_tell_threads_apart(self) -> None:
        names = [f'T{number}' for number in range(26)]
        text = 'version = 1\ncores = 1\ndelay = 1\n' + ''.join(
            f'[[context]]\nname = "{name}"\ncore = 0\nbudget = 1\nperiod = 9\n[[thread]]\nname = "{name}"\ncontext = "{name}"\npriority = 5\nscript = ["yield"]\n'
            for name in names)
        svg = drawn(text, '', '--horizon', '5')
        looks = [rect.attrib['class'] for rect in svg.iter(f'{SVG}rect') if re.fullmatch(r'c\d+', rect.get('class', '')) and rect.get('width') == '4']
        self.assertEqual(looks, [f'c{number % 24}' for number in range(26)])
        self.assertEqual({pattern.attrib['id'] for pattern in svg.iter(f'{SVG}pattern')}, {'hatch', 'hatch0', *(f'q{number}' for number in range(6, 24))})

    def test_lanes_that_are_asked_for(self) -> None:
        names = [group.get('data-name') for group in drawn(PAIR, PAIR_ROWS, '--horizon', '12', '--cores', '1').iter(f'{SVG}g') if group.get('class') == 'T']
        self.assertEqual(names, ['D'])

    def test_the_heading_counts(self) -> None:
        said = text_of(drawn(PAIR, PAIR_ROWS, '--horizon', '12'), f'{SVG}title')
        self.assertEqual(said, 'system: 12 ticks, 27 rows: 1 missed, 1 overdue, 1 lost')

    def test_the_legend_has_what_is_drawn(self) -> None:
        one, two = (text_of(drawn(*system, '--horizon', '12'), f"./{SVG}g[@id='legend']") for system in ((ONE, ONE_ROWS), (PAIR, PAIR_ROWS)))
        self.assertIn('throttled', one)
        self.assertNotIn('lost', one)
        self.assertIn('lost', two)
        self.assertNotIn('throttled', two)

    def test_crowded_lanes_have_small_signs_and_no_deadline_that_was_met(self) -> None:
        many = 200
        rows = '0 0 release A\n0 0 run A\n' + '\n'.join(f'{k + 1} 0 round A {k + 1} 1' for k in range(many))
        system = ONE.replace('budget = 2, period = 5', 'budget = 5, period = 5').replace('deadline = 10', 'deadline = 1').replace('rounds = 1, ', '')
        kinds = collections.Counter(sign for sign, _ in signs(drawn(system, rows, '--horizon', f'{many}'), 'A'))
        # the round that begins at the horizon is not activated: no tick follows
        self.assertEqual(kinds, {'up-s': many, 'end-s': many})


class ManyThings(unittest.TestCase):
    def test_columns_count_what_was_missed_and_lost(self) -> None:
        svg = drawn(PAIR, PAIR_ROWS, '--horizon', '12', '--most', '3')
        # columns of a tick: a signal that was lost at 6, a round that was missed at 10, and one that is overdue from 11 on
        self.assertEqual([bar for bar in bars(svg, 'W') if bar[0] == 'late'], [('late', at(6), 34), ('late', at(10), 34), ('late', at(11), 34)])

    def test_areas_give_the_ticks(self) -> None:
        svg = drawn(ONE, ONE_ROWS, '--horizon', '12', '--most', '1')
        path = next(path for path in svg.iter(f'{SVG}path') if path.get('class') == 'running c0')
        # columns of a tick: whole for 0 and 1, 5 and 6, and 10
        self.assertEqual(re.findall(r'M([\d.]+)', path.attrib['d']), ['176', f'{at(5)}', f'{at(10)}'])


Packed = dict[str, list[int]]


def held_by(page: str) -> tuple[dict[str, Any], Packed]:
    """What a page knows, and its arrays by their names, read as its scripts do."""
    known: dict[str, Any] = json.loads(part_of(page, '<script type="application/json" id="data">(.*?)</script>'))
    data, arrays, at = zlib.decompress(base64.b64decode(part_of(page, '<script type="text/plain" id="arrays">(.*?)</script>'))), {}, 0
    for name, many, wide in known['arrays']:
        planes = [data[at + byte * many:at + (byte + 1) * many] for byte in range(wide)]
        arrays[name] = [sum(plane[place] << 8 * byte for byte, plane in enumerate(planes)) for place in range(many)]
        at += many * wide
    return known, arrays


def findings(page: str) -> list[tuple[str, int, str, str]]:
    return [(kind, end, name, said) for kind, _, _, end, name, _, said in held_by(page)[0]['findings']]


class Pages(unittest.TestCase):
    def test_the_table(self) -> None:
        known, _ = held_by(paged(PAIR, PAIR_ROWS, '--horizon', '12'))
        row = next(thread for thread in known['threads'] if thread['name'] == 'W')
        # it waited for a tick at 0 and had the core for 10 of 12 ticks
        self.assertEqual(row, {'name': 'W', 'core': 0, 'prio': 5, 'context': 'w', 'budget': 20, 'period': 20, 'deadline': 4, 'rounds': 2, 'greatest': 6,
                               'missed': 1, 'open': 'overdue', 'lost': 1, 'merged': 1, 'stood': [0, 0, 10, 0, 2, 0]})

    def test_the_findings_of_handlers(self) -> None:
        self.assertEqual(findings(paged(HANDLERS, HANDLERS_ROWS, '--horizon', '12')), [('miss', 8, 'D', 'round 2 took 6, deadline 5')])
        wanted = [('lost', moment, 'n', 'badge 1 was there already, for D') for moment in (6, 10)]
        self.assertEqual(findings(paged(BUSY, BUSY_ROWS, '--horizon', '10')), wanted)

    def test_the_findings(self) -> None:
        wanted = [('lost', 6, 'n', 'badge 2 was there already, for W'), ('miss', 10, 'W', 'round 2 took 6, deadline 4'),
                  ('overdue', 12, 'W', 'activated at 7 and not ended 5 later, deadline 4')]
        self.assertEqual(findings(paged(PAIR, PAIR_ROWS, '--horizon', '12')), wanted)

    def test_findings_in_the_unit_of_the_page(self) -> None:
        page = paged(ONE, ONE_ROWS, '--horizon', '12', '--tick-us', '2.5')
        self.assertEqual(findings(page), [('miss', 11, 'A', 'round 1 took 27.5 µs, deadline 25 µs')])
        known, _ = held_by(page)
        self.assertEqual((known['tick'], known['unit']), (2.5, 'µs'))

    def test_how_threads_stood(self) -> None:
        known, arrays = held_by(paged(ONE, ONE_ROWS, '--horizon', '12'))
        self.assertEqual((known['a'], known['b'], known['detail']), (0, 12, None))
        # running, throttled as its budget was spent, and so on, then done
        codes = [2, 3 + 8 * 1, 2, 3 + 8 * 1, 2, 5 + 8 * 5]
        self.assertEqual((arrays['segCount'], arrays['segLength'], arrays['segCode']), ([6], [2, 3, 2, 3, 1, 1], codes))
        # round 1 ended at 11, and its response was 11 from the activation and from the beginning
        rounds = [arrays[f'round{name}'] for name in ('Count', 'Number', 'End', 'Response', 'Took')]
        self.assertEqual(rounds, [[1], [1], [11], [11], [11]])

    def test_a_window(self) -> None:
        known, arrays = held_by(paged(ONE, ONE_ROWS, '--horizon', '12', '--from', '1', '--to', '6'))
        self.assertEqual((known['a'], known['b'], known['end']), (1, 6, 12))
        self.assertEqual((arrays['segLength'], arrays['segCode']), ([1, 3, 1], [2, 3 + 8 * 1, 2]))

    def test_who_is_inside_a_server_and_who_waits(self) -> None:
        known, arrays = held_by(paged(TAKEN, TAKEN_ROWS, '--horizon', '22'))
        # H has the higher priority, so its lane is the first; L was inside from 1 to 21, and H waited from 5 on
        self.assertEqual([thread['name'] for thread in known['threads']], ['H', 'L'])
        self.assertEqual([arrays[f'served{name}'] for name in ('Count', 'Begin', 'End', 'Thread')], [[2], [1, 21], [21, 22], [1, 0]])
        self.assertEqual([arrays[f'queued{name}'] for name in ('Count', 'Begin', 'End', 'Thread')], [[1], [5], [21], [0]])
        self.assertEqual((known['servers'], known['serverCores']), (['v'], [0]))

    def test_signals(self) -> None:
        _, arrays = held_by(paged(PAIR, PAIR_ROWS, '--horizon', '12'))
        # D signals at 1 to 5, and each signal is under way for 2: the first wakes W, the others are held, merged, lost, held
        at = [sum(arrays['postAt'][:place + 1]) for place in range(5)]
        self.assertEqual((at, arrays['postWay']), ([3, 4, 5, 6, 7], [2] * 5))
        self.assertEqual(arrays['postOutcome'], [0, 1, 2, 3, 1])

    def test_columns_after_the_last_single_thing(self) -> None:
        known, arrays = held_by(paged(ONE, ONE_ROWS, '--horizon', '12', '--most', '2'))
        # the third thing ends at 7: from there on each tick is a column, in which A is throttled, runs from 10 to 11, and is done
        self.assertEqual((known['detail'], known['columns']), (7, [7, 1, 5]))
        self.assertEqual(arrays['segLength'], [2, 3, 2])
        self.assertEqual([arrays[f'column{name}'] for name in ('Run', 'Throttled', 'Missed')], [[0, 0, 0, 1, 0], [1, 1, 1, 0, 0], [0, 0, 0, 0, 1]])

    def test_a_page_of_many_threads_begins_with_those_that_have_findings(self) -> None:
        known, _ = held_by(paged(TAKEN.replace('priority = 10', 'priority = 31'), TAKEN_ROWS, '--horizon', '22', '--lanes', '1'))
        self.assertEqual([known['threads'][place]['name'] for place in known['chosen']], ['H'])

    def test_no_text_of_a_file_ends_its_script(self) -> None:
        page = paged(ONE, ONE_ROWS, '--horizon', '12')
        self.assertEqual(script_json('</script>'), '"\\u003c/script>"')
        self.assertEqual(page.count('</script>'), 3)

    def test_a_page_takes_nothing_from_a_network(self) -> None:
        page = paged(ONE, ONE_ROWS, '--horizon', '12')
        found = set(re.findall(r'https?://[^\s"\']+', page))
        self.assertEqual(found, {'http://www.w3.org/2000/svg'})
        self.assertNotIn('src=', page)


class Scales(unittest.TestCase):
    def test_steps(self) -> None:
        # 70 pixels at least
        self.assertEqual([step_of(span, 700) for span in (1, 10, 11, 25, 60, 1000)], [1, 1, 2, 5, 10, 100])

    def test_moments(self) -> None:
        self.assertEqual(list(Scale(3, 21, 0, 280).moments()), [5, 10, 15, 20])

    def test_real_units(self) -> None:
        clock = Clock(decimal.Decimal('2.5'))
        self.assertEqual([clock.unit(100).text(moment) for moment in (0, 1, 100)], ['0 µs', '2.5 µs', '250 µs'])
        self.assertEqual(clock.unit(4000).text(1000), '2.5 ms')
        self.assertEqual(clock.unit(4_000_000).text(400_000), '1 s')
        self.assertEqual(Clock().unit(4000).text(1200), '1,200')
        self.assertEqual([unit.short(20_000) for unit in (Clock().unit(20_000), clock.unit(20_000))], ['20k', '50'])


class Tool(unittest.TestCase):
    def setUp(self) -> None:
        folder = tempfile.TemporaryDirectory()
        self.addCleanup(folder.cleanup)
        self.folder = pathlib.Path(folder.name)
        self.system = self.folder / 'one.toml'
        self.system.write_text(ONE)

    def run_tool(self, *given: str, rows: str = ONE_ROWS.lstrip()) -> tuple[int, str]:
        ran = worked.run_tool([sys.executable, str(TOOLS / 'view'), *given], input=rows, capture_output=True, text=True, cwd=self.folder)
        self.assertEqual(ran.stdout, '')
        return ran.returncode, ran.stderr

    def refused(self, said: str, *given: str, rows: str = ONE_ROWS.lstrip()) -> None:
        before = sorted(self.folder.iterdir())
        self.assertEqual(self.run_tool(*given, rows=rows), (2, f'view: {said}\n'))
        self.assertEqual(sorted(self.folder.iterdir()), before)

    def test_rows_of_standard_input(self) -> None:
        self.assertEqual(self.run_tool('one.toml', '--rows', '-', '-o', 'one.svg'), (0, ''))
        svg = ElementTree.parse(self.folder / 'one.svg').getroot()
        self.assertEqual(text_of(svg, f'{SVG}title'), 'one: 11 ticks, 10 rows: 1 missed, 0 overdue, 0 lost')

    def test_bad_input_is_one_line_and_nothing_is_written(self) -> None:
        rest = ('--rows', '-', '-o', 'x.svg')
        self.refused('line 1 is no row of a schedule of this system: hello', 'one.toml', *rest, rows='hello\n')
        self.refused('none.toml: No such file or directory', 'none.toml', *rest)
        self.refused('.: Is a directory', '.', *rest)
        self.refused('x.gif is no .svg, .html, .png or .pdf', 'one.toml', '--rows', '-', '-o', 'x.gif')
        self.refused('none/x.svg: No such file or directory', 'one.toml', '--rows', '-', '-o', 'none/x.svg')
        self.refused('--to 9 is beyond the horizon 5', 'one.toml', *rest, '--horizon', '5', '--to', '9')
        self.refused('--from 9 is not before the end, 9', 'one.toml', *rest, '--from', '9', '--to', '9')
        self.refused("there is no thread 'B'", 'one.toml', *rest, '--threads', 'B')
        self.refused("there is no core '1'", 'one.toml', *rest, '--cores', '1')
        self.refused("argument -n/--horizon: 'x' is no moment of 0 to 2^40", 'one.toml', *rest, '--horizon', 'x')
        self.refused("argument --tick-us: '0' is no length of a tick in microseconds", 'one.toml', *rest, '--tick-us', '0')
        self.refused('rows.txt: No such file or directory', 'one.toml', '--rows', 'rows.txt', '-o', 'x.svg')

    def test_a_file_that_is_no_system(self) -> None:
        for text, said in (
            (ONE.replace('"A"', "'<b>'"), 'no system: a name has 1 to 32 characters of A-Z a-z 0-9 _ -'),
            (ONE.replace('priority = 5', 'priority = "high"'), 'no system: priority is no number of 0 to 1099511627776'),
            (ONE.replace('budget = 2', 'budget = 0'), 'no system: budget is no number of 1 to 5'),
            (ONE.replace('core = 0', 'core = 1'), 'no system: core is no number of 0 to 0'),
            (ONE.replace('context = "a"', 'context = "b"'), "no system: 'b' is missing"),
            (ONE.replace('["compute 5"]', '[]'), 'no system'),
            ('x = ', 'not TOML: Invalid value (at end of document)'), ('version = 1', "no system: 'cores' is missing"), ('cores = 1\nthread = 3', 'no system'),
        ):
            self.system.write_text(text)
            self.refused(f'one.toml: {said}', 'one.toml', '--rows', '-', '-o', 'x.svg')

    def program(self, text: str) -> str:
        file = self.folder / 'program'
        file.write_text(f'#!/bin/sh\n{text}\n')
        file.chmod(0o755)
        return str(file)

    def test_a_run(self) -> None:
        # the program is given the file and the horizon
        program = self.program(f'cat >given.toml; echo "$@" >given.words; cat <<"E"\n{ONE_ROWS.strip()}\nE')
        self.assertEqual(self.run_tool('one.toml', '--program', program, '--horizon', '12', '-o', 'one.html'), (0, ''))
        self.assertEqual((self.folder / 'given.toml').read_text(), ONE)
        self.assertEqual((self.folder / 'given.words').read_text(), '--horizon 12\n')
        self.assertEqual(findings((self.folder / 'one.html').read_text()), [('miss', 11, 'A', 'round 1 took 11, deadline 10')])

    def test_what_the_program_says_has_its_line(self) -> None:
        program = self.program('cat >/dev/null; echo "mcsim: zero budget at context 1 budget" >&2; exit 1')
        self.refused('one.toml:5: zero budget at context 1 budget', 'one.toml', '--program', program, '-o', 'x.svg')
        self.refused('none: No such file or directory', 'one.toml', '--program', 'none', '-o', 'x.svg')

    def browser(self, text: str) -> dict[str, str]:
        """The environment of a machine whose browser is a script."""
        file = self.folder / 'chromium'
        file.write_text(f'#!/bin/sh\n{text}\n')
        file.chmod(0o755)
        return {**os.environ, 'PATH': f'{self.folder}:/usr/bin:/bin'}

    def rendered(self, target: str, env: dict[str, str]) -> tuple[int, str]:
        command = [sys.executable, str(TOOLS / 'view'), 'one.toml', '--rows', '-', '-o', target]
        ran = worked.run_tool(command, input=ONE_ROWS.lstrip(), capture_output=True, text=True, cwd=self.folder, env=env)
        return ran.returncode, ran.stderr

    def test_a_browser_makes_other_forms(self) -> None:
        # it is given a page with the picture, and writes where it is told
        script = 'for word; do case $word in --screenshot=*|--print-to-pdf=*) to=${word#*=};; file:*) page=${word#file://};; esac; done\n'
        env = self.browser(script + 'grep -c "<svg " "$page" >"$to"')
        for name in ('one.png', 'one.pdf'):
            self.assertEqual(self.rendered(name, env), (0, ''))
            self.assertEqual((self.folder / name).read_text(), '1\n')

    def test_what_a_browser_does_not_draw_is_one_line(self) -> None:
        env = self.browser('echo broken >&2; exit 3')
        self.assertEqual(self.rendered('one.png', env), (2, f'view: one.png: {self.folder}/chromium ended with 3: broken\n'))
        (self.folder / 'chromium').unlink()
        said = 'a browser draws it, and none was found (chromium, chromium-browser, google-chrome, google-chrome-stable); a .svg needs none'
        self.assertEqual(self.rendered('one.pdf', {**env, 'PATH': str(self.folder)}), (2, f'view: one.pdf: {said}\n'))
        self.assertFalse((self.folder / 'one.png').exists() or (self.folder / 'one.pdf').exists())

    def test_a_program_that_breaks_off_leaves_no_picture(self) -> None:
        program = self.program('cat >/dev/null; echo "0 0 release A"; echo "mcsim: no memory" >&2; exit 4')
        self.refused('one.toml: no memory', 'one.toml', '--program', program, '-o', 'x.svg')


class Windows(unittest.TestCase):
    def test_defaults(self) -> None:
        self.assertEqual(view.window_of(words(), False), view.Window(0, 1000, 1000))
        self.assertEqual(view.window_of(words(), True), view.Window(0, None, None))
        self.assertEqual(view.window_of(words('--to', '30'), False), view.Window(0, 30, 30))

    def test_horizon_zero(self) -> None:
        self.assertEqual(view.window_of(words('--horizon', '0'), False), view.Window(0, 0, 0))
        with self.assertRaises(Fault):
            view.window_of(words('--horizon', '0', '--from', '1'), False)


if __name__ == '__main__':
    unittest.main()
