"""The events of a trace. A tick is 1 µs where nothing is said."""
from __future__ import annotations

import io
import json
import pathlib
import sys
import tempfile
import unittest
from typing import Any

from worked import BUSY, BUSY_ROWS, ONE, ONE_ROWS, PAIR, PAIR_ROWS, TAKEN, TAKEN_ROWS, TOOLS, told, run_tool
from mcsim_tools.trace import Trace


def events(text: str, rows: str, horizon: int, tick: int = 1000, budgets: bool = False) -> list[dict[str, Any]]:
    given, out = told(text, rows, horizon), io.StringIO()
    Trace(given.system, out, tick, budgets).write(given)
    found: list[dict[str, Any]] = json.loads(out.getvalue())['traceEvents']
    return found


class Events(unittest.TestCase):
    def test_slices_of_a_thread(self) -> None:
        found = [(one['name'], one['tid'], one['ts'], one['dur']) for one in events(ONE, ONE_ROWS, 14) if one['ph'] == 'X']
        own: list[tuple[object, ...]] = [('running', 1, 0, 2), ('throttled', 1, 2, 3), ('running', 1, 5, 2), ('throttled', 1, 7, 3), ('running', 1, 10, 1)]
        # the round ends at 11, after its deadline at 10
        self.assertCountEqual(found, [*own, ('round 1 missed by 1', 2, 10, 1)])

    def test_names(self) -> None:
        named = {(one['name'], one['tid']): one['args']['name'] for one in events(ONE, ONE_ROWS, 14) if one['ph'] == 'M' and 'name' in one['args']}
        self.assertEqual(named, {('process_name', 0): 'core 0', ('thread_name', 1): 'A', ('thread_name', 2): 'A: late'})

    def test_flows_lie_a_quarter_of_a_tick_off(self) -> None:
        found = [(one['ph'], one['id'], one['ts'], one['pid']) for one in events(PAIR, PAIR_ROWS, 12) if one['ph'] in 'sf']
        wanted = [[('s', k, k - 0.25, 1), ('f', k, k + 2.25, 0)] for k in range(1, 6)]
        self.assertEqual(found, sum(wanted, []))

    def test_no_flow_at_the_horizon(self) -> None:
        # at 6 the fourth signal arrives
        self.assertEqual([one['id'] for one in events(PAIR, PAIR_ROWS, 6) if one['ph'] == 'f'], [1, 2, 3])

    def test_a_lost_signal_is_an_instant(self) -> None:
        found = [(one['name'], one['ts'], one['tid']) for one in events(PAIR, PAIR_ROWS, 12) if one['ph'] == 'i']
        self.assertEqual(found, [('lost n', 6, 1)])

    def test_interrupts_are_instants_of_the_thread_that_waits(self) -> None:
        found = events(BUSY, BUSY_ROWS, 6)
        instants = [(one['name'], one['ts'], one['tid']) for one in found if one['ph'] == 'i']
        self.assertEqual(instants, [('interrupt s', 2, 1), ('interrupt k', 3, 1), ('interrupt s', 4, 1), ('interrupt s', 6, 1), ('lost n', 6, 1)])
        self.assertEqual([one for one in found if one['ph'] in 'sf'], [])

    def test_an_interrupt_for_which_nobody_waits_is_an_instant_of_the_core(self) -> None:
        text = BUSY.replace('"wait n", "on 1", "compute 5"', '"compute 5"')
        instants = [(one['name'], one['ts'], one['tid'], one['s']) for one in events(text, '2 0 interrupt s n 1\n2 0 hold n 1', 3) if one['ph'] == 'i']
        self.assertEqual(instants, [('interrupt s', 2, 0, 'p')])

    def test_a_thread_that_waits_for_a_server_is_blocked_after_its_call(self) -> None:
        found = [(one['ts'], one['dur'], one['args']) for one in events(TAKEN, TAKEN_ROWS, 22) if one['name'] == 'blocked']
        self.assertEqual(found, [(5, 16, {'ticks': 16, 'after': 'call'})])

    def test_late_slices(self) -> None:
        found = [(one['name'], one['ts'], one['dur']) for one in events(PAIR, PAIR_ROWS, 12) if one.get('cat') == 'late']
        self.assertEqual(found, [('round 2 missed by 2', 8, 2), ('overdue', 11, 1)])

    def test_real_lengths_are_exact(self) -> None:
        first = next(one for one in events(ONE, ONE_ROWS, 14, tick=10_001) if one['ph'] == 'X')
        self.assertEqual((first['ts'], first['dur']), (0, 20.002))

    def test_budgets(self) -> None:
        found = [(one['ts'], one['args']['usable']) for one in events(ONE, ONE_ROWS, 6, budgets=True) if one['ph'] == 'C']
        self.assertEqual(found, [(0, 2), (2, 0), (5, 2)])


class Tool(unittest.TestCase):
    def test_nothing_half_written(self) -> None:
        with tempfile.TemporaryDirectory() as folder:
            system, target = pathlib.Path(folder, 'one.toml'), pathlib.Path(folder, 'trace.json')
            system.write_text(ONE)
            command = [sys.executable, str(TOOLS / 'trace'), str(system), '--rows', '-', '-o', str(target)]
            ran = run_tool(command, input='0 0 release A\nhello\n', capture_output=True, text=True)
            self.assertEqual((ran.returncode, ran.stdout, ran.stderr), (2, '', 'trace: line 2 is no row of a schedule of this system: hello\n'))
            self.assertEqual(list(pathlib.Path(folder).iterdir()), [system])


if __name__ == '__main__':
    unittest.main()
