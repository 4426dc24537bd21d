"""The waves of a schedule, line by line."""
from __future__ import annotations

import io
import pathlib
import sys
import tempfile
import unittest
from typing import Optional

from worked import BUSY, BUSY_ROWS, ONE, ONE_ROWS, PAIR, PAIR_ROWS, TAKEN, TAKEN_ROWS, TOOLS, told, run_tool
from mcsim_tools.waves import Dump, code_of, saved_view


def dump(text: str, rows: str, horizon: int, tick: int = 1) -> list[str]:
    given, out = told(text, rows, horizon), io.StringIO()
    Dump(given.system, out, tick).write(given)
    return out.getvalue().splitlines()


def changes(lines: list[str]) -> dict[str, list[str]]:
    """For each moment what changes, by the names of waves with their scopes."""
    names: dict[str, str] = {}
    scope: list[str] = []
    found: dict[str, list[str]] = {}
    now: Optional[list[str]] = None
    for line in lines:
        words = line.split()
        if words[0] == '$scope':
            scope.append(words[2])
        elif words[0] == '$upscope':
            scope.pop()
        elif words[0] == '$var':
            names[words[3]] = '.'.join([*scope, words[4]])
        elif line.startswith('#'):
            now = found.setdefault(line, [])
        elif now is not None and line[0] == '1':
            now.append(names[line[1:]])
        elif now is not None:
            now.append(f'{names[words[1]]} {words[0][1:]}')
    return {moment: sorted(told_) for moment, told_ in found.items()}


class Waves(unittest.TestCase):
    def test_a_thread(self) -> None:
        found = changes(dump(ONE, ONE_ROWS, 12))
        runs, stands, until = 'core0.runs', 'core0.threads.A', 'core0.until.A'
        self.assertEqual(found, {
            '#0': [f'{runs} A', f'{stands} running'],
            '#2': [f'{runs} -', f'{stands} throttled', f'{until} 101'],
            '#5': [f'{runs} A', f'{stands} running', f'{until} z'],
            '#7': [f'{runs} -', f'{stands} throttled', f'{until} 1010'],
            '#10': [f'{runs} A', f'{stands} running', f'{until} z'],
            # the round took 11, and its deadline is 10
            '#11': ['core0.misses.A', 'core0.rounds.A', f'{runs} -', f'{stands} done'],
            '#12': [],
        })

    def test_signals(self) -> None:
        found = changes(dump(PAIR, PAIR_ROWS, 12))
        notes = {moment: [one for one in told_ if '.n' in one] for moment, told_ in found.items()}
        arrives, loses, word = 'core0.arrivals.n', 'core0.losses.n', 'core0.words.n'
        self.assertEqual({moment: told_ for moment, told_ in notes.items() if told_}, {
            '#3': [arrives], '#4': [arrives, f'{word} 1'], '#5': [arrives, f'{word} 11'], '#6': [arrives, loses], '#7': [arrives, f'{word} 1'], '#11': [f'{word} 0'],
        })

    def test_interrupts_arrive_and_are_lost(self) -> None:
        found = changes(dump(BUSY, BUSY_ROWS, 13))
        notes = {moment: [one for one in told_ if '.n' in one] for moment, told_ in found.items()}
        arrives, loses, word = 'core0.arrivals.n', 'core0.losses.n', 'core0.words.n'
        self.assertEqual({moment: told_ for moment, told_ in notes.items() if told_}, {
            '#2': [arrives], '#3': [arrives, f'{word} 100'], '#4': [arrives, f'{word} 101'], '#6': [arrives, loses], '#8': [arrives, f'{word} 1'],
            '#10': [arrives, loses], '#12': [arrives, loses],
        })

    def test_a_first_word(self) -> None:
        lines = dump(BUSY.replace('name = "n", core = 0', 'name = "n", core = 0, word = 6'), '', 3)
        code = next(line.split()[3] for line in lines if line.startswith('$var reg 32') and line.split()[4] == 'n')
        self.assertIn(f'b110 {code}', lines[lines.index('$dumpvars'):lines.index('#3')])

    def test_a_thread_that_waits_for_a_server(self) -> None:
        found = changes(dump(TAKEN, TAKEN_ROWS, 22))
        stands = {moment: [one.split()[1] for one in told_ if one.startswith('core0.threads.H')] for moment, told_ in found.items()}
        self.assertEqual({moment: told_ for moment, told_ in stands.items() if told_}, {'#4': ['running'], '#5': ['blocked'], '#21': ['running']})

    def test_a_tick_may_be_longer(self) -> None:
        self.assertEqual([line for line in dump(ONE, ONE_ROWS, 12, 1000) if line.startswith('#')], ['#0', '#2000', '#5000', '#7000', '#10000', '#11000', '#12000'])

    def test_codes(self) -> None:
        self.assertEqual([code_of(place) for place in (0, 1, 93, 94)], ['!', '"', '~', '!"'])
        self.assertEqual(len({code_of(place) for place in range(10_000)}), 10_000)

    def test_the_saved_view_has_each_thread_with_its_own_waves(self) -> None:
        lines = saved_view(told(PAIR, PAIR_ROWS, 12).system, 12).splitlines()
        names = [line for line in lines if line[0] in '-+']
        self.assertEqual(names, [
            '-core 0', '+{core 0} core0.runs',
            '+{W} core0.threads.W', '+{W until} core0.until.W[63:0]', '+{W rounds} core0.rounds.W', '+{W misses} core0.misses.W',
            '+{n word} core0.words.n[31:0]', '+{n arrives} core0.arrivals.n', '+{n lost} core0.losses.n',
            '-core 1', '+{core 1} core1.runs', '+{D} core1.threads.D', '+{D until} core1.until.D[63:0]', '+{D rounds} core1.rounds.D',
        ])


class Tool(unittest.TestCase):
    def test_what_is_no_schedule_is_one_line_and_nothing_is_written(self) -> None:
        with tempfile.TemporaryDirectory() as folder:
            system = pathlib.Path(folder, 'one.toml')
            system.write_text(ONE)
            command = [sys.executable, str(TOOLS / 'waves'), str(system), '--rows', '-', '-o', f'{folder}/one.vcd', '--save', f'{folder}/one.gtkw']
            ran = run_tool(command, input='0 0 release A\n{}\n', capture_output=True, text=True)
            self.assertEqual((ran.returncode, ran.stdout, ran.stderr), (2, '', 'waves: line 2 is no row of a schedule of this system: {}\n'))
            self.assertEqual(list(pathlib.Path(folder).iterdir()), [system])


if __name__ == '__main__':
    unittest.main()
