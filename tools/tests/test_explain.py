"""tools/explain beside programs that tell a fault of their own: what it says of each, expected by hand."""
from __future__ import annotations

import os
import pathlib
import subprocess
import sys
import tempfile
import time
import unittest

from worked import TOOLS, run_tool

# a machine with much else to do has so many seconds for what a free one does in a few
SECONDS = 600
HEAD = 'version = 1\ncores = 2\ndelay = 1\n'
NEW = 'version = 3\ncores = 2\ndelay = 1\n'
CONTEXTS = 'context = [{ name = "a", core = 0, budget = 2, period = 5 }, { name = "b", core = 1, budget = 2, period = 5 }]\n'
NOTE = 'note = [{ name = "tick", core = 0 }]\n'


class Explained(unittest.TestCase):
    def setUp(self) -> None:
        folder = tempfile.TemporaryDirectory()
        self.addCleanup(folder.cleanup)
        self.folder = pathlib.Path(folder.name)

    def ran(self, text: bytes, script: str, *words: str) -> subprocess.CompletedProcess[str]:
        program = self.folder / 'program'
        program.write_text(f'#!/bin/sh\ncat >/dev/null\n{script}\n')
        program.chmod(0o755)
        (self.folder / 'system.toml').write_bytes(text)
        command = [sys.executable, str(TOOLS / 'explain'), *(words or ['system.toml'])]
        return run_tool(command, cwd=self.folder, env={**os.environ, 'MCSIM': str(program)}, capture_output=True, text=True)

    def told(self, text: str, fault: str) -> list[str]:
        """The lines for a fault of a file."""
        ended = self.ran(text.encode(), f"echo 'mcsim: {fault}' >&2; exit 1")
        self.assertEqual((ended.returncode, ended.stderr), (1, ''))
        return ended.stdout.splitlines()

    def test_a_misspelt_key_is_marked_and_the_nearest_named(self) -> None:
        text = HEAD + CONTEXTS + 'thread = [{ name = "A", prio = 5, script = ["yield"] }]\n'
        self.assertEqual(self.told(text, 'unknown key at thread 1 ?'), [
            'system.toml:5:25: unknown key at thread 1 ?',
            '    thread = [{ name = "A", prio = 5, script = ["yield"] }]',
            '                            ^',
            '  prio is no key of a thread; the nearest is priority',
            '  priority: an integer, 0 to 255. The greatest runs first',
            '  keys of a thread: name, context, priority, start, rounds, deadline, script',
        ])

    def test_a_key_of_version_2_is_told_as_such(self) -> None:
        lines = self.told(HEAD + '[[context]]\nmode = "bandwidth"\n', 'unknown key at context 1 ?')
        self.assertEqual(lines[0], 'system.toml:5:1: unknown key at context 1 ?')
        self.assertEqual(lines[3], '  mode is a key of versions 2 and 3, and this file says version = 1')

    def test_a_key_of_version_3_is_told_as_such(self) -> None:
        lines = self.told('version = 2\ncores = 1\ndelay = 1\n[[source]]\nname = "s"\n', 'unknown key at top ?')
        self.assertEqual(lines[3], '  source is a key of version 3 alone, and this file says version = 2')

    def test_a_word_of_version_3_is_told_as_such(self) -> None:
        text = 'version = 2\ncores = 1\ndelay = 1\n[[thread]]\nscript = ["wait n", "on 1"]\n'
        lines = self.told(text, 'bad item: unknown word at thread 1 script item 2')
        self.assertEqual(lines[0], 'system.toml:5:21: bad item: unknown word at thread 1 script item 2')
        self.assertEqual(lines[3:], [
            '  on is a word of version 3 alone, and this file says version = 2', '  items: compute N, signal NOTE BADGE, wait NOTE, yield',
        ])

    def test_a_call_of_a_later_server_names_the_earlier_ones(self) -> None:
        text = NEW + '[[server]]\nname = "clock"\n[[server]]\nname = "timer"\nscript = ["call later 1"]\n[[server]]\nname = "later"\n'
        self.assertEqual(self.told(text, 'unknown name at server 2 script item 1')[3:], [
            '  no earlier server has the name later', '  names of earlier servers: clock', '  server 2 is timer',
        ])

    def test_a_call_of_another_core_names_both(self) -> None:
        text = NEW + CONTEXTS + '[[server]]\nname = "v"\ncore = 1\n[[thread]]\ncontext = "a"\nscript = ["call v 1"]\n'
        lines = self.told(text, 'other core at thread 1 script item 1')
        self.assertEqual(lines[3:], ['  v is on core 1, and the thread runs on core 0: a server is called on its own core alone'])

    def test_a_number_of_at_is_told_with_the_one_before(self) -> None:
        text = NEW + '[[source]]\nperiod = 10\nat = [0, 7, 7]\n'
        lines = self.told(text, 'out of range at source 1 at item 3')
        self.assertEqual(lines[0], 'system.toml:6:13: out of range at source 1 at item 3')
        self.assertEqual(lines[3:], [
            '  each number of at lies below the period, 10; here stands 7', '  and each is above the one before, which is 7',
        ])

    def test_a_server_that_has_a_notification_s_name(self) -> None:
        lines = self.told(NEW + NOTE + '[[server]]\nname = "tick"\n', 'double name at server 1 name')
        self.assertEqual(lines[3], '  a notification has the name tick, in line 4: notifications and servers have one name space')

    def test_too_much_of_what_version_3_adds(self) -> None:
        text = NEW + NOTE + 'server = [{ name = "v" }, { name = "w" }]\n[[thread]]\nscript = ["call v 1"]\n[[source]]\nat = [0, 1]\n'
        self.assertEqual(self.told(text, 'too many at server')[3:], ['  notifications and servers together are at most 4,096; here are 3'])
        lines = self.told(text, 'too many at thread 1 script item 1')
        self.assertEqual(lines[0], 'system.toml:7:11: too many at thread 1 script item 1')
        self.assertEqual(lines[3:], ['  a script has at most 1,024 steps: one for each item, and for a call those of the server for its badge and two more'])
        self.assertEqual(self.told(text, 'too many at source 1 at')[3:], [
            '  a source has at most 1,024 numbers in at, and all sources together 4,096; an absent at counts 1',
        ])

    def test_handlers_and_chains_want_a_wait(self) -> None:
        text = NEW + '[[thread]]\nname = "A"\nscript = ["yield", "on 1"]\n[[chain]]\nthread = "A"\nbadges = 1\n'
        self.assertEqual(self.told(text, 'on without wait at thread 1 script item 2')[3:], [
            '  on begins a handler for a badge of the word that the first item waits for: the first item of the script is to be a wait',
            '  thread 1 is A',
        ])
        self.assertEqual(self.told(text, 'no wait at chain 1 thread')[3:], ['  A never waits, so no interrupt can begin one of its rounds'])
        self.assertEqual(self.told(text, 'no wait at chain 1 badges')[3:], [
            '  the badges of a chain are those of the word that begins a round: the first item of A is to be a wait, or badges 0',
        ])

    def test_a_key_of_another_table_is_told_as_such(self) -> None:
        lines = self.told(HEAD + '[[thread]]\ncore = 1\n', 'unknown key at thread 1 ?')
        self.assertIn('  core is no key of a thread, but of a context and of a notification and of an order', lines)

    def test_the_range_of_a_core_is_that_of_the_file(self) -> None:
        lines = self.told(HEAD + 'note = [{ name = "n", core = 2 }]\n', 'out of range at note 1 core')
        self.assertEqual(lines[0], 'system.toml:4:30: out of range at note 1 core')
        self.assertEqual(lines[3], '  core is an integer, 0 to 1 (cores - 1); here stands 2')

    def test_a_missing_key_is_told_at_its_row(self) -> None:
        lines = self.told(HEAD + '\n[[note]]\nname = "n"\n', 'missing key at note 1 core')
        self.assertEqual(lines[:2], ['system.toml:5:1: missing key at note 1 core', '    [[note]]'])
        self.assertTrue(lines[3].startswith('  core is required: an integer, 0 to 1'))

    def test_a_value_of_another_kind(self) -> None:
        lines = self.told('version = 1.0\n', 'wrong kind at top version')
        self.assertEqual(lines[3], '  version is an integer: 1 or 2 or 3; here stands no integer, 1.0')

    def test_a_table_in_place_of_an_array(self) -> None:
        lines = self.told(HEAD + '[context]\nname = "a"\n', 'wrong kind at context')
        self.assertEqual(lines[0], 'system.toml:4:2: wrong kind at context')
        self.assertIn('[[context]] with two brackets', lines[3])

    def test_a_name_that_is_there_already_has_its_line(self) -> None:
        lines = self.told(HEAD + '[[note]]\nname = "n"\n[[note]]\nname = "n"\n', 'double name at note 2 name')
        self.assertEqual(lines[0], 'system.toml:7:8: double name at note 2 name')
        self.assertEqual(lines[3], '  the name n stands first in line 4')

    def test_a_name_that_is_nowhere_has_its_nearest(self) -> None:
        text = HEAD + CONTEXTS + NOTE + 'thread = [{ name = "A", context = "a", priority = 1, script = ["wait tck", "yield"] }]\n'
        lines = self.told(text, 'unknown name at thread 1 script item 1')
        self.assertEqual(lines[0], 'system.toml:6:64: unknown name at thread 1 script item 1')
        self.assertEqual(lines[3], '  no notification has the name tck; the nearest is tick')

    def test_an_item_whose_word_is_unknown(self) -> None:
        text = HEAD + CONTEXTS + 'thread = [{ name = "A", context = "a", priority = 1, script = ["yield",\n"yeild"] }]\n'
        lines = self.told(text, 'bad item: unknown word at thread 1 script item 2')
        self.assertEqual(lines[0], 'system.toml:6:1: bad item: unknown word at thread 1 script item 2')
        self.assertEqual(lines[3], '  yeild is no word of an item; the nearest is yield')

    def test_a_bad_number_has_its_range(self) -> None:
        text = HEAD + CONTEXTS + 'thread = [{ name = "A", context = "a", priority = 1, script = ["signal n 0"] }]\n'
        lines = self.told(text, 'bad item: bad number at thread 1 script item 1')
        self.assertEqual(lines[3], '  the item is signal NOTE BADGE; here stands signal n 0')
        self.assertIn('1 to 4,294,967,295', lines[4])

    def test_a_budget_below_the_least(self) -> None:
        lines = self.told(HEAD + 'min_budget = 4\n' + CONTEXTS, 'control: budget too small at context 1 budget')
        self.assertIn('budget is 2, and min_budget at the top 4', lines[3])

    def test_a_context_of_two_threads(self) -> None:
        text = HEAD + CONTEXTS + '[[thread]]\ncontext = "a"\n[[thread]]\ncontext = "a"\n'
        lines = self.told(text, 'context taken at thread 2 context')
        self.assertEqual(lines[3], '  the thread in line 5 has the context a: each thread has its own')
        self.assertEqual(lines[4], '  contexts without a thread: b')

    def test_a_wait_on_another_core(self) -> None:
        text = HEAD + CONTEXTS + NOTE + '[[thread]]\ncontext = "b"\nscript = ["wait tick"]\n'
        lines = self.told(text, 'other core at thread 1 script item 1')
        self.assertEqual(lines[3], '  tick is at home on core 0, and the thread runs on core 1: a thread waits at home alone')

    def test_an_open_quote_has_its_line(self) -> None:
        self.assertEqual(self.told('version = 1\nnote = [{ name = "n }]\n', 'not TOML at file')[0], 'system.toml:2:18: not TOML at file')

    def test_a_key_that_stands_twice_has_its_line(self) -> None:
        lines = self.told('version = 1\nversion = 2\n', 'not TOML at file')
        self.assertEqual(lines[0], 'system.toml:2:12: not TOML at file')
        self.assertIn('Cannot overwrite a value', lines[3])

    def test_bytes_that_are_no_text_have_their_line(self) -> None:
        ended = self.ran(b'version = 1\n# \xff\n', "echo 'mcsim: not TOML at file' >&2; exit 1")
        self.assertEqual(ended.stdout.splitlines()[0], 'system.toml:2:3: not TOML at file')

    def test_the_part_of_a_long_line_round_the_mark_is_shown(self) -> None:
        text = '# ' + '-' * 300 + '\nnote = [' + ' ' * 200 + '{ name = "x y" }]\n'
        lines = self.told(text, 'bad name at note 1 name')
        self.assertEqual(lines[0], 'system.toml:2:218: bad name at note 1 name')
        self.assertEqual(lines[1][lines[2].index('^'):], '"x y" }]')

    def test_a_place_that_the_file_has_not_is_told_without_a_line(self) -> None:
        self.assertEqual(self.told(HEAD, 'missing key at thread 3 name')[0], 'system.toml: missing key at thread 3 name')

    def test_control_characters_of_the_file_are_not_written(self) -> None:
        text = HEAD + 'note = [{ name = "a\x1b]0;t\x07b\u202e", core = 0 }]\n'
        lines = self.told(text, 'bad name at note 1 name')
        self.assertEqual(lines[:2], ['system.toml:4:18: bad name at note 1 name', '    note = [{ name = "a?]0;t?b?", core = 0 }]'])
        self.assertTrue(all(line.isprintable() for line in lines))

    def test_a_mark_of_the_byte_order_is_no_part_of_the_file(self) -> None:
        text = '\ufeff' + HEAD + 'note = [{ name = "n", core = 2 }]\n'
        self.assertEqual(self.told(text, 'out of range at note 1 core')[0], 'system.toml:4:30: out of range at note 1 core')
        self.assertEqual(self.told('\ufeffcores = \n', 'not TOML at file')[0], 'system.toml:1:9: not TOML at file')

    def test_a_file_of_toml_1_1_is_lost_where_it_is_at_fault(self) -> None:
        text = 'note = [{ name = "\\x41",\n  core = 0,\n}]\ncores = 1\ncores = 2\n'
        lines = self.told(text, 'not TOML at file')
        self.assertEqual(lines[0], 'system.toml:5:10: not TOML at file')
        self.assertIn('says at 5:10: Cannot overwrite a value', lines[3])

    def test_a_long_file(self) -> None:
        text = HEAD + '[[note]]\nname = "n"\ncore = 0\n' * 200_000
        began = time.monotonic()
        lines = self.told(text, 'too many at note')
        self.assertLess(time.monotonic() - began, SECONDS)
        self.assertEqual(lines[0], 'system.toml:4:3: too many at note')
        self.assertIn('  there are at most 4,096 rows; here are 200,000', lines)

    def test_a_long_line(self) -> None:
        for long in ('x' * 10_000_000, '\x1b' * 10_000_000):
            began = time.monotonic()
            lines = self.told(HEAD + f'note = [{{ core = 0, name = "{long}" }}]\n', 'bad name at note 1 name')
            self.assertLess(time.monotonic() - began, SECONDS)
            self.assertEqual(lines[0], 'system.toml:4:28: bad name at note 1 name')
            self.assertIn('this one has 10000000 characters', lines[4])
            self.assertTrue(all(line.isprintable() and len(line) < 1100 for line in lines))
        lines = self.told(HEAD + f'thread = [{{ {"x" * 10_000_000} = 1 }}]\n', 'unknown key at thread 1 ?')
        self.assertEqual(lines[0], 'system.toml:4:13: unknown key at thread 1 ?')
        self.assertLess(sum(map(len, lines)), 3000)

    def test_many_unknown_keys(self) -> None:
        lines = self.told(HEAD + ''.join(f'key{place} = 1\n' for place in range(100_000)), 'unknown key at top ?')
        self.assertEqual(lines[0], 'system.toml:4:1: unknown key at top ?')
        self.assertLess(len(lines), 12)

    def test_no_fault(self) -> None:
        ended = self.ran(HEAD.encode(), 'exit 0')
        self.assertEqual((ended.returncode, ended.stdout), (0, 'system.toml: no fault\n'))

    def test_what_is_no_fault_of_the_file_is_passed_on(self) -> None:
        ended = self.ran(HEAD.encode(), "echo 'mcsim: read failed' >&2; exit 3")
        self.assertEqual((ended.returncode, ended.stdout, ended.stderr), (3, '', 'explain: mcsim: read failed\n'))

    def test_a_file_that_is_not_there(self) -> None:
        ended = self.ran(HEAD.encode(), 'exit 0', 'other.toml')
        self.assertEqual((ended.returncode, ended.stdout, ended.stderr), (2, '', 'explain: other.toml: No such file or directory\n'))

    def test_a_program_that_is_not_there(self) -> None:
        ended = self.ran(HEAD.encode(), 'exit 0', '--program', './none', 'system.toml')
        self.assertEqual((ended.returncode, ended.stderr), (2, 'explain: ./none: No such file or directory\n'))


if __name__ == '__main__':
    unittest.main()
