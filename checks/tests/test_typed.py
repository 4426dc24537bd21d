"""Options as people type them: what becomes of them on the way to a program, and when tools/pretty shows the verdict."""
from __future__ import annotations

import os
import pty
import re
import subprocess
import unittest

from checks import common
from checks.pages.manual import options_of_help
from checks.tests.test_built import TOP, InFolder

# writes each word that it was given, and `-` if standard input had something
LISTS = '#!/bin/sh\nfor word; do printf "%s\\n" "$word"; done\nread -r line && echo "- $line"\nexit 5\n'
# in place of the view: what it was given, and the exit code of what it runs
SHOWS = '#!/bin/sh\necho pretty "$@"\n'
FULL = '/dev/full'


class Typed(InFolder):
    def setUp(self) -> None:
        super().setUp()
        self.renewed()
        self.write('crates/mcsim/out/mcsim', LISTS, 0o755)
        self.write('crates/mcscheck/out/mcscheck', LISTS, 0o755)
        self.write('tools/pretty', SHOWS, 0o755)
        (self.top / 'mcscheck').symlink_to('mcsim')

    def ran(self, name: str, *words: str, **how: object) -> subprocess.CompletedProcess[str]:
        return self.run_in([str(self.top / name), *words], **how)

    def given(self, *words: str, name: str = 'mcscheck') -> list[str]:
        """The words that the program is given."""
        found = self.ran(name, *words)
        self.assertEqual((found.returncode, found.stderr), (5, ''))
        return found.stdout.splitlines()

    def refused(self, *words: str, name: str = 'mcscheck') -> str:
        """The one line with which words are refused before any program runs."""
        found = self.ran(name, *words)
        self.assertEqual((found.returncode, found.stdout), (2, ''))
        self.assertEqual(found.stderr.count('\n'), 1)
        return found.stderr.rstrip('\n').removeprefix(f'{name}: ')


class Words(Typed):
    def test_words_that_the_programs_know_stay_byte_for_byte(self) -> None:
        for words in (
            (), ('a b.toml',), ('--horizon', '5', 'a.toml'), ('--horizon=5', '--strict'), ('--show', 'findings', '--format', 'csv', 'a'), ('--format=json',),
            ('--allow-lost', '-n', '--allow-lost=-n'), ('--allow-lost', '1e6'), ('--why', '-s', '1e6'), ('--why', '--tick-us', '5', 'a'), ('--', '-n', '1e6'),
            ('--', '--format', 'pretty'), ('', '*', '$HOME', 'a\nb', "it's", '\\n', '--x y'), ('--horizon', ''), ('--horizon=',), ('--horizon', '007'), ('-x',),
            ('--workers', '0x10'), ('-strict',), ('-sjobs',), ('--horizon',), ('yes-',), ('./-',), ('--no-such=1e6',), ('--forever', '--format', 'csv'),
            ('--why', 'A', '1', '--format', 'csv'), ('--show=both', '--format', 'csv'), ('--format', 'yaml'),
        ):
            with self.subTest(words=words):
                self.assertEqual(self.given(*words), [line for word in words for line in word.split('\n')])

    def test_short_options(self) -> None:
        self.assertEqual(self.given('-n', '5', '-w', '2', '-s', 'jobs', 'a'), ['--horizon', '5', '--workers', '2', '--show', 'jobs', 'a'])
        self.assertEqual(self.given('-n5', '-w2', '-s=jobs', '-n=7'), ['--horizon=5', '--workers=2', '--show=jobs', '--horizon=7'])
        self.assertEqual(self.given('-n', '-w', name='mcsim'), ['--horizon', '-w'])

    def test_numbers(self) -> None:
        for text, number in (
            ('1e6', '1000000'), ('1_000_000', '1000000'), ('1.5e3', '1500'), ('2E3', '2000'), ('1_0e0_', '1_0e0_'), ('0e9', '0'), ('1.50e1', '15'),
            ('1e12', '1000000000000'), ('10.0', '10'), ('1099511627776', '1099511627776'), ('08e1', '80'), ('1e09', '1000000000'),
            # no whole number, or no number at all: the program says so
            ('1.5', '1.5'), ('1.55e1', '1.55e1'), ('_1', '_1'), ('1_', '1_'), ('1__0', '1__0'), ('e6', 'e6'), ('1e', '1e'), ('1e-3', '1e-3'), ('1e100', '1e100'),
            ('.5e1', '.5e1'), ('5.', '5.'), ('-5', '-5'), ('1e6e6', '1e6e6'), ('+1e6', '+1e6'), ('1,000', '1,000'), ('1._5e1', '1._5e1'),
        ):
            with self.subTest(text=text):
                self.assertEqual(self.given('--horizon', text), ['--horizon', number])
                self.assertEqual(self.given(f'--workers={text}'), [f'--workers={number}'])

    def test_times(self) -> None:
        for tick, text, number in (
            ('1000', '10ms', '10'), ('1', '10ms', '10000'), ('0.5', '10us', '20'), ('1000', '2s', '2000'), ('0.001', '10ns', '10'), ('100', '1.5ms', '15'),
            ('1e3', '1_000ms', '1000'), ('10', '10', '10'), ('10', '1e2', '100'), ('7', '0ms', '0'), ('1000000', '1000000s', '1000000'), ('12.5', '1ms', '80'),
            ('0.1', '30us', '300'),
        ):
            with self.subTest(tick=tick, text=text):
                self.assertEqual(self.given('--tick-us', tick, '-n', text), ['--horizon', number])
                # the options stand in any order
                self.assertEqual(self.given(f'--horizon={text}', f'--tick-us={tick}', name='mcsim'), [f'--horizon={number}'])

    def test_times_that_are_no_ticks(self) -> None:
        self.assertEqual(self.refused('--tick-us', '3', '-n', '10ms'), '--horizon 10ms is no whole number of ticks of 3 us: it lies between 3333 and 3334 ticks')
        self.assertEqual(self.refused('-n', '10ms'), '--horizon 10ms: a time wants --tick-us, the length of a tick in microseconds; without it N is a number of ticks')
        too_long = '--horizon 1e20s is too long a time in ticks of 1 us: a run has at most 2^40 ticks'
        self.assertEqual(self.refused('--tick-us', '1', '-n', '1e20s', name='mcsim'), too_long)
        for tick in ('0', '0.0', '-1', 'a', '', '1ms', '1e400'):
            self.assertEqual(self.refused('--tick-us', tick), f'--tick-us {tick} is no length of a tick: microseconds, above 0, as 1000 or 0.5')
        self.assertEqual(self.refused('--tick-us'), '--tick-us wants a value: the length of a tick in microseconds')

    def test_a_dash_is_standard_input(self) -> None:
        for words in (('-',), ('--', '-')):
            self.assertEqual(self.ran('mcsim', *words, stdin=None, input='system\n').stdout.splitlines(), [*words[:-1], '- system'])

    def test_rows_of_csv_are_findings_unless_something_else_is_picked(self) -> None:
        self.assertEqual(self.given('a', '--format', 'csv'), ['--show', 'findings', 'a', '--format', 'csv'])
        self.assertEqual(self.given('--format=csv'), ['--show', 'findings', '--format=csv'])
        self.assertEqual(self.given('--format', 'csv', '-s', 'table'), ['--format', 'csv', '--show', 'table'])
        self.assertEqual(self.given('--format', 'csv', name='mcsim'), ['--format', 'csv'])

    def test_a_launcher_that_lost_a_part_says_which(self) -> None:
        part = self.top / 'launcher' / 'typed.sh'
        part.unlink()
        found = self.ran('mcsim', 'a')
        self.assertEqual((found.returncode, found.stdout, found.stderr), (127, '', f'mcsim: {part} is missing\n'))

    def test_sources_that_run_unproved_have_the_same_words(self) -> None:
        self.rt()
        self.write('crates/mcsim/src/main.rt', 'changed\n')
        (self.top / 'crates/mcsim/out/mcsim').unlink()
        (self.top.parent / 'a.toml').write_text('the system\n')
        found = self.ran('mcsim', '-n', '1_0', 'a.toml').stdout.splitlines()
        self.assertEqual(found, ['try --seconds 86400 -- --horizon 10 system.toml', 'the system'])


class Pretty(Typed):
    def at_terminal(self, *words: str) -> str:
        """What a call writes whose standard output is a terminal."""
        mine, its = pty.openpty()
        subprocess.run([str(self.top / 'mcscheck'), *words], cwd=self.top.parent, env={'PATH': str(self.tools)}, stdin=subprocess.DEVNULL, stdout=its, stderr=subprocess.PIPE)
        os.close(its)
        text = b''
        try:
            while part := os.read(mine, 4096):
                text += part
        except OSError:
            pass
        os.close(mine)
        return text.decode().replace('\r', '')

    def shown(self, *words: str) -> str:
        return self.ran('mcscheck', *words).stdout.rstrip('\n').replace(str(self.top), 'TOP')

    def test_the_view_runs_this_launcher_with_the_words_that_the_program_knows(self) -> None:
        self.assertEqual(self.shown('--format', 'pretty', 'a b', '-n', '1e1'), 'pretty --run TOP/mcscheck a b --horizon 10')
        asked = ('--format=pretty', '--color', 'never', '--tick-us=5', '--rows', '--why', 'A', '2')
        self.assertEqual(self.shown(*asked), 'pretty --color=never --tick-us=5 --rows --run TOP/mcscheck --why A 2')

    def test_a_terminal_has_the_view_and_a_pipe_has_not(self) -> None:
        self.assertEqual(self.at_terminal('a').split()[0], 'pretty')
        self.assertEqual(self.given('a'), ['a'])
        self.assertEqual(self.at_terminal('a', '--format', 'text'), 'a\n--format\ntext\n')
        self.assertEqual(self.at_terminal('a', '--format', 'csv', '--color=never', '--rows'), '--show\nfindings\na\n--format\ncsv\n')

    def test_without_python_a_terminal_has_the_text(self) -> None:
        (self.tools / 'python3').unlink()
        self.assertEqual(self.at_terminal('a'), 'a\n')
        found = self.ran('mcscheck', '--format', 'pretty')
        self.assertEqual((found.returncode, found.stdout), (127, ''))
        self.assertEqual(found.stderr, 'mcscheck: --format pretty needs Python 3.11, and no such python3 is on PATH\n')

    def test_options_of_the_view_change_nothing_of_a_pipe(self) -> None:
        self.assertEqual(self.given('--color', 'always', '--rows', 'a', '--tick-us', '5'), ['a'])

    def test_mcsim_has_none_of_them(self) -> None:
        self.assertEqual(self.given('--format', 'pretty', '--rows', '--color', 'a', name='mcsim'), ['--format', 'pretty', '--rows', '--color', 'a'])

    def test_colours_that_are_none(self) -> None:
        self.assertEqual(self.refused('--color', 'blue'), '--color blue is none of auto, always and never')
        self.assertEqual(self.refused('--color'), '--color wants a value: auto, always or never')

    def test_a_fault_looks_as_it_does_without_the_view(self) -> None:
        self.write('crates/mcscheck/out/mcscheck', '#!/bin/sh\necho "mcscheck: a line" >&2\nexit 1\n', 0o755)
        (self.top / 'tools' / 'pretty').unlink()
        for name in ('tools/pretty', 'tools/mcsim_tools'):
            (self.top / name).symlink_to(TOP / name)
        found = self.ran('mcscheck', '--format', 'pretty', 'a', env={'PATH': f'{self.tools}:/usr/bin:/bin'})
        self.assertEqual((found.returncode, found.stdout, found.stderr), (1, '', 'mcscheck: a line\n'))


class Usage(Typed):
    def test_the_help_has_30_lines_of_80_to_100_columns_and_three_examples(self) -> None:
        for name in common.PROGRAMS:
            lines = (TOP / 'launcher' / f'{name}.help').read_text().splitlines()
            self.assertLessEqual(len(lines), 30)
            self.assertLessEqual(max(map(len, lines)), 100)
            self.assertEqual(len([line for line in lines if re.match(r'  mcs(im|check) ', line)]), 3)

    def test_the_help_has_all_options_and_what_they_take(self) -> None:
        of_launcher = {'version', 'install', 'uninstall', 'prove', 'tick-us'}
        of_view = {'color', 'rows'}
        for name in common.PROGRAMS:
            program = next(filter(common.is_program, (common.built_of(name), TOP / 'bin' / name)))
            options = {*options_of_help(common.run([program, '--help']).stdout.decode()), *of_launcher, *(of_view if name == 'mcscheck' else ())}
            self.assertEqual({*re.findall(r'--([a-z-]+)', self.usage(name))} - {'help'} | {'help'}, options | {'help'})

    def usage(self, name: str) -> str:
        """The options of a help, without its examples."""
        return ''.join(line for line in (TOP / 'launcher' / f'{name}.help').read_text().splitlines(keepends=True) if not line.startswith('  mcs'))

    def test_the_help_names_all_tools_and_the_other_program(self) -> None:
        text = (TOP / 'launcher' / 'mcsim.help').read_text()
        tools = {path.name for path in (TOP / 'tools').iterdir() if path.is_file() and os.access(path, os.X_OK)}
        self.assertLessEqual(tools | {'mcscheck'}, {*re.findall(r'\w+', text)})

    def test_the_help_is_shown_wherever_it_is_asked_for(self) -> None:
        for name in common.PROGRAMS:
            for words in (('--help',), ('-h',), ('a', '--horizon', '5', '--help'), ('-n', '1e', '-h')):
                found = self.ran(name, *words)
                self.assertEqual((found.returncode, found.stdout, found.stderr), (0, (TOP / 'launcher' / f'{name}.help').read_text(), ''))

    def test_a_value_asks_for_no_help(self) -> None:
        self.assertEqual(self.given('--allow-lost', '--help'), ['--allow-lost', '--help'])
        self.assertEqual(self.given('--', '--help'), ['--', '--help'])

    def test_a_help_that_is_not_written_is_a_fault(self) -> None:
        with open(FULL, 'wb') as full:
            found = subprocess.run([str(self.top / 'mcsim'), '--help'], env={'PATH': str(self.tools)}, stdout=full, stderr=subprocess.PIPE, text=True)
        self.assertEqual((found.returncode, found.stderr), (3, 'mcsim: write failed\n'))

    def test_the_short_version(self) -> None:
        for word in ('-V', '--version'):
            self.assertEqual(self.ran('mcsim', word).stdout.splitlines()[0], 'mcsim, proved and built here')


if __name__ == '__main__':
    unittest.main()
