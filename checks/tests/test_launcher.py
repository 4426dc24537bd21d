"""What the launcher runs, and what it refuses: names, links, modes and bytes, in the repository and installed, with made-up programs."""
from __future__ import annotations

import pathlib
import shutil
import subprocess
import unittest
from collections.abc import Callable
from typing import NamedTuple

from checks import common
from checks.pages.manual import options_of_help
from checks.tests.test_built import TOP, InFolder

Change = Callable[[pathlib.Path], object]


def nothing(bin: pathlib.Path) -> None:
    """Leaves bin/ as it is."""


def with_sources(edit: Callable[[str], str]) -> Change:
    """An edit of bin/SOURCES."""
    return lambda bin: (bin / 'SOURCES').write_text(edit((bin / 'SOURCES').read_text()))


def without_sum(text: str) -> str:
    return ''.join(line for line in text.splitlines(keepends=True) if not line.startswith('bin/mcscheck '))


def appended(bin: pathlib.Path) -> None:
    with (bin / 'mcscheck').open('ab') as file:
        file.write(b'\0')


def with_a_folder(bin: pathlib.Path) -> None:
    (bin / 'mcscheck').unlink()
    (bin / 'mcscheck').mkdir()


class Case(NamedTuple):
    """What is changed in the folder bin, by which name the launcher is called, and what comes: the program's line, or a part of the refusal."""

    what: str
    change: Change
    name: str
    runs: str = ''
    refused: str = ''


NO_NAME = 'there is no program of this name: call it mcsim or mcscheck'
CHANGED = 'is not the file that was built: it has another SHA-256 than'

# the same in the repository and installed
CASES = (
    Case('the simulator', nothing, 'mcsim', runs='gate'),
    Case('the check', nothing, 'mcscheck', runs='check'),
    *(
        Case(f'the name {name}', nothing, name, refused=NO_NAME)
        for name in ('deadline-check', 'mcscheck-1.0', 'mcsim.sh', 'mcs', 'mcs_other', 'SOURCES', 'README.md', 'libmcs_c.a', 'mcsim ', 'sh')
    ),
    Case('a program that lost its mode', lambda bin: (bin / 'mcscheck').chmod(0o644), 'mcscheck', refused='has lost its mode (chmod +x '),
    Case('the other beside it', lambda bin: (bin / 'mcscheck').chmod(0o644), 'mcsim', runs='gate'),
    Case('a byte more', appended, 'mcscheck', refused=CHANGED),
    Case('the other beside it', appended, 'mcsim', runs='gate'),
    Case('a transfer that broke off', lambda bin: (bin / 'mcscheck').write_bytes(b'#!/bin/sh\n'), 'mcscheck', refused=CHANGED),
    Case('an empty file', lambda bin: (bin / 'mcscheck').write_bytes(b''), 'mcscheck', refused=CHANGED),
    Case('the simulator in its place', lambda bin: shutil.copy(bin / 'mcsim', bin / 'mcscheck'), 'mcscheck', refused=CHANGED),
    Case('no sum', with_sources(without_sum), 'mcscheck', refused='has no SHA-256 of it'),
    Case('another sum', with_sources(lambda text: text.replace('bin/mcscheck ', 'bin/mcscheck 0')), 'mcscheck', refused=CHANGED),
)
# in the repository the sources would be run, if there were rt
CASES_OF_REPOSITORY = (
    Case('no program', lambda bin: (bin / 'mcscheck').unlink(), 'mcscheck', refused='there is no bin/mcscheck, and to run the sources the command rt'),
    Case('no SOURCES', lambda bin: (bin / 'SOURCES').unlink(), 'mcscheck', refused='there is no bin/SOURCES, which tells what bin/mcscheck was built of, and'),
    Case('a folder', with_a_folder, 'mcscheck', refused='there is no bin/mcscheck, and to run'),
)
CASES_OF_INSTALLATION = (
    Case('no program', lambda bin: (bin / 'mcscheck').unlink(), 'mcscheck', refused='/bin/mcscheck is missing (./mcsim --install puts it there again)'),
    Case('no SOURCES', lambda bin: (bin / 'SOURCES').unlink(), 'mcscheck', refused='/bin/SOURCES is missing (./mcsim --install puts it there again)'),
    Case('a folder', with_a_folder, 'mcscheck', refused='/bin/mcscheck is missing'),
)
# with rt the sources are run where there is nothing to refuse, and of the program that was asked for
RT_CASES = (
    Case('no program', lambda bin: (bin / 'mcscheck').unlink(), 'mcscheck', runs='try --seconds 86400 --'),
    Case('no SOURCES', lambda bin: (bin / 'SOURCES').unlink(), 'mcscheck', runs='try --seconds 86400 --'),
    Case('a program that lost its mode', lambda bin: (bin / 'mcscheck').chmod(0o644), 'mcscheck', refused='has lost its mode (chmod +x bin/mcscheck'),
    Case('a byte more', appended, 'mcscheck', refused=CHANGED),
    Case('the name deadline-check', nothing, 'deadline-check', refused=NO_NAME),
)


class Launcher(InFolder):
    def setUp(self) -> None:
        super().setUp()
        self.write_listed()
        self.calls = self.top.parent / 'calls'
        self.calls.mkdir()

    def called(self, launcher: pathlib.Path, name: str, *words: str) -> subprocess.CompletedProcess[str]:
        """What a call through a link of this name comes to."""
        link = self.calls / name
        link.unlink(missing_ok=True)
        link.symlink_to(launcher)
        return self.run_in([str(link), *words])

    def hold(self, cases: tuple[Case, ...], folder: pathlib.Path) -> None:
        """Tries each case in a copy of a folder with the launcher."""
        for number, case in enumerate(cases):
            with self.subTest(case.what, name=case.name):
                copy = self.top.parent / f'case {number}'
                shutil.copytree(folder, copy, symlinks=True)
                case.change(copy / 'bin')
                ran = self.called(copy / 'mcsim', case.name)
                if case.runs:
                    self.assertEqual((ran.returncode, ran.stdout), (0, case.runs + '\n'))
                else:
                    self.assertEqual((ran.returncode, ran.stdout, ran.stderr.count('\n')), (127, '', 1), ran.stderr)
                    self.assertIn(f'{case.name}: ', ran.stderr)
                    self.assertIn(case.refused, ran.stderr)
                shutil.rmtree(copy)

    def installed(self) -> pathlib.Path:
        """The folder of an installation with the launcher."""
        self.assertEqual(self.launch('--install')[0], 0)
        return self.home / '.local' / 'lib' / 'mcsim'

    def test_in_the_repository(self) -> None:
        self.hold((*CASES, *CASES_OF_REPOSITORY), self.top)

    def test_installed(self) -> None:
        self.hold((*CASES, *CASES_OF_INSTALLATION), self.installed())

    def test_with_the_toolchain(self) -> None:
        self.rt()
        self.hold(RT_CASES, self.top)

    def test_through_links_to_links(self) -> None:
        self.called(self.top / 'mcsim', 'first')
        self.assertEqual(self.called(pathlib.Path('first'), 'mcscheck').stdout, 'check\n')

    def test_a_copy_of_the_launcher_alone_runs_nothing(self) -> None:
        for name in common.PROGRAMS:
            copy = self.calls / name
            shutil.copy(self.top / 'mcsim', copy)
            ran = self.run_in([str(copy)])
            self.assertEqual((ran.returncode, ran.stdout), (127, ''))
            self.assertIn(f'{name} is missing', ran.stderr)

    def test_a_program_that_was_built_here_has_no_sum(self) -> None:
        self.write('crates/mcscheck/out/mcscheck', '#!/bin/sh\necho built here\n', 0o755)
        appended(self.top / 'bin')
        self.assertEqual(self.called(self.top / 'mcsim', 'mcscheck').stdout, 'built here\n')

    def test_the_version_and_an_installation_refuse_a_changed_file(self) -> None:
        appended(self.top / 'bin')
        ran = self.called(self.top / 'mcsim', 'mcscheck', '--version')
        self.assertEqual((ran.returncode, ran.stdout, ran.stderr), (127, '', (
            'mcscheck: bin/mcscheck is not the file that was built: it has another SHA-256 than bin/SOURCES tells '
            '(git checkout bin gives the built files back)\n'
        )))
        for name in ('mcscheck', 'libmcs_c.a', 'mcsim'):
            self.renewed()
            with (self.top / 'bin' / name).open('a') as file:
                file.write('\n')
            status, stdout, stderr = self.launch('--install')
            self.assertEqual((status, stdout, stderr.count('\n')), (127, '', 1))
            self.assertIn(f'bin/{name} {CHANGED}', stderr)
            self.assertEqual(list(self.home.iterdir()), [])

    def test_the_version_of_an_installation_refuses_a_changed_file(self) -> None:
        folder = self.installed()
        appended(folder / 'bin')
        ran = self.called(folder / 'mcsim', 'mcscheck', '--version')
        self.assertEqual((ran.returncode, ran.stdout), (127, ''))
        self.assertIn(f'{CHANGED} {folder}/bin/SOURCES tells (delete it, and ./mcsim --install puts it there again)\n', ran.stderr)
        (folder / 'bin' / 'mcscheck').unlink()
        self.assertEqual(self.launch('--install')[0], 0)
        self.assertEqual(self.called(folder / 'mcsim', 'mcscheck').stdout, 'check\n')

    def test_a_program_without_its_mode_is_not_installed(self) -> None:
        for name in common.PROGRAMS:
            self.renewed()
            (self.top / 'bin' / name).chmod(0o644)
            status, stdout, stderr = self.launch('--install')
            self.assertEqual((status, stdout), (127, ''))
            self.assertIn(f'chmod +x bin/{name}', stderr)

    def test_another_command_takes_the_sums_or_nothing_runs(self) -> None:
        folder = self.installed()
        (self.tools / 'sha256sum').unlink()
        for name in common.PROGRAMS:
            for launcher in (self.top / 'mcsim', folder / 'mcsim'):
                for words in ((), ('--version',)):
                    ran = self.called(launcher, name, *words)
                    self.assertEqual((ran.returncode, ran.stdout, ran.stderr), (127, '', (
                        f'{name}: bin/{name} is not checked: this needs one of the commands sha256sum, shasum and openssl, and none is on PATH\n'
                    )))
        for command in ('shasum', 'openssl'):
            if (found := shutil.which(command)) is None:
                continue
            (self.tools / command).symlink_to(found)
            for launcher in (self.top / 'mcsim', folder / 'mcsim'):
                ran = self.called(launcher, 'mcscheck')
                self.assertEqual((ran.returncode, ran.stdout, ran.stderr), (0, 'check\n', ''), command)
            self.renewed()
            appended(self.top / 'bin')
            self.assertIn(CHANGED, self.called(self.top / 'mcsim', 'mcscheck').stderr)
            self.renewed()
            (self.tools / command).unlink()

    def test_an_installation_on_another_machine_is_refused(self) -> None:
        folder = self.installed()
        (self.tools / 'grep').unlink()
        for flags, said in (('echo "flags : cx16 lahf_lm pni popcnt sse4_1 ssse3"', 'this one has no sse4_2\n'), ('exit 1', 'bin/mcscheck is for Linux on x86-64\n')):
            (self.tools / 'grep').write_text(f'#!/bin/sh\n{flags}\n')
            (self.tools / 'grep').chmod(0o755)
            ran = self.called(folder / 'mcsim', 'mcscheck')
            self.assertEqual((ran.returncode, ran.stdout, ran.stderr.count('\n')), (127, '', 1))
            self.assertIn(said, ran.stderr)

    def test_a_file_system_without_programs_is_told(self) -> None:
        mounted = self.top.parent / 'mounted'
        mounted.mkdir()
        script = 'mount -t tmpfs -o noexec none "$1" 2>/dev/null || exit 99; cp -R "$2/." "$1"; PATH=$3; sh "$1/mcsim"'
        command = ['unshare', '--mount', '--map-root-user', 'sh', '-c', script, 'sh', str(mounted), str(self.top), str(self.tools)]
        if shutil.which('unshare') is None:
            self.skipTest('the command unshare is not on PATH')
        ran = subprocess.run(command, stdin=subprocess.DEVNULL, capture_output=True, text=True)
        if ran.returncode in (1, 99) and 'mcsim' not in ran.stderr:
            self.skipTest('nothing can be mounted here')
        self.assertEqual((ran.returncode, ran.stdout, ran.stderr), (127, '', 'mcsim: bin/mcsim cannot be executed by this user, or on this file system\n'))

    def test_the_names_are_those_of_the_repository(self) -> None:
        for name in common.PROGRAMS:
            self.assertIn(f' {name} ', f' {NO_NAME} ')
            self.assertNotIn(NO_NAME, self.called(TOP / 'mcsim', name, '--version').stderr)


class Unproved(InFolder):
    """Which argument of an unproved run is taken for FILE."""

    def asked(self, *words: str) -> list[str]:
        """The words that rt was given, behind what is the same each time, and its input."""
        (self.top / 'mcscheck').unlink(missing_ok=True)
        (self.top / 'mcscheck').symlink_to('mcsim')
        self.rt()
        ran = self.run_in([str(self.top / 'mcscheck'), *words])
        self.assertEqual(ran.returncode, 0, ran.stderr)
        return ran.stdout.removeprefix('try --seconds 86400 -- ').splitlines()

    def test_a_value_is_no_file(self) -> None:
        (self.top.parent / 's.toml').write_text('the system\n')
        for name in ('json', 'Gateway', '8', '1000', 'tick', '--strict', '--why'):
            (self.top.parent / name).write_text('another\n')
        for words in (
            ('--format', 'json', 's.toml'), ('--why', 'Gateway', '8', 's.toml'), ('--horizon', '1000', 's.toml'), ('--allow-lost', 'tick', 's.toml'),
            ('--strict', 's.toml'), ('--format=json', 's.toml'), ('s.toml', '--why', 'Gateway', '8'), ('--why', 'Gateway', '8', '--strict', 's.toml'),
            ('--strict', '--', 's.toml'), ('--workers', '8', '--show', 'table', '--', 's.toml'),
        ):
            with self.subTest(words=words):
                self.assertEqual(self.asked(*words), [' '.join(words).replace('s.toml', 'system.toml'), 'the system'])

    def test_a_file_after_two_dashes_may_begin_with_a_dash(self) -> None:
        (self.top.parent / '--strict').write_text('the system\n')
        self.assertEqual(self.asked('--', '--strict'), ['-- system.toml', 'the system'])

    def test_the_list_of_options_is_that_of_the_programs(self) -> None:
        options: dict[str, int] = {}
        for name in common.PROGRAMS:
            program = next(filter(common.is_program, (common.built_of(name), TOP / 'bin' / name)))
            text = common.run([program, '--help']).stdout.decode()
            self.assertIn('Options:\n', text)
            found = {option: len((values or '').split()) for option, (values, *_) in options_of_help(text).items()}
            shared = found.keys() & options.keys()
            self.assertEqual({option: found[option] for option in shared}, {option: options[option] for option in shared})
            options |= found
        self.assertGreater(sum(map(bool, options.values())), 3)
        script = f'. {TOP}/launcher/words.sh; for option; do values_of "--$option"; done'
        ran = subprocess.run(['sh', '-c', script, 'sh', *options], capture_output=True, text=True)
        self.assertEqual(dict(zip(options, map(int, ran.stdout.split()))), options)
        listed = {word for word in TOP.joinpath('launcher', 'words.sh').read_text().partition('values_of() {')[2].partition('esac')[0].split() if word[:2] == '--'}
        self.assertLessEqual({word.removeprefix('--').rstrip(')') for word in listed}, options.keys())


if __name__ == '__main__':
    unittest.main()
