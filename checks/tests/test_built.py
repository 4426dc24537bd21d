"""The launcher and checks/program/built.py, in a folder with made-up sources, a made-up program and, where it is wanted, a made-up rt."""
import hashlib
import os
import pathlib
import shutil
import subprocess
import sys
import tempfile
import unittest
from collections.abc import Sequence
from typing import Any

CHECKS = pathlib.Path(__file__).resolve().parent.parent
TOP = CHECKS.parent
# what the launcher and the scripts call beside rt
TOOLS = (
    'awk', 'cat', 'chmod', 'cp', 'find', 'grep', 'head', 'ln', 'mkdir', 'mktemp', 'mv', 'readlink', 'rm', 'rmdir', 'sed', 'sh', 'sha256sum', 'sort', 'tail',
    'touch', 'xargs',
)
CRATES = """# made up
mcs_ticks: thiserror
mcs_cli may_wait=7: mcs_ticks
mcsim: mcs_cli
mcscheck: mcs_cli
mcs_c staticlib: mcs_ticks
mcs_other: mcs_ticks
"""
SOURCES = {'mcs_ticks/src/lib.rt': 'ticks\n', 'mcs_cli/src/lib.rt': 'cli\n', 'mcs_cli/src/asked/words.rt': 'words\n', 'mcsim/src/main.rt': 'main\n', 'mcscheck/src/main.rt': 'check\n', 'mcs_c/src/lib.rt': 'c\n', 'mcs_other/src/lib.rt': 'other\n'}
PAGE = '| File | Bytes | SHA-256 |\n|---|---|---|\n| `mcsim` | - | none |\n| `mcscheck` | - | none |\n| `libmcs_c.a` | - | none |\n'
# says which program it is, and what it was given; the help of all is the same
SAYS = '#!/bin/sh\n[ "$1" = --help ] && echo help && exit\necho {name} "$@"\ntest $# = 0 || cat "$1"\n'
# gives its line, and makes of `try` what a program does that prints its words and its input; where the horizon is 900 it writes too much
RT = """case "$*" in
    --version) echo kit 1 ;;
    *'--horizon 900'* | *--horizon=900*)
        printf "the end of the program's standard output:\\n| 70 0 run A\\n| 70 0 stop A\\n| 71 0 r\\nchecked: no-answer: too much\\nrun=no-answer proved=no\\n" >&2
        exit 6 ;;
    try*) shift; echo "try $*" | sed 's/ --data [^ ]*//'; cat; for word; do case $word in system.toml=*) cat "${word#*=}" ;; esac; done
        printf 'checked: ended status=0\\nrun=ended status=0 proved=no\\n' >&2 ;;
esac"""


# in place of the script that builds the library
ARCHIVE_PY = """import pathlib
file = pathlib.Path(__file__).parents[2] / 'crates/mcs_c/out/libmcs_c.a'
file.parent.mkdir(exist_ok=True)
file.write_text('archive\\n')
"""
# in place of a C compiler: what it links says so
CC = """#!/bin/sh
while [ $# != 0 ]; do
    [ "$1" != -o ] || echo shared >"$2"
    shift
done
"""
PROGRAM, CHECKER, ARCHIVE = SAYS.format(name='gate'), SAYS.format(name='check'), 'archive\n'
# the files of which each is built
BELOW_BOTH = ('crates.txt', 'crates/mcs_cli/src/asked/words.rt', 'crates/mcs_cli/src/lib.rt', 'crates/mcs_ticks/src/lib.rt')
BELOW, BELOW_CHECKER = (*BELOW_BOTH, 'crates/mcsim/src/main.rt'), (*BELOW_BOTH, 'crates/mcscheck/src/main.rt')
BELOW_LIBRARY = ('crates.txt', 'crates/mcs_c/src/lib.rt', 'crates/mcs_ticks/src/lib.rt')

# what an installation has with a shared library alone, and how it says that there is none
OF_LIBRARY = {'lib/libmcs.so.1', 'lib/libmcs.so', 'lib/pkgconfig/mcsim.pc', 'lib/cmake/mcsim/mcsimConfig.cmake', 'lib/cmake/mcsim/mcsimConfigVersion.cmake'}
NO_LIBRARY = 'mcsim: left out: the shared library libmcs.so.1, with mcsim.pc and its CMake config'

# of what an installation has many files of, those that are installed where it does not matter how many there are
MANY = ('tools/', 'docs/', 'launcher/completions/')
FEW = ('tools/mcsim_tools', 'tools/view', 'docs/MODELLING.md', 'docs/mcsim.1', 'launcher/completions/_mcsim')


def sum_of(text: bytes) -> str:
    return hashlib.sha256(text).hexdigest()


class InFolder(unittest.TestCase):
    def setUp(self) -> None:
        path = tempfile.TemporaryDirectory()
        self.addCleanup(path.cleanup)
        self.top = pathlib.Path(path.name, 'repository with a space')
        self.tools = pathlib.Path(path.name, 'tools')
        self.home = pathlib.Path(path.name, 'home')
        for folder in (self.top / 'checks' / 'program', self.top / 'bin', self.tools, self.home):
            folder.mkdir(parents=True)
        shutil.copy(TOP / 'mcsim', self.top)
        shutil.copytree(TOP / 'launcher', self.top / 'launcher')
        for script in ('__init__.py', 'common.py', 'program/__init__.py', 'program/built.py'):
            shutil.copy(CHECKS / script, self.top / 'checks' / script)
        self.write('checks/proofs/archive.py', ARCHIVE_PY)
        for tool in TOOLS:
            (self.tools / tool).symlink_to(shutil.which(tool) or self.fail(f'there is no {tool}'))
        (self.tools / 'python3').symlink_to(sys.executable)
        # without packages from elsewhere, which take most of the time of its start
        (self.tools / 'pyvenv.cfg').write_text(f'home = {pathlib.Path(sys.executable).resolve().parent}\ninclude-system-site-packages = false\n')
        self.put_tool('cc', CC)
        self.write('crates.txt', CRATES)
        self.write('bin/README.md', PAGE)
        for name, text in SOURCES.items():
            self.write(f'crates/{name}', text)

    def write(self, path: str, text: str, mode: int = 0o644) -> pathlib.Path:
        file = self.top / path
        file.parent.mkdir(parents=True, exist_ok=True)
        file.write_text(text)
        file.chmod(mode)
        return file

    def put_tool(self, name: str, text: str) -> None:
        """Puts a command on PATH."""
        (self.tools / name).write_text(text)
        (self.tools / name).chmod(0o755)

    def rt(self) -> None:
        self.put_tool('rt', f'#!/bin/sh\n{RT}\n')

    def run_in(self, command: list[str], **how: Any) -> subprocess.CompletedProcess[str]:
        how = {'cwd': self.top.parent, 'env': {'PATH': str(self.tools), 'HOME': str(self.home)}, 'stdin': subprocess.DEVNULL, **how}
        return subprocess.run(command, capture_output=True, text=True, **how)

    def launch(self, *words: str, **how: Any) -> tuple[int, str, str]:
        ran = self.run_in([str(self.top / 'mcsim'), *words], **how)
        return ran.returncode, ran.stdout, ran.stderr

    def look(self, *words: str) -> tuple[int, list[str]]:
        """The status of built.py, and its lines."""
        ran = self.run_in(['python3', str(self.top / 'checks' / 'program' / 'built.py'), *words])
        return ran.returncode, (ran.stdout + ran.stderr).splitlines()

    def built_here(self) -> None:
        """Programs newer than all sources, as the gate leaves them."""
        self.write('crates/mcsim/out/mcsim', PROGRAM, 0o755)
        self.write('crates/mcscheck/out/mcscheck', CHECKER, 0o755)

    def digest(self, paths: Sequence[str]) -> str:
        """The sum of the lines that sha256sum writes of these files."""
        return sum_of(''.join(f'{sum_of((self.top / path).read_bytes())}  {path}\n' for path in paths).encode())

    def renewed(self) -> None:
        """bin/ of these sources."""
        self.write('bin/mcsim', PROGRAM, 0o755)
        self.write('bin/mcscheck', CHECKER, 0o755)
        self.write('bin/libmcs_c.a', ARCHIVE)
        self.write('bin/HELP', 'help\n')
        digests = {'mcsim': self.digest(BELOW), 'mcscheck': self.digest(BELOW_CHECKER), 'mcs_c': self.digest(BELOW_LIBRARY)}
        files = (('mcsim', PROGRAM), ('mcscheck', CHECKER), ('libmcs_c.a', ARCHIVE))
        sums = {f'bin/{name}': sum_of(text.encode()) for name, text in files}
        self.write('bin/SOURCES', '# made up\nkit kit 1\n' + ''.join(f'{name} {it}\n' for name, it in (digests | sums).items()))
        rows = [f'| `{name}` | {len(text)} | `{sum_of(text.encode())}` |\n' for name, text in files]
        self.write('bin/README.md', PAGE.partition('| `')[0] + ''.join(rows))

    def write_listed(self, whole: bool = False) -> list[list[str]]:
        """bin/ of these sources, and made-up files for what else is installed; the lines of the list, or a few of each kind."""
        self.renewed()
        lines = [line.split() for line in (TOP / 'launcher' / 'installed').read_text().splitlines()]
        listed = [line for line in lines if line and line[0] != '#' and (whole or line[0] in FEW or not line[0].startswith(MANY))]
        self.write('launcher/installed', ''.join(' '.join(line) + '\n' for line in listed))
        for source, *_ in listed:
            if not (self.top / source).exists():
                self.write(source, source)
        return listed


class Launched(InFolder):
    def test_the_shipped_program_runs_where_the_sources_are_its_own(self) -> None:
        self.renewed()
        self.assertEqual(self.launch(), (0, 'gate\n', ''))

    def test_the_program_that_was_built_here_comes_first(self) -> None:
        self.renewed()
        self.write('crates/mcsim/out/mcsim', SAYS.format(name='newer'), 0o755)
        self.assertEqual(self.launch(), (0, 'newer\n', ''))

    def test_through_links_too(self) -> None:
        self.renewed()
        (self.top.parent / 'link').symlink_to('repository with a space/mcsim')
        (self.home / 'mcsim').symlink_to('../link')
        self.assertEqual(self.run_in([str(self.home / 'mcsim')]).stdout, 'gate\n')

    def test_without_rt_and_with_a_changed_source_the_status_is_127_and_one_line_says_why(self) -> None:
        changes = {'crates.txt': CRATES + '\n', 'crates/mcs_cli/src/asked/words.rt': 'other\n', 'crates/mcs_ticks/src/new.rt': ''}
        for path, text in changes.items():
            self.renewed()
            file = self.top / path
            before = file.read_text() if file.exists() else None
            self.write(path, text)
            self.assertEqual(self.launch(), (127, '', (
                'mcsim: bin/mcsim was not built of these sources, and to run the sources the command rt of the Rattle toolchain is needed, which is '
                'not on PATH\n'
            )))
            file.unlink() if before is None else file.write_text(before)
            self.assertEqual(self.launch()[:2], (0, 'gate\n'))

    def test_a_change_beside_the_program_does_not_matter(self) -> None:
        self.renewed()
        for path in ('crates/mcs_other/src/lib.rt', 'crates/mcs_c/src/lib.rt', 'crates/mcs_cli/proofs/Lib.antt', 'crates/mcs_cli/src/.words.rt.swp'):
            self.write(path, 'changed\n')
        self.assertEqual(self.launch(), (0, 'gate\n', ''))

    def test_without_any_program_it_says_so(self) -> None:
        status, stdout, stderr = self.launch()
        self.assertEqual((status, stdout, stderr.count('\n')), (127, '', 1))
        self.assertTrue(stderr.startswith('mcsim: there is no bin/mcsim, and '))

    def test_a_program_that_does_not_start_is_told(self) -> None:
        self.renewed()
        stopping = '#!/bin/sh\nexit 1\n'
        self.write('bin/mcsim', stopping, 0o755)
        sources = self.top / 'bin' / 'SOURCES'
        sources.write_text(sources.read_text().replace(sum_of(PROGRAM.encode()), sum_of(stopping.encode())))
        self.assertEqual(self.launch()[0], 127)
        self.assertIn('glibc 2.34', self.launch()[2])

    def test_a_processor_without_a_part_is_named(self) -> None:
        self.renewed()
        (self.tools / 'grep').unlink()
        (self.tools / 'grep').write_text('#!/bin/sh\necho "flags : cx16 lahf_lm pni popcnt sse4_1 ssse3"\n')
        (self.tools / 'grep').chmod(0o755)
        self.assertIn('x86-64-v2, and this one has no sse4_2, and ', self.launch()[2])
        (self.tools / 'grep').write_text('#!/bin/sh\nexit 1\n')
        self.assertIn('bin/mcsim is for Linux on x86-64, and ', self.launch()[2])

    def test_help_needs_no_rt(self) -> None:
        self.renewed()
        self.write('crates/mcsim/src/main.rt', 'changed\n')
        for word in ('--help', '-h'):
            self.assertEqual(self.launch(word), (0, (TOP / 'launcher' / 'mcsim.help').read_text(), ''))

    def test_a_pipe_is_read(self) -> None:
        self.rt()
        pipe = self.top.parent / 'pipe'
        os.mkfifo(pipe)
        for word in (str(pipe), '--'):
            feeder = subprocess.Popen(['sh', '-c', f'echo "the system" >"{pipe}"'])
            words = ['--horizon', '5', *(['--'] if word == '--' else []), str(pipe)]
            status, stdout, stderr = self.launch(*words)
            self.assertEqual(feeder.wait(), 0)
            self.assertEqual((status, stdout.splitlines()[1:]), (0, ['the system']))
            self.assertIn(' system.toml\n', stdout)
            self.assertEqual(stderr.count('\n'), 1)

    def test_standard_input_is_read(self) -> None:
        self.rt()
        read, write = os.pipe()
        os.write(write, b'from a pipe\n')
        os.close(write)
        with os.fdopen(read) as pipe:
            self.assertIn('from a pipe\n', self.launch('--show', 'both', stdin=pipe)[1])

    def test_a_value_of_an_option_is_no_file(self) -> None:
        self.rt()
        (self.top.parent / 'both').write_text('a file\n')
        self.assertEqual(self.launch('--show', 'both')[1], 'try --seconds 86400 -- --show both\n')

    def test_where_too_much_was_written_the_rows_before_the_last_moments_are_shown(self) -> None:
        self.rt()
        (self.top.parent / 'file.toml').write_text('the system\n')
        shown = ['try --seconds 86400 -- --horizon 69 --show schedule --workers 2 system.toml', 'the system']
        for words in (['--horizon', '900', '--workers', '2', '--show', 'both', 'file.toml'], ['--show=both', '--workers', '2', 'file.toml', '--horizon=900']):
            status, stdout, stderr = self.launch(*words)
            self.assertEqual((status, stdout.splitlines()), (70, shown))
            self.assertEqual([line.partition(' rows end at moment ')[2].partition(';')[0] for line in stderr.splitlines()], ['', '69'])

    def test_of_another_program_too_much_is_not_shown_in_part(self) -> None:
        self.rt()
        (self.top / 'mcscheck').symlink_to('mcsim')
        ran = self.run_in([str(self.top / 'mcscheck'), '--horizon', '900', '--allow-lost', 'both'])
        self.assertEqual((ran.returncode, ran.stdout), (70, ''))
        self.assertIn('mcscheck: rt ran the sources as far as it does', ran.stderr)
        self.assertIn('./mcscheck --prove', ran.stderr)

    def test_the_link_of_the_repository_runs_the_second_program(self) -> None:
        self.assertEqual(os.readlink(TOP / 'mcscheck'), 'mcsim')
        self.renewed()
        (self.top / 'mcscheck').symlink_to('mcsim')
        ran = self.run_in([str(self.top / 'mcscheck')])
        self.assertEqual((ran.stdout, ran.stderr), ('check\n', ''))
        self.assertTrue(self.run_in([str(self.top / 'mcscheck'), '--version']).stdout.startswith('mcscheck, proved and built: bin/mcscheck\n'))

    def test_a_run_that_fails_otherwise_shows_what_rt_said(self) -> None:
        (self.tools / 'rt').write_text('#!/bin/sh\necho "error: a mistake" >&2\necho run=none proved=no >&2\nexit 1\n')
        (self.tools / 'rt').chmod(0o755)
        status, stdout, stderr = self.launch()
        self.assertEqual((status, stdout, stderr.splitlines()[1:]), (70, '', ['error: a mistake', 'run=none proved=no', 'mcsim: rt did not run the sources']))

    def test_the_version_has_the_digest_of_the_check(self) -> None:
        self.renewed()
        noted = (self.top / 'bin' / 'SOURCES').read_text().splitlines()
        digest = noted[2].removeprefix('mcsim ')
        self.assertEqual(self.launch('--version'), (0, f'mcsim, proved and built: bin/mcsim\ntoolchain kit 1\nsources {digest}\n', ''))

    def test_proving_needs_rt(self) -> None:
        status, stdout, stderr = self.launch('--prove')
        self.assertEqual((status, stdout, stderr.count('\n')), (127, '', 1))

    def test_what_was_proved_here_is_not_proved_again(self) -> None:
        self.rt()
        self.built_here()
        self.assertEqual(self.launch('--prove'), (0, '', 'mcsim: the program was proved and built here, and no source is newer\n'))


class Installed(InFolder):
    def setUp(self) -> None:
        super().setUp()
        listed = self.write_listed()
        self.tool, _, self.link = next(line for line in listed if line[0].startswith('tools/') and len(line) == 3)

    def files(self, folder: pathlib.Path) -> set[str]:
        return {str(path.relative_to(folder)) for path in folder.rglob('*') if not path.is_dir()}

    def test_what_is_installed_runs_without_the_repository_and_is_taken_away(self) -> None:
        self.write_listed(whole=True)
        self.write('../home/.local/bin/own', 'own')
        status, stdout, stderr = self.launch('--install')
        self.assertEqual((status, stderr), (0, ''))
        prefix = self.home / '.local'
        files = self.files(prefix)
        for path in ('bin/mcsim', self.link, 'share/man/man1/mcsim.1', 'share/zsh/site-functions/_mcsim', 'lib/libmcs_c.a', 'include/mcsim.h'):
            self.assertIn(path, files)
            self.assertIn(f'  {path}\n', stdout)
        self.assertIn(f'{prefix}/bin is not on PATH', stdout)
        self.top.rename(self.top.parent / 'away')
        installed = str(prefix / 'bin' / 'mcsim')
        self.assertEqual(self.run_in([installed]).stdout, 'gate\n')
        self.assertEqual(self.run_in([installed, '--version']).stdout.splitlines()[:2], ['mcsim, proved and built', 'toolchain kit 1'])
        self.assertEqual(self.run_in([installed, '--uninstall']).returncode, 0)
        self.assertEqual(self.files(prefix), {'bin/own'})
        self.assertEqual([path.name for path in prefix.iterdir()], ['bin'])

    def test_a_prefix_from_here(self) -> None:
        self.assertEqual(self.launch('--install', 'some where')[0], 0)
        self.assertEqual(self.run_in([str(self.top.parent / 'some where' / 'bin' / 'mcsim')]).stdout, 'gate\n')
        self.assertEqual(self.launch('--uninstall', 'some where')[0], 0)
        self.assertEqual(self.files(self.top.parent / 'some where'), set())

    def test_a_second_installation_takes_away_what_is_no_longer_there(self) -> None:
        self.launch('--install')
        self.assertIn(self.link, self.files(self.home / '.local'))
        (self.top / self.tool).unlink()
        self.assertEqual(self.launch('--install')[0], 0)
        self.assertNotIn(self.link, self.files(self.home / '.local'))
        self.launch('--uninstall')
        self.assertEqual(self.files(self.home), set())

    def test_what_another_put_there_is_left(self) -> None:
        self.write('../home/.local/bin/mcsim', 'another')
        status, _, stderr = self.launch('--install')
        self.assertEqual((status, stderr.count('\n')), (1, 1))
        self.assertIn('bin/mcsim is there, and no installation put it there', stderr)
        self.assertEqual(self.files(self.home), {'.local/bin/mcsim'})

    def test_nothing_is_installed_of_other_sources(self) -> None:
        self.write('crates/mcsim/src/main.rt', 'changed\n')
        self.assertEqual(self.launch('--install'), (1, '', 'mcsim: nothing was installed: bin/mcsim was not built of these sources\n'))

    def test_a_tool_that_is_listed_comes_with_the_folder_that_it_imports(self) -> None:
        listed = self.top / 'launcher' / 'installed'
        listed.write_text(listed.read_text() + 'tools/shared lib/mcsim/tools/shared\ntools/look lib/mcsim/tools/look bin/mcsim-look\n')
        self.write('tools/look', '#!/usr/bin/env python3\nimport shared.words\nprint(shared.words.SAID)\n', 0o755)
        self.write('tools/shared/words.py', 'SAID = "a tool"\n')
        self.write('tools/shared/tests/test_words.py', '')
        self.assertEqual(self.launch('--install')[0], 0)
        self.assertEqual(self.run_in(['python3', str(self.home / '.local' / 'bin' / 'mcsim-look')]).stdout, 'a tool\n')
        self.assertTrue(os.access(self.home / '.local' / 'bin' / 'mcsim-look', os.X_OK))
        self.assertFalse((self.home / '.local/lib/mcsim/tools/shared/tests').exists())
        self.launch('--uninstall')
        self.assertEqual(self.files(self.home), set())

    def test_a_library_of_other_sources_is_left_out(self) -> None:
        self.write('crates/mcs_c/src/lib.rt', 'changed\n')
        status, _, stderr = self.launch('--install')
        self.assertEqual((status, stderr), (0, (
            f'{NO_LIBRARY}, which needs bin/libmcs_c.a\n'
            'mcsim: left out: bin/libmcs_c.a, which is not there, or not built of these sources\n'
        )))
        self.assertNotIn('lib/libmcs_c.a', self.files(self.home / '.local'))
        self.assertEqual(OF_LIBRARY & self.files(self.home / '.local'), set())

    def test_the_shared_library_is_made_and_taken_away(self) -> None:
        status, stdout, stderr = self.launch('--install')
        self.assertEqual((status, stderr), (0, ''))
        prefix = self.home / '.local'
        self.assertEqual(OF_LIBRARY - self.files(prefix), set())
        self.assertEqual((prefix / 'lib' / 'libmcs.so').read_text(), 'shared\n')
        self.assertEqual(os.readlink(prefix / 'lib' / 'libmcs.so'), '../lib/libmcs.so.1')
        self.assertIn(f'PKG_CONFIG_PATH={prefix}/lib/pkgconfig', stdout)
        self.assertEqual(self.launch('--uninstall')[0], 0)
        self.assertEqual(self.files(prefix), set())

    def test_without_a_compiler_the_shared_library_is_left_out(self) -> None:
        self.launch('--install')
        (self.tools / 'cc').unlink()
        status, stdout, stderr = self.launch('--install')
        self.assertEqual((status, stderr), (0, f'{NO_LIBRARY}, since there is no C compiler: set CC, or put cc, gcc or clang on PATH\n'))
        self.assertNotIn('PKG_CONFIG_PATH', stdout)
        files = self.files(self.home / '.local')
        self.assertEqual(OF_LIBRARY & files, set())
        self.assertIn('lib/libmcs_c.a', files)

    def test_the_compiler_is_the_one_of_the_environment_or_one_on_the_path(self) -> None:
        (self.tools / 'cc').rename(self.tools / 'clang')
        self.assertEqual(self.launch('--install')[::2], (0, ''))
        self.put_tool('mine', '#!/bin/sh\necho no room >&2\nexit 1\n')
        env = {'PATH': str(self.tools), 'HOME': str(self.home), 'CC': 'mine -m64'}
        self.assertEqual(self.launch('--install', env=env)[::2], (0, f'{NO_LIBRARY}, since mine -m64 failed: no room\n'))

    def test_a_second_program_is_installed_under_its_name(self) -> None:
        self.launch('--install')
        installed = str(self.home / '.local' / 'bin' / 'mcscheck')
        self.assertEqual(self.run_in([installed]).stdout, 'check\n')
        digest = self.digest(BELOW_CHECKER)
        self.assertEqual(self.run_in([installed, '--version']).stdout, f'mcscheck, proved and built\ntoolchain kit 1\nsources {digest}\n')
        self.assertEqual(self.run_in([installed, '--uninstall']).returncode, 0)
        self.assertEqual(self.files(self.home), set())

    def test_a_second_program_of_other_sources_is_left_out_with_its_link(self) -> None:
        self.write('crates/mcscheck/src/main.rt', 'changed\n')
        status, _, stderr = self.launch('--install')
        self.assertEqual((status, stderr), (0, 'mcsim: left out: bin/mcscheck, which is not there, or not built of these sources\n'))
        self.assertNotIn('bin/mcscheck', self.files(self.home / '.local'))
        self.assertEqual(self.run_in([str(self.home / '.local' / 'bin' / 'mcsim')]).stdout, 'gate\n')

    def test_nothing_to_take_away(self) -> None:
        self.assertEqual(self.launch('--uninstall')[0], 1)


class Checked(InFolder):
    def test_bin_of_these_sources_passes(self) -> None:
        self.renewed()
        status, lines = self.look()
        self.assertEqual((status, lines[-1]), (0, '10 passed, 0 failed, 4 skipped'), lines)

    def test_what_was_built_here_is_put_there(self) -> None:
        self.renewed()
        wanted = {path.name: path.read_text() for path in (self.top / 'bin').iterdir()}
        shutil.rmtree(self.top / 'bin')
        self.write('bin/README.md', PAGE)
        self.rt()
        self.built_here()
        status, lines = self.look('--renew')
        self.assertEqual((status, lines[-1]), (0, f'{sum_of(ARCHIVE.encode())}  bin/libmcs_c.a'))
        found = {path.name: path.read_text() for path in (self.top / 'bin').iterdir()}
        for texts in (wanted, found):
            texts['SOURCES'] = texts['SOURCES'].partition('\n')[2]
        self.assertEqual(found, wanted)
        self.assertTrue(os.access(self.top / 'bin' / 'mcsim', os.X_OK))

    def test_a_changed_source_fails(self) -> None:
        self.renewed()
        self.write('crates/mcs_ticks/src/lib.rt', 'changed\n')
        status, lines = self.look()
        self.assertEqual((status, lines[-1]), (1, '7 passed, 3 failed, 4 skipped'))
        self.assertEqual(lines[1], 'failed: bin/mcsim was not built of these sources: after a green gate checks/program/built.py --renew puts the new one there')

    def test_another_program_of_the_gate_fails(self) -> None:
        self.renewed()
        self.built_here()
        self.assertEqual(self.look()[1][-1], '12 passed, 0 failed, 2 skipped')
        self.write('crates/mcsim/out/mcsim', SAYS.format(name='another'), 0o755)
        status, lines = self.look()
        self.assertEqual((status, lines[-1]), (1, '11 passed, 1 failed, 2 skipped'))
        self.assertIn('failed: bin/mcsim is not crates/mcsim/out/mcsim: checks/program/built.py --renew copies it', lines)

    def test_another_file_in_bin_than_the_page_has_fails(self) -> None:
        self.renewed()
        self.write('bin/libmcs_c.a', 'another\n')
        status, lines = self.look()
        self.assertEqual((status, lines[-1]), (1, '8 passed, 2 failed, 4 skipped'))

    def test_another_toolchain_has_to_build_the_same_bytes(self) -> None:
        self.renewed()
        self.rt()
        self.built_here()
        self.assertEqual(self.look()[1][-1], '13 passed, 0 failed, 1 skipped')
        noted = self.top / 'bin' / 'SOURCES'
        noted.write_text(noted.read_text().replace('kit kit 1', 'kit kit 0'))
        status, lines = self.look()
        self.assertEqual((status, lines[-1]), (0, '12 passed, 0 failed, 2 skipped'))
        self.assertIn('skipped: whether the toolchain is that of bin/, which is kit 0: the one here is kit 1, and what it built is compared', lines)
        self.write('crates/mcsim/out/mcsim', SAYS.format(name='another'), 0o755)
        self.assertEqual(self.look()[1][-1], '11 passed, 1 failed, 2 skipped')

    def test_an_empty_bin_is_one_clear_line(self) -> None:
        status, lines = self.look()
        self.assertEqual((status, lines), (1, ['failed: there is no bin/SOURCES: checks/program/built.py --renew puts the built programs there', '0 passed, 1 failed']))

    def test_what_is_older_than_a_source_is_not_taken(self) -> None:
        self.rt()
        self.built_here()
        os.utime(self.top / 'crates' / 'mcsim' / 'out' / 'mcsim', (1, 1))
        status, lines = self.look('--renew')
        self.assertEqual((status, len(lines)), (1, 1))
        self.assertIn('is newer than crates/mcsim/out/mcsim', lines[0])
        self.assertFalse((self.top / 'bin' / 'mcsim').exists())

    def test_without_a_built_program_nothing_is_renewed(self) -> None:
        self.assertEqual(self.look('--renew'), (1, ['built.py: nothing was renewed: there is no crates/mcsim/out/mcsim: ./test builds it']))


if __name__ == '__main__':
    unittest.main()
