"""An installation that breaks off, is repeated, meets what is not its own, or has an odd name, with made-up programs."""
from __future__ import annotations

import os
import pathlib
import re
import shutil
import signal
import subprocess
import tempfile
import unittest
from collections.abc import Callable

from checks.tests.test_built import InFolder, sum_of

Change = Callable[[pathlib.Path], object]

# few files of each kind, so that an installation can be broken off at each of its steps
INSTALLED = """mcsim lib/mcsim/mcsim bin/mcsim
launcher/install.sh lib/mcsim/launcher/install.sh
launcher/words.sh lib/mcsim/launcher/words.sh
launcher/terminal.sh lib/mcsim/launcher/terminal.sh
launcher/typed.sh lib/mcsim/launcher/typed.sh
bin/mcsim lib/mcsim/bin/mcsim
bin/SOURCES lib/mcsim/bin/SOURCES
tools/view lib/mcsim/tools/view bin/mcsim-view
docs/mcsim.1 share/man/man1/mcsim.1
"""
# what stands below the prefix then
FILES = {
    'lib/mcsim/installed', 'lib/mcsim/mcsim', 'lib/mcsim/launcher/install.sh', 'lib/mcsim/launcher/words.sh', 'lib/mcsim/launcher/terminal.sh',
    'lib/mcsim/launcher/typed.sh', 'lib/mcsim/bin/mcsim', 'lib/mcsim/bin/SOURCES', 'lib/mcsim/tools/view', 'share/man/man1/mcsim.1', 'bin/mcsim', 'bin/mcsim-view',
}
PLACES = sorted(FILES - {'lib/mcsim/installed'})
# stops the launcher before its Nth call of such a command, or behind it
STOPPING = """#!/bin/sh
read -r count <'{folder}/count'
count=$((count + 1))
echo $count >'{folder}/count'
read -r at <'{folder}/at'
if [ $count = $at ]; then
    read -r pid <'{folder}/pid'
    kill -{signal} $pid
fi
exec {command} "$@"
"""
ODD = (
    'a|b', 'two\nlines', 'an end\n', 'a quote\'s "top"', 'a & b; # !', 'back\\nslash\\', '$(touch x) `touch x` $HOME', '-x', '--help', 'a:b', '* ?[a]', '%s', 'ü~<(=',
    'tab\t', './/d//',
)


def tree(folder: pathlib.Path) -> dict[str, bytes | str | None]:
    """All below a folder: the bytes of each file, the target of each link, and None for a folder."""
    return {
        str(path.relative_to(folder)): os.readlink(path) if path.is_symlink() else path.read_bytes() if path.is_file() else None
        for path in folder.rglob('*')
    }


# an installation that is made once, and copied where a test only begins with one
KEPT = tempfile.TemporaryDirectory()


def tearDownModule() -> None:
    KEPT.cleanup()


def in_place(path: pathlib.Path) -> pathlib.Path:
    """A place in which nothing stands any more."""
    path.unlink()
    return path


def folder_in(path: pathlib.Path) -> pathlib.Path:
    """A folder in the place of something else."""
    path.unlink()
    path.mkdir()
    return path


class Installation(InFolder):
    def setUp(self) -> None:
        super().setUp()
        self.renewed()
        self.write('launcher/installed', INSTALLED)
        self.write('tools/view', '#!/bin/sh\necho view\n', 0o755)
        self.write('docs/mcsim.1', 'page\n')
        self.prefix = self.top.parent / 'prefix'

    def install(self, *words: str) -> tuple[int, str, str]:
        return self.launch('--install', *(words or [str(self.prefix)]))

    def begin_installed(self) -> None:
        """Begins with an installation."""
        kept = pathlib.Path(KEPT.name, 'prefix')
        if not kept.exists():
            self.assertEqual(self.install()[::2], (0, ''))
            self.is_whole()
            self.prefix.rename(kept)
        shutil.copytree(kept, self.prefix, symlinks=True)

    def uninstall(self, prefix: pathlib.Path | None = None) -> tuple[int, str, str]:
        return self.launch('--uninstall', str(prefix or self.prefix))

    def files(self, prefix: pathlib.Path | None = None) -> set[str]:
        return {path for path, what in tree(prefix or self.prefix).items() if what is not None}

    def is_whole(self) -> None:
        """The installation is there, runs, and leaves nothing beside it."""
        self.assertEqual(self.files(), FILES)
        self.assertNotIn('new ', (self.prefix / 'lib/mcsim/installed').read_text())
        self.assertEqual(self.run_in([str(self.prefix / 'bin/mcsim')]).stdout, 'gate\n')
        self.assertEqual(self.run_in([str(self.prefix / 'bin/mcsim-view')]).stdout, 'view\n')

    def refused(self, ran: tuple[int, str, str], text: str) -> None:
        status, stdout, stderr = ran
        self.assertEqual((status, stdout, stderr.count('\n')), (1, '', 1), stderr)
        self.assertIn(text, stderr)


class BrokenOff(Installation):
    """At the Nth call of a command that changes something the launcher gets a signal."""

    def stopping(self, name: str) -> None:
        """Makes commands to stand before those that change something."""
        self.room = self.top.parent / 'room'
        (self.room / 'commands').mkdir(parents=True)
        for command in ('cp', 'mv', 'ln', 'mkdir', 'rm', 'rmdir'):
            file = self.room / 'commands' / command
            file.write_text(STOPPING.format(folder=self.room, signal=name, command=shutil.which(command)))
            file.chmod(0o755)

    def broken_off(self, at: int, *words: str) -> tuple[int, str, str]:
        """A run that is stopped before its command number `at`."""
        for name, text in (('count', '0'), ('at', str(at))):
            (self.room / name).write_text(text + '\n')

        # whoever runs the tests in the background has interrupts ignored
        def hear_interrupts() -> None:
            signal.signal(signal.SIGINT, signal.SIG_DFL)

        # a launcher that is killed leaves its folder for temporary files
        env = {'PATH': f'{self.room}/commands:{self.tools}', 'HOME': str(self.home), 'TMPDIR': str(self.room)}
        command = ['sh', '-c', 'echo $$ >"$1/pid"; shift; exec "$@"', 'sh', str(self.room), str(self.top / 'mcsim'), *words]
        ran = self.run_in(command, env=env, preexec_fn=hear_interrupts)
        return ran.returncode, ran.stdout, ran.stderr

    def install_earlier(self) -> None:
        """Installs what an earlier version had: another tool, and one that is no longer there. It is installed once, and copied then."""
        earlier = self.top.parent / 'earlier'
        if not earlier.exists():
            self.write('tools/view', 'an earlier one\n', 0o755)
            self.write('tools/gone', 'no longer there\n')
            self.write('launcher/installed', INSTALLED + 'tools/gone lib/mcsim/tools/gone bin/mcsim-gone\n')
            self.assertEqual(self.install()[0], 0)
            self.prefix.rename(earlier)
            self.write('launcher/installed', INSTALLED)
            self.write('tools/view', '#!/bin/sh\necho view\n', 0o755)
        shutil.copytree(earlier, self.prefix, symlinks=True)

    def each_step(self, name: str, every: int, before: bool = False) -> None:
        """Breaks off an installation at each step, or each few steps: it is repeated, and taken away."""
        self.stopping(name)
        status = {'KILL': -signal.SIGKILL, 'TERM': 128 + signal.SIGTERM, 'INT': 128 + signal.SIGINT}[name]
        copy = self.top.parent / 'copy'
        started = 0
        for at in range(1, 200, every):
            for folder in (self.prefix, copy):
                shutil.rmtree(folder, ignore_errors=True)
            if before:
                self.install_earlier()
            ran = self.broken_off(at, '--install', str(self.prefix))
            if ran[0] == 0:
                break
            started += 1
            with self.subTest(name, at=at):
                self.assertEqual(ran[0], status, ran)
                if name != 'KILL':
                    self.assertEqual(ran[2].count('\n'), 1, ran)
                    self.assertIn(': interrupted\n', ran[2])
                self.prefix.mkdir(exist_ok=True)
                shutil.copytree(self.prefix, copy, symlinks=True)
                ended, _, stderr = self.uninstall(copy)
                self.assertEqual(ended, 0 if 'lib/mcsim/installed' in self.files() else 1, stderr)
                self.assertEqual(self.files(copy), set())
                self.assertEqual(self.install()[::2], (0, ''))
                self.is_whole()
                self.assertEqual(self.uninstall()[::2], (0, ''))
                self.assertEqual(self.files(), set())
        self.assertGreater(started * every, 25)

    def test_killed(self) -> None:
        self.each_step('KILL', 5)

    def test_terminated(self) -> None:
        self.each_step('TERM', 11)

    def test_interrupted(self) -> None:
        self.each_step('INT', 17)

    def test_killed_over_an_earlier_one(self) -> None:
        self.each_step('KILL', 9, before=True)

    def test_taking_away_is_killed(self) -> None:
        self.stopping('KILL')
        for at in range(1, 40, 7):
            shutil.rmtree(self.prefix, ignore_errors=True)
            self.begin_installed()
            ran = self.broken_off(at, '--uninstall', str(self.prefix))
            if ran[0] == 0:
                break
            with self.subTest(at=at):
                self.assertEqual(ran[0], -signal.SIGKILL)
                self.uninstall()
                self.assertEqual(self.files(), set())
        self.assertGreater(at, 7)

    def test_a_full_disk(self) -> None:
        self.write('docs/mcsim.1', 'page\n' * 40_000)
        self.prefix.mkdir()
        script = '''
            mount -t tmpfs -o size=64k none "$1" 2>/dev/null || exit 99
            PATH=$3
            "$2/mcsim" --install "$1"; echo "status $?"
            "$2/mcsim" --uninstall "$1"; echo "status $?"
            find "$1" ! -type d
            "$2/mcsim" --install "$1"; echo "status $?"
            /bin/mount -o remount,size=1m "$1" || exit 99
            "$2/mcsim" --install "$1" >"$1/said"; echo "status $?"
            "$1/bin/mcsim"
            "$2/mcsim" --uninstall "$1"; echo "status $?"
            find "$1" ! -type d
            '''
        if shutil.which('unshare') is None:
            self.skipTest('the command unshare is not on PATH')
        command = ['unshare', '--mount', '--map-root-user', 'sh', '-c', script, 'sh', str(self.prefix), str(self.top), str(self.tools)]
        ran = subprocess.run(command, stdin=subprocess.DEVNULL, capture_output=True, text=True)
        if ran.returncode in (1, 99) and 'mcsim' not in ran.stderr:
            self.skipTest('nothing can be mounted here')
        p = self.prefix
        self.assertEqual(ran.stdout.splitlines(), [
            'status 1', f'taken away from {p}: 10 files and links', 'status 0', 'status 1', 'status 0', 'gate', f'taken away from {p}: 11 files and links', 'status 0',
            f'{p}/said',
        ], ran.stderr)
        lines = ran.stderr.splitlines()
        self.assertEqual(len(lines), 2, lines)
        for line in lines:
            self.assertTrue(line.startswith(f'mcsim: not finished (./mcsim --install {p} goes on, --uninstall takes away what is there): cp: '), line)
            self.assertTrue(line.endswith('No space left on device'), line)

    def test_several_at_once(self) -> None:
        env = {'PATH': str(self.tools), 'HOME': str(self.home)}
        command, gone = [str(self.top / 'mcsim'), '--install', str(self.prefix)], subprocess.DEVNULL
        running = [subprocess.Popen(command, env=env, stdout=gone, stderr=gone) for _ in range(4)]
        ended = [one.wait() for one in running]
        self.assertIn(0, ended)
        self.assertEqual(set(ended) - {0, 1}, set())
        self.assertEqual(self.files(), FILES)
        self.uninstall()
        self.assertEqual(self.files(), set())


class OfTheUser(Installation):
    def test_what_was_changed_is_kept_and_named(self) -> None:
        changes: dict[str, tuple[str, Change]] = {
            'a page that was edited': ('share/man/man1/mcsim.1', lambda path: path.write_text('mine\n')),
            'a tool that was edited': ('lib/mcsim/tools/view', lambda path: path.write_text('mine\n')),
            'a file in the place of a link': ('bin/mcsim', lambda path: in_place(path).write_text('mine\n')),
            'a link to something else': ('bin/mcsim-view', lambda path: in_place(path).symlink_to('/bin/true')),
            'a folder in the place of a link': ('bin/mcsim', lambda path: folder_in(path).joinpath('mine').write_text('mine\n')),
            'a link in the place of a file': ('share/man/man1/mcsim.1', lambda path: in_place(path).symlink_to('/dev/null')),
        }
        for what, (place, change) in changes.items():
            with self.subTest(what):
                shutil.rmtree(self.prefix, ignore_errors=True)
                self.begin_installed()
                change(self.prefix / place)
                before = tree(self.prefix)
                mine = {path: it for path, it in before.items() if path == place or path.startswith(f'{place}/')}
                self.refused(self.install(), f'mcsim: nothing was installed: {self.prefix}/{place} was changed since it was installed: move it away')
                self.assertEqual(tree(self.prefix), before)
                status, stdout, stderr = self.uninstall()
                self.assertEqual((status, stdout), (0, f'taken away from {self.prefix}: 10 files and links\n'))
                self.assertEqual(stderr, f'mcsim: kept: {self.prefix}/{place}, which was changed since it was installed\n')
                left = tree(self.prefix)
                self.assertEqual({path: it for path, it in left.items() if it is not None or path in mine}, mine)

    def test_what_another_put_there_is_refused(self) -> None:
        makes: dict[str, Change] = {
            'a file': lambda path: path.write_text('mine\n'),
            'a folder': lambda path: path.mkdir(),
            'a link to nothing': lambda path: path.symlink_to('nowhere'),
            'a pipe': lambda path: os.mkfifo(path),
        }
        for place in ('bin/mcsim-view', 'share/man/man1/mcsim.1'):
            for what, make in makes.items():
                with self.subTest(what, place=place):
                    shutil.rmtree(self.prefix, ignore_errors=True)
                    (self.prefix / place).parent.mkdir(parents=True)
                    make(self.prefix / place)
                    self.refused(self.install(), f'nothing was installed: {self.prefix}/{place} is there, and no installation put it there')
                    self.assertTrue(os.path.lexists(self.prefix / place))
                    self.assertEqual([path for path in self.prefix.rglob('*') if not path.is_dir() or path.is_symlink()], [] if what == 'a folder' else [self.prefix / place])

    def test_a_file_in_the_place_of_a_folder_is_refused(self) -> None:
        for place in ('bin', 'lib', 'share/man', 'lib/mcsim/installed'):
            with self.subTest(place):
                shutil.rmtree(self.prefix, ignore_errors=True)
                (self.prefix / place).parent.mkdir(parents=True)
                if place == 'lib/mcsim/installed':
                    (self.prefix / place).mkdir()
                    self.refused(self.install(), f'nothing was installed: {self.prefix}/{place} is a folder')
                else:
                    (self.prefix / place).write_text('mine\n')
                    self.refused(self.install(), f'nothing was installed: {self.prefix}/{place} is there, and is no folder')
        shutil.rmtree(self.prefix)
        self.prefix.write_text('mine\n')
        self.refused(self.install(), 'nothing was installed: ')

    def test_a_folder_elsewhere_is_refused(self) -> None:
        elsewhere = self.top.parent / 'elsewhere' / 'deep'
        elsewhere.mkdir(parents=True)
        self.prefix.mkdir()
        (self.prefix / 'bin').symlink_to(elsewhere)
        self.refused(self.install(), f'nothing was installed: {self.prefix}/bin is a link to another folder, from which links would lead nowhere')
        self.assertEqual((list(elsewhere.iterdir()), self.files()), ([], {'bin'}))
        # a prefix that is a link, and a folder beside it
        link = self.top.parent / 'link'
        link.symlink_to(self.prefix)
        (self.prefix / 'bin').unlink()
        (self.prefix / 'programs').mkdir()
        (self.prefix / 'bin').symlink_to('programs')
        self.assertEqual(self.install(str(link))[::2], (0, ''))
        self.assertEqual(self.run_in([str(link / 'bin/mcsim')]).stdout, 'gate\n')
        self.assertEqual(self.uninstall(link)[::2], (0, ''))
        self.assertEqual(self.files(), {'bin'})

    def test_files_with_names_like_those_on_the_way_stay(self) -> None:
        own = [f'{place}{end}' for place in (*PLACES, 'lib/mcsim/installed') for end in ('.new', '.mcsim', '.mcsim-own', '~')]
        for path in own:
            self.write(f'../prefix/{path}', 'mine\n')
        self.assertEqual(self.install()[::2], (0, ''))
        self.assertEqual(self.install()[::2], (0, ''))
        self.assertEqual(self.files(), FILES | set(own))
        status, _, stderr = self.uninstall()
        self.assertEqual(status, 0)
        self.assertEqual(self.files(), set(own))
        below = sorted(f'mcsim: kept: {self.prefix}/{path}, which no installation put there' for path in own if path.startswith('lib/mcsim/'))
        self.assertEqual(sorted(stderr.splitlines()), below)

    def test_what_python_made_of_the_tools_goes_and_nothing_else(self) -> None:
        self.begin_installed()
        for path in ('tools/__pycache__/view.cpython-311.pyc', 'tools/__pycache__/notes'):
            self.write(f'../prefix/lib/mcsim/{path}', '')
        status, _, stderr = self.uninstall()
        self.assertEqual((status, self.files()), (0, {'lib/mcsim/tools/__pycache__/notes'}))
        self.assertIn('lib/mcsim/tools/__pycache__/notes, which no installation put there\n', stderr)

    def test_a_line_that_leaves_the_prefix_is_passed_over(self) -> None:
        own = self.write('../x', 'mine\n')
        digest = sum_of(b'mine\n')
        suffix = self.write('../prefix/bin/mcsim.new', 'mine\n')
        forged = (
            '../x', f'file {digest} lib/../../x', f'file {digest} {own}', 'old - ../x', 'new new -', 'new mcsim-/../../x -', '../',
        )
        for line in forged:
            with self.subTest(line=line):
                # with a line feed at the end, and without
                for last, ends in (('--install', '\n'), ('--uninstall', '')):
                    if ends:
                        self.assertEqual(self.install()[0], 0)
                    with (self.prefix / 'lib/mcsim/installed').open('a') as file:
                        file.write(line + ends)
                    status, _, stderr = self.launch(last, str(self.prefix))
                    self.assertEqual((status, stderr.count('\n')), (0, 1), stderr)
                    self.assertIn(f'mcsim: passed over in {self.prefix}/lib/mcsim/installed: ', stderr)
                    self.assertEqual((own.read_text(), suffix.read_text()), ('mine\n', 'mine\n'))
                self.assertEqual(self.files(), {'bin/mcsim.new'})


class Earlier(Installation):
    """An installation by an earlier version, whose list has no sums."""

    def setUp(self) -> None:
        super().setUp()
        self.begin_installed()
        folders = {f'{parent}/' for path in FILES for parent in map(str, pathlib.Path(path).parents) if parent != '.'}
        (self.prefix / 'lib/mcsim/installed').write_text(''.join(f'{line}\n' for line in sorted(FILES | folders)))

    def test_it_is_taken_away(self) -> None:
        self.assertEqual(self.uninstall(), (0, f'taken away from {self.prefix}: 11 files and links\n', ''))
        self.assertEqual(tree(self.prefix), {})

    def test_a_newer_one_takes_its_place(self) -> None:
        self.write('docs/mcsim.1', 'a new page\n')
        self.write('launcher/installed', INSTALLED.replace('tools/view lib/mcsim/tools/view bin/mcsim-view\n', ''))
        self.assertEqual(self.install()[::2], (0, ''))
        self.assertEqual(self.files(), FILES - {'lib/mcsim/tools/view', 'bin/mcsim-view'})
        self.assertEqual((self.prefix / 'share/man/man1/mcsim.1').read_text(), 'a new page\n')
        self.assertIn(f'file {sum_of(b"a new page" + bytes([10]))} share/man/man1/mcsim.1\n', (self.prefix / 'lib/mcsim/installed').read_text())
        self.assertEqual(self.uninstall()[::2], (0, ''))
        self.assertEqual(tree(self.prefix), {})

    def test_a_file_in_the_place_of_a_link_stays(self) -> None:
        link = self.prefix / 'bin/mcsim-view'
        link.unlink()
        link.write_text('mine\n')
        self.refused(self.install(), f'{link} was changed since it was installed')
        status, _, stderr = self.uninstall()
        self.assertEqual((status, stderr), (0, f'mcsim: kept: {link}, which was changed since it was installed\n'))
        self.assertEqual(self.files(), {'bin/mcsim-view'})


class Prefixes(Installation):
    def test_no_name_makes_it_look_failed(self) -> None:
        for name in ODD:
            with self.subTest(name):
                folder = pathlib.Path(os.path.normpath(self.top.parent / name)) if name.endswith('/') else self.top.parent / name
                self.assertFalse(folder.exists())
                status, stdout, stderr = self.install(name)
                self.assertEqual((status, stderr), (0, ''))
                self.assertEqual(self.files(folder), FILES)
                # from elsewhere, by what the last lines say
                said = stdout.rpartition('./mcsim --uninstall ')[2].removesuffix(' takes all this away\n')
                path = re.search(r'is not on PATH: export PATH=(.*):\$PATH in', stdout, re.S)
                if path is None:
                    self.assertIn(':', name)
                    self.assertIn('cannot be on PATH', stdout)
                else:
                    asked = self.run_in(['sh', '-c', f'PATH={path[1]}:$PATH; mcsim; mcsim-view'], env={'PATH': str(self.tools)})
                    self.assertEqual(asked.stdout, 'gate\nview\n', asked.stderr)
                ran = self.run_in(['sh', '-c', f'cd / && "$0" --uninstall {said}', str(self.top / 'mcsim')])
                self.assertEqual((ran.returncode, ran.stderr), (0, ''))
                self.assertEqual(self.files(folder), set())
        self.assertFalse((self.top.parent / 'x').exists())

    def test_it_takes_itself_away(self) -> None:
        for name in ('a|b', 'an end\n', 'a b'):
            self.assertEqual(self.install(name)[0], 0)
            ran = self.run_in([str(self.top.parent / name / 'bin/mcsim'), '--uninstall'])
            self.assertEqual((ran.returncode, ran.stderr), (0, ''))
            self.assertEqual(self.files(self.top.parent / name), set())

    def test_without_a_home(self) -> None:
        for env in ({'PATH': str(self.tools)}, {'PATH': str(self.tools), 'HOME': ''}):
            with self.subTest(env=env):
                launcher = str(self.top / 'mcsim')
                ran = self.run_in([launcher, '--install', str(self.prefix)], env=env)
                self.assertEqual((ran.returncode, ran.stderr), (0, ''))
                self.is_whole()
                ran = self.run_in([str(self.prefix / 'bin/mcsim'), '--uninstall'], env=env)
                self.assertEqual((ran.returncode, ran.stderr, self.files()), (0, '', set()))
                for word, what in (('--install', 'installed'), ('--uninstall', 'taken away')):
                    ran = self.run_in([launcher, word], env=env)
                    self.assertEqual((ran.returncode, ran.stdout, ran.stderr), (1, '', (
                        f'mcsim: nothing was {what}: HOME is not set, so name the folder: ./mcsim --install PREFIX, or --uninstall PREFIX\n'
                    )))

    def test_an_empty_name_is_refused(self) -> None:
        for word in ('--install', '--uninstall'):
            self.assertEqual(self.launch(word, ''), (2, '', f'mcsim: {word} is given an empty name: name a folder, or nothing for ~/.local\n'))
        self.assertEqual(tree(self.home), {})

    def test_a_checkout_with_an_odd_name(self) -> None:
        for name in ("a quote's \"top\"", 'two\nlines', 'an end\n', 'a|b&c\\d'):
            with self.subTest(name):
                moved = self.top.rename(self.top.parent / name)
                ran = self.run_in([str(moved / 'mcsim'), '--install', str(self.prefix)])
                self.assertEqual((ran.returncode, ran.stderr), (0, ''))
                self.is_whole()
                ran = self.run_in([str(moved / 'mcsim'), '--uninstall', str(self.prefix)])
                self.assertEqual((ran.returncode, ran.stderr, self.files()), (0, '', set()))
                self.top = moved


if __name__ == '__main__':
    unittest.main()
