"""Each tool with each place to which it may write, each file that it may read, and whatever may go wrong around it."""
from __future__ import annotations

import os
import pathlib
import shutil
import stat
import subprocess
import sys
import tempfile
import threading
import unittest
import xml.etree.ElementTree
from collections.abc import Callable, Iterator, Sequence
from concurrent.futures import ThreadPoolExecutor
from typing import NamedTuple, Optional, TypeVar, Union

import worked
from worked import ONE, ONE_ROWS, TOOLS
from checks import forked
from mcsim_tools import faults, frame, source

SECONDS = 300
AT_ONCE = 4
BOARD = '<system><protection_domain name="a" priority="1"/></system>\n'
TASKS = 'name,work,period\na,1,4\nb,2,6\n'
VERDICT = '{"kind":"counts","missed":0}\n'
PROGRAM = f"""#!/bin/sh
cat >/dev/null
case $* in *reports*) exit 0 ;; esac
cat <<'ROWS'
{ONE_ROWS.strip()}
ROWS
"""
CHECKER = '#!/bin/sh\ncat >/dev/null\necho missed 0 overdue 0 untaken 0 lost 0 never 0 merged 0 allowed 0 hints 0\n'
Path = Union[str, bytes, pathlib.Path]
Item = TypeVar('Item')
Done = TypeVar('Done')


class Tool(NamedTuple):
    """A tool: what it reads, its options, and the endings of files that it writes; none for one that writes to standard output alone."""

    name: str
    input: str
    text: str
    options: tuple[str, ...] = ()
    target: Optional[str] = None
    # whether it writes to standard output when no target is given
    writes: bool = True


SYSTEM = ('one.toml', ONE)
HORIZON = ('--horizon', '12')
TOOLS_OF_ALL = (
    Tool('view', *SYSTEM, HORIZON, '.svg', writes=False),
    Tool('view', *SYSTEM, HORIZON, '.html', writes=False),
    Tool('trace', *SYSTEM, HORIZON, '.json'),
    Tool('waves', *SYSTEM, HORIZON, '.vcd'),
    Tool('sweep', *SYSTEM, ('--set', 'delay=1:3', *HORIZON), '.csv'),
    Tool('sweep', *SYSTEM, ('--least', 'delay=1:3', *HORIZON)),
    Tool('tasks', 'tasks.csv', TASKS, (), '.toml'),
    Tool('tasks', 'tasks.csv', TASKS, ('--list',), '.csv'),
    Tool('microkit', 'board.system', BOARD, (), '.toml'),
    Tool('explain', *SYSTEM),
    Tool('pretty', 'verdict.json', VERDICT),
    Tool('live', *SYSTEM, HORIZON),
)
WRITERS = tuple(tool for tool in TOOLS_OF_ALL if tool.target)
NAMES = tuple(dict.fromkeys(tool.name for tool in TOOLS_OF_ALL))


def at_once(work: Callable[[Item], Done], items: Sequence[Item]) -> Iterator[tuple[Item, Done]]:
    """What work makes of each item, some at a time."""
    with ThreadPoolExecutor(AT_ONCE) as pool:
        yield from zip(items, pool.map(work, items))


class Case(unittest.TestCase):
    def setUp(self) -> None:
        place = tempfile.TemporaryDirectory()
        self.addCleanup(place.cleanup)
        self.folder = pathlib.Path(place.name).resolve()
        self.folder.chmod(0o755)
        for name, text in (('mcsim', PROGRAM), ('mcscheck', CHECKER)):
            (self.folder / name).write_text(text)
            (self.folder / name).chmod(0o755)
        self.work = self.folder / 'work'
        self.work.mkdir()
        for tool in TOOLS_OF_ALL:
            (self.work / tool.input).write_text(tool.text)

    def run_words(
        self, tool: str, *words: Path, stdout: Union[int, None] = subprocess.PIPE, closes: Sequence[int] = (), before: Sequence[str] = (),
    ) -> subprocess.CompletedProcess[bytes]:
        """Runs a tool in the folder of work, with some descriptors closed, by a program that stands before it."""
        environment = {**os.environ, 'MCSIM': str(self.folder / 'mcsim'), 'MCSCHECK': str(self.folder / 'mcscheck'), 'PYTHONDONTWRITEBYTECODE': '1'}
        return forked.tools(*before).run(
            [sys.executable, str(TOOLS / tool), *words], cwd=self.work, env=environment, stdout=stdout, stderr=subprocess.PIPE, stdin=subprocess.DEVNULL,
            closes=closes, timeout=SECONDS,
        )

    def written(self, tool: Tool, target: Path, *, source: Optional[Path] = None, before: Sequence[str] = ()) -> subprocess.CompletedProcess[bytes]:
        """Runs a tool that writes to a target."""
        return self.run_words(tool.name, source or tool.input, *tool.options, '-o', target, before=before)

    def bound(self) -> Sequence[str]:
        """What stands before a tool so that modes of files bind it, as they do not bind root."""
        if os.geteuid():
            return ()
        if shutil.which('setpriv') is None:
            self.skipTest('setpriv, by which root gives up that modes do not bind it')
        return ('setpriv', '--bounding-set=-all', '--inh-caps=-all')

    def plain(self, tool: Tool) -> bytes:
        """What a tool writes."""
        target = self.work / f'plain{tool.target}'
        self.assertEqual(self.written(tool, target).returncode, 0)
        text = target.read_bytes()
        target.unlink()
        return text

    def assert_one_line(self, ran: subprocess.CompletedProcess[bytes], tool: str, said: str, status: int = 2) -> None:
        self.assertEqual((ran.returncode, ran.stdout or b'', ran.stderr.decode()), (status, b'', f'{tool}: {said}\n'))

    def assert_nothing_left(self, *names: str) -> None:
        """Nothing stands in the folder of work but what stood there, and these."""
        found = {path.name for path in self.work.iterdir()} - {tool.input for tool in TOOLS_OF_ALL}
        self.assertEqual(found, set(names))


class StandardOutput(Case):
    """A standard output that takes nothing ends a tool with one line and the exit code 3."""

    def each(self, said: str, stdout: Callable[[], Optional[int]], closes: Sequence[int] = ()) -> None:
        runs = [(tool.name, (tool.input, *tool.options)) for tool in TOOLS_OF_ALL if tool.writes]
        runs += [('view', ('--help',)), ('sweep', ('--version',))]
        descriptor = stdout()
        for (name, words), ran in at_once(lambda run: self.run_words(run[0], *run[1], stdout=descriptor, closes=closes), runs):
            with self.subTest(name, words=words):
                self.assert_one_line(ran, name, f'standard output: {said}', frame.WRITE_FAILED)
        if descriptor is not None:
            os.close(descriptor)

    def test_full(self) -> None:
        self.each('No space left on device', lambda: os.open('/dev/full', os.O_WRONLY))

    def test_closed(self) -> None:
        self.each('Bad file descriptor', lambda: None, [1])

    def test_a_pipe_whose_reader_left(self) -> None:
        def left() -> int:
            reader, writer = os.pipe()
            os.close(reader)
            return writer

        self.each('Broken pipe', left)

    def test_all_closed(self) -> None:
        for tool in TOOLS_OF_ALL:
            if tool.writes:
                ran = self.run_words(tool.name, tool.input, *tool.options, stdout=None, closes=[0, 1, 2])
                self.assertEqual((ran.returncode, ran.stderr), (3, b''), tool)

    def test_a_tool_that_writes_a_file_needs_no_standard_output(self) -> None:
        for tool in WRITERS:
            target = self.work / f'out{tool.target}'
            ran = self.run_words(tool.name, tool.input, *tool.options, '-o', target, stdout=None, closes=[0, 1])
            self.assertEqual((ran.returncode, ran.stderr), (0, b''), tool)
            target.unlink()

    def test_rows_of_a_closed_standard_input(self) -> None:
        for tool in ('trace', 'waves'):
            ran = self.run_words(tool, 'one.toml', '--rows', '-', '-o', 'out', closes=[0])
            self.assert_one_line(ran, tool, '-: Bad file descriptor')
        self.assert_nothing_left()


class Targets(Case):
    """Regular files are written whole and keep their mode; all else is written as it is."""

    def test_standard_output_by_name(self) -> None:
        for tool in WRITERS:
            if tool.writes:
                with self.subTest(tool):
                    text = self.plain(tool)
                    self.assertEqual([self.written(tool, target).stdout for target in ('-', '/dev/stdout', '/dev/fd/1')], [text] * 3)

    def test_a_file_to_which_standard_output_adds(self) -> None:
        for tool in WRITERS:
            if tool.writes:
                text, log = self.plain(tool), self.work / 'log'
                log.write_bytes(b'kept\n')
                with log.open('ab') as file:
                    self.run_words(tool.name, tool.input, *tool.options, '-o', '/dev/stdout', stdout=file.fileno())
                self.assertEqual(log.read_bytes(), b'kept\n' + text)

    def test_a_device(self) -> None:
        for tool in WRITERS:
            node = self.work / f'node{tool.target}'
            try:
                os.mknod(node, stat.S_IFCHR | 0o666, os.makedev(1, 3))
            except PermissionError:
                self.skipTest('a device is made by root alone')
            with self.subTest(tool):
                ran = self.written(tool, node)
                self.assertEqual((ran.returncode, ran.stderr), (0, b''))
                self.assertTrue(stat.S_ISCHR(node.stat().st_mode))
                node.unlink()
                # a device that is full
                os.mknod(node, stat.S_IFCHR | 0o666, os.makedev(1, 7))
                self.assert_one_line(self.written(tool, node), tool.name, f'{node}: No space left on device')
                self.assertTrue(stat.S_ISCHR(node.stat().st_mode))
                node.unlink()
        self.assert_nothing_left()

    def test_a_pipe(self) -> None:
        for tool in WRITERS:
            with self.subTest(tool):
                text, pipe = self.plain(tool), self.work / f'pipe{tool.target}'
                os.mkfifo(pipe)
                read: list[bytes] = []
                reader = threading.Thread(target=lambda: read.append(pipe.read_bytes()), daemon=True)
                reader.start()
                ran = self.written(tool, pipe)
                reader.join(SECONDS)
                self.assertEqual((ran.returncode, ran.stderr, read), (0, b'', [text]))
                self.assertTrue(stat.S_ISFIFO(pipe.stat().st_mode))
                pipe.unlink()
        self.assert_nothing_left()

    def test_a_folder(self) -> None:
        for tool in WRITERS:
            folder = self.work / f'folder{tool.target}'
            folder.mkdir()
            self.assert_one_line(self.written(tool, folder), tool.name, f'{folder}: Is a directory')
            folder.rmdir()

    def test_a_folder_that_is_not_there_and_one_that_may_not_be_written(self) -> None:
        before = self.bound()
        for tool in WRITERS:
            with self.subTest(tool):
                name, part = f'out{tool.target}', '.part' if '--set' in tool.options else ''
                self.assert_one_line(self.written(tool, f'none/{name}'), tool.name, f'none/{name}{part}: No such file or directory')
                self.work.chmod(0o555)
                self.assert_one_line(self.written(tool, name, before=before), tool.name, f'{name}{part}: Permission denied')
                self.work.chmod(0o755)
        self.assert_nothing_left()

    def test_a_file_that_may_not_be_written(self) -> None:
        before = self.bound()
        for tool in WRITERS:
            with self.subTest(tool):
                target = self.work / f'out{tool.target}'
                target.write_text('old')
                target.chmod(0o444)
                self.assert_one_line(self.written(tool, target, before=before), tool.name, f'{target}: it may not be written')
                self.assertEqual(target.read_text(), 'old')
                target.unlink()
        self.assert_nothing_left()

    def test_mode_and_links_are_kept(self) -> None:
        for tool in WRITERS:
            with self.subTest(tool):
                text, target, link = self.plain(tool), self.work / f'out{tool.target}', self.work / f'link{tool.target}'
                link.symlink_to(target.name)
                for mode in (0o600, 0o664, 0o755):
                    target.write_text('old')
                    target.chmod(mode)
                    self.assertEqual(self.written(tool, link).returncode, 0)
                    self.assertEqual((target.read_bytes(), stat.S_IMODE(target.stat().st_mode), link.is_symlink()), (text, mode, True))
                target.unlink()
                # a new file has the mode of any new file, also behind a link
                self.written(tool, link)
                mask = os.umask(0)
                os.umask(mask)
                self.assertEqual(stat.S_IMODE(target.stat().st_mode), 0o666 & ~mask)
                target.unlink()
                link.unlink()
        self.assert_nothing_left()

    def test_nothing_half_written(self) -> None:
        (self.folder / 'mcsim').write_text(PROGRAM + 'echo no row\n')
        for tool in WRITERS:
            if tool.input == 'one.toml':
                target = self.work / f'out{tool.target}'
                target.write_text('old')
                ran = self.written(tool, target)
                self.assertEqual((ran.returncode, target.read_text()), (2, 'old'), ran.stderr)
                target.unlink()
                (self.work / f'out{tool.target}.part').unlink(missing_ok=True)
        self.assert_nothing_left()


class Itself(Case):
    """No tool writes over what it reads, by whatever name."""

    def test_the_input(self) -> None:
        for tool in WRITERS:
            source = self.work / f'input{tool.target}'
            for target in (source, self.work / f'link{tool.target}', self.work / f'hard{tool.target}', self.work / f'./{source.name}'):
                with self.subTest(tool, target=target.name):
                    source.write_text(tool.text)
                    (self.work / f'link{tool.target}').symlink_to(source)
                    (self.work / f'hard{tool.target}').hardlink_to(source)
                    ran = self.written(tool, target, source=source)
                    self.assert_one_line(ran, tool.name, f'{target}: this is the file that is read: write to another one')
                    self.assertEqual(source.read_text(), tool.text)
                    for name in ('input', 'link', 'hard'):
                        (self.work / f'{name}{tool.target}').unlink()
        self.assert_nothing_left()

    def test_another_input(self) -> None:
        (self.work / 'rows.json').write_text(ONE_ROWS.lstrip())
        ran = self.run_words('trace', 'one.toml', '--rows', 'rows.json', '-o', 'rows.json')
        self.assert_one_line(ran, 'trace', 'rows.json: this is the file that is read: write to another one')
        (self.work / 'work.toml').write_text('')
        ran = self.run_words('microkit', 'board.system', '--work', 'work.toml', '-o', 'work.toml')
        self.assert_one_line(ran, 'microkit', 'work.toml: this is the file that is read: write to another one')

    def test_a_standard_output_that_is_the_input(self) -> None:
        for tool in WRITERS:
            if tool.writes:
                with (self.work / tool.input).open('ab') as file:
                    ran = self.run_words(tool.name, tool.input, *tool.options, stdout=file.fileno())
                self.assert_one_line(ran, tool.name, 'standard output: this is the file that is read: write to another one')
                self.assertEqual((self.work / tool.input).read_text(), tool.text)

    def test_two_outputs_that_are_one(self) -> None:
        (self.work / 'there.vcd').write_text('old')
        (self.work / 'link.vcd').symlink_to('there.vcd')
        for first, second in (('new.vcd', './new.vcd'), ('there.vcd', 'link.vcd'), ('there.vcd', 'there.vcd')):
            ran = self.run_words('waves', 'one.toml', '-o', first, '--save', second)
            self.assert_one_line(ran, 'waves', f'{pathlib.Path(second)}: two outputs go to this file: give each its own')
        self.assertEqual((self.work / 'there.vcd').read_text(), 'old')
        self.assert_nothing_left('there.vcd', 'link.vcd')


ODD = (b'-o a\'b"c$(touch x)`touch y`', b'<script>&amp;', b'a\nb\x1b]0;t\x07\xe2\x80\xae', b'\xff\xfe', 'ä€'.encode() * 40)


class Names(Case):
    """File names of whatever bytes."""

    def named(self, run: tuple[bytes, Tool]) -> tuple[subprocess.CompletedProcess[bytes], bytes]:
        """Runs a tool over a file of this name; what it came to, and what it wrote."""
        name, tool = run
        folder = tempfile.mkdtemp(dir=os.fsencode(self.work))
        source = os.path.join(folder, name + os.fsencode(pathlib.Path(tool.input).suffix))
        target = os.path.join(folder, name + b'.out' + (tool.target or '').encode())
        with open(source, 'w', encoding='utf-8') as file:
            file.write(tool.text)
        if not tool.target:
            ran = self.run_words(tool.name, source, *tool.options)
            return ran, ran.stdout
        ran = self.written(tool, target, source=source)
        with open(target, 'rb') as read:
            return ran, read.read()

    def test_odd_names(self) -> None:
        runs = [(name, tool) for name in ODD for tool in TOOLS_OF_ALL if tool.name != 'live']
        for (name, tool), (ran, text) in at_once(self.named, runs):
            with self.subTest(tool, name=name):
                self.assertEqual((ran.returncode, ran.stderr), (0, b''))
                self.assert_harmless(tool, text)

    def assert_harmless(self, tool: Tool, text: bytes) -> None:
        """A text has no control characters but ends of lines; a picture is XML, and no element of it comes from a name."""
        self.assertTrue(all(one.isprintable() or one in '\n\t' for one in text.decode()))
        if tool.target == '.svg':
            xml.etree.ElementTree.fromstring(text)
            self.assertNotIn(b'<script', text)

    def test_a_fault_is_one_line_without_control_characters(self) -> None:
        for name in (b'none\n\x1b[31m\xff', b'none\r\x07'):
            for tool in NAMES:
                words: list[Path] = ['-o', 'x.svg'] if tool == 'view' else ['--set', 'delay=1'] if tool == 'sweep' else []
                ran = self.run_words(tool, name, *words)
                shown = ''.join(one if one.isprintable() else '?' for one in os.fsdecode(name))
                self.assert_one_line(ran, tool, f'{shown}: No such file or directory')


class Frame(unittest.TestCase):
    """Whatever a tool raises."""

    def test_any_exception_is_one_line(self) -> None:
        def raising(error: BaseException) -> Callable[[], None]:
            def main() -> None:
                raise error

            return main

        for error, status, said in (
            (ZeroDivisionError('by 0'), 2, 'tool: it failed: ZeroDivisionError: by 0\n'),
            (RecursionError('too\ndeep'), 2, 'tool: it failed: RecursionError: too?deep\n'),
            (MemoryError(), 2, 'tool: it failed: MemoryError: \n'),
            (OSError(28, 'full'), 2, 'tool: it failed: OSError: [Errno 28] full\n'),
            (UnicodeEncodeError('utf-8', 'x', 0, 1, 'odd'), 2, "tool: it failed: UnicodeEncodeError: 'utf-8' codec can't encode character '\\x78' in position 0: odd\n"),
            (faults.Fault('a\x1bb'), 2, 'tool: a?b\n'),
            (faults.Fault('no memory', 4), 4, 'tool: no memory\n'),
            (frame.OutputLost('gone'), 3, 'tool: standard output: gone\n'),
            (KeyboardInterrupt(), 130, ''),
            (SystemExit(143), 143, ''),
            (SystemExit(), 0, ''),
        ):
            self.assertEqual(worked.ran('tool', raising(error)), (status, '', said))

    def test_a_tool_that_is_not_there(self) -> None:
        told = worked.ran('tool', lambda: frame.imported('none'))
        self.assertEqual(told, (2, '', "tool: it failed: ModuleNotFoundError: No module named 'mcsim_tools.none'\n"))


HEAD = b'version = 1\ncores = 1\ndelay = 1\n'
CONTEXT, THREAD = b'{ name = "a", core = 0, budget = 2, period = 5 }', b'{ name = "A", context = "a", priority = 5, script = ["compute 5"] }'
REST = b'context = [' + CONTEXT + b']\nthread = [' + THREAD + b']\n'
TEXTS = {
    'plain': HEAD + REST,
    'a mark of the byte order': b'\xef\xbb\xbf' + HEAD + REST,
    'two marks': b'\xef\xbb\xbf\xef\xbb\xbf' + HEAD + REST,
    'lines that end with a return': (HEAD + REST).replace(b'\n', b'\r\n'),
    'a return alone': HEAD.replace(b'\n', b'\r', 1) + REST,
    'no UTF-8': HEAD + REST + b'# \xff\n',
    'a control character in a comment': HEAD + REST + b'# \x1b]0;t\x07\n',
    'a control character in a name': HEAD + REST.replace(b'"A"', b'"A\x01"'),
    'an escaped one in a name': HEAD + REST.replace(b'"A"', b'"A\\u001b"'),
    'NUL': HEAD + b'\0' + REST,
    'a comment of 10 MB': HEAD + REST + b'# ' + b'x' * 10_000_000 + b'\n',
    'a text of 10 MB': HEAD + REST + b'x = "' + b'x' * 10_000_000 + b'"\n',
    'a number of 5,000 digits': b'version = ' + b'9' * 5000 + b'\n' + HEAD,
    'a value that is nested deep': b'version = ' + b'[' * 5000 + b'\n',
    'lines and a last comma in an inline table': HEAD + REST.replace(b'budget = 2, period = 5 }', b'budget = 2,  # two\r\n  period = 5,\n}'),
    'an escape of one byte': HEAD + REST.replace(b'"A"', b'"\\x41"'),
    'an escape of ESC': HEAD + REST.replace(b'"A"', b'"\\e"'),
    'nothing': b'',
    'a key that stands twice': HEAD + b'delay = 2\n' + REST,
    'an open quote': HEAD + b'note = [{ name = "n }]\n',
}


class Answers(Case):
    """What the program takes each tool takes, and what it refuses each tool refuses with its line."""

    def test_files(self) -> None:
        program = source.default_program()
        try:
            subprocess.run([program, '--help'], capture_output=True, check=True)
        except (OSError, subprocess.CalledProcessError) as error:
            self.skipTest(f'mcsim, which does not run here: {error}')
        tools = (
            ('view', '--horizon', '12', '-o', 'out.svg'), ('trace', '--horizon', '12'), ('waves', '--horizon', '12'), ('sweep', '--set', 'delay=1'), ('explain',),
        )
        for what, text in TEXTS.items():
            (self.work / 'odd.toml').write_bytes(text)
            wanted = subprocess.run([program, 'odd.toml', '--horizon', '12'], cwd=self.work, capture_output=True, check=False)
            said = wanted.stderr.decode().removeprefix('mcsim: ').strip()
            for (tool, *_), ran in at_once(lambda words: self.run_words(words[0], 'odd.toml', *words[1:], '--program', program), tools):
                with self.subTest(what, tool=tool):
                    told = (ran.stdout if tool == 'explain' else ran.stderr).decode()
                    self.assertEqual(ran.returncode, 0 if wanted.returncode == 0 else 1 if tool == 'explain' else 2, told)
                    first = told.splitlines()[0] if told else ''
                    self.assertTrue(first.endswith(said) if said else 'no fault' in first or not first, (first, said))
                    self.assertTrue(all(one.isprintable() or one == '\n' for one in told))
                    self.assertLess(len(told), 5000)


if __name__ == '__main__':
    unittest.main()
