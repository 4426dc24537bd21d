"""What the launcher tells a person at a terminal beside the program's line, the tools that it runs, and the pages that it shows."""
from __future__ import annotations

import contextlib
import os
import pty
import re
import signal
import subprocess
import unittest

from checks.tests.test_built import TOP, InFolder

# a program that ends as the name of its FILE says, after a line on standard error
ENDS = """#!/bin/sh
echo "mcsim: a line" >&2
case "$*" in
    *fault*) exit 1 ;;
    *killed*) kill -TERM $$ ;;
    *gone* | *folder*) exit 3 ;;
esac
echo rows
"""
# tells what it was asked, and ends as its file has a fault or not
EXPLAINS = '#!/bin/sh\necho "$1 $2: explained"\ncase $2 in *unclear*) exit 2 ;; esac\nexit 1\n'


class AtTerminal(InFolder):
    def setUp(self) -> None:
        super().setUp()
        (self.tools / 'tr').symlink_to('/usr/bin/tr')
        self.renewed()
        self.write('crates/mcsim/out/mcsim', ENDS, 0o755)
        self.write('tools/explain', EXPLAINS, 0o755)
        self.folder = self.top.parent

    def file(self, name: str) -> str:
        (self.folder / name).write_text('version = 1\n')
        return name

    def told(self, *words: str) -> tuple[int, str, str]:
        """How a call ends whose standard error is a terminal, and what it writes to both."""
        mine, its = pty.openpty()
        env = {'PATH': str(self.tools), 'HOME': str(self.home)}
        ran = subprocess.run([str(self.top / 'mcsim'), *words], cwd=self.folder, env=env, stdin=subprocess.DEVNULL, stdout=subprocess.PIPE, stderr=its)
        os.close(its)
        told = self.read(mine)
        os.close(mine)
        return ran.returncode, ran.stdout.decode(), told

    def read(self, terminal: int) -> str:
        """All that is left to read of a terminal that nobody writes to any more."""
        text = b''
        with contextlib.suppress(OSError):
            while part := os.read(terminal, 4096):
                text += part
        return text.decode().replace('\r', '')

    def test_a_fault_is_explained_after_the_programs_line(self) -> None:
        name = self.file('fault.toml')
        for words in ((name,), ('--horizon', '5', name), (name, '--show', 'reports'), ('--show=both', '--', name)):
            with self.subTest(words=words):
                self.assertEqual(self.told(*words), (1, '', f'mcsim: a line\n-- {name}: explained\n'))

    def test_the_value_of_an_option_is_not_explained(self) -> None:
        name = self.file('fault.toml')
        self.assertEqual(self.told('--horizon', name)[2], 'mcsim: a line\n')

    def test_a_run_without_a_fault_is_as_ever(self) -> None:
        self.assertEqual(self.told(self.file('good.toml')), (0, 'rows\n', 'mcsim: a line\n'))

    def test_what_cannot_be_explained_adds_nothing(self) -> None:
        self.assertEqual(self.told(self.file('fault unclear.toml')), (1, '', 'mcsim: a line\n'))
        (self.top / 'tools' / 'explain').unlink()
        self.assertEqual(self.told(self.file('fault.toml')), (1, '', 'mcsim: a line\n'))

    def test_without_python_nothing_is_explained(self) -> None:
        (self.tools / 'python3').unlink()
        self.assertEqual(self.told(self.file('fault.toml')), (1, '', 'mcsim: a line\n'))

    def test_a_file_that_cannot_be_read_is_named_with_the_reason(self) -> None:
        self.assertEqual(self.told('gone.toml'), (3, '', 'mcsim: a line\nmcsim: there is no file gone.toml\n'))
        (self.folder / 'folder').mkdir()
        self.assertEqual(self.told('folder'), (3, '', 'mcsim: a line\nmcsim: folder is a folder\n'))

    def test_a_program_that_a_signal_ended_ends_the_launcher_so(self) -> None:
        self.assertEqual(self.told(self.file('killed.toml'))[0], -signal.SIGTERM)

    def test_without_a_terminal_the_programs_line_is_all(self) -> None:
        self.assertEqual(self.launch(self.file('fault.toml')), (1, '', 'mcsim: a line\n'))


class Tools(InFolder):
    def setUp(self) -> None:
        super().setUp()
        (self.tools / 'tr').symlink_to('/usr/bin/tr')
        self.renewed()

    def test_a_tool_runs_by_its_name_with_the_other_words(self) -> None:
        self.write('tools/view', '#!/bin/sh\necho view "$@"\n', 0o755)
        self.assertEqual(self.launch('view', 'a b.toml', '--horizon', '5'), (0, 'view a b.toml --horizon 5\n', ''))

    def test_a_file_of_that_name_comes_first(self) -> None:
        (self.top.parent / 'view').write_text('a system\n')
        self.assertEqual(self.launch('view'), (0, 'gate view\na system\n', ''))

    def test_without_python_one_line_says_so(self) -> None:
        (self.tools / 'python3').unlink()
        self.assertEqual(self.launch('view', 'a.toml'), (127, '', 'mcsim: the tool view needs Python 3.11, and no python3 is on PATH\n'))

    def test_the_tools_are_those_of_the_repository(self) -> None:
        listed = re.search(r'^        (compare \| .*)\)$', (TOP / 'mcsim').read_text(), re.M)
        assert listed
        tools = {path.name for path in (TOP / 'tools').iterdir() if path.is_file() and os.access(path, os.X_OK)}
        self.assertEqual({*listed[1].split(' | ')}, tools)


class Help(InFolder):
    def setUp(self) -> None:
        super().setUp()
        (self.tools / 'tr').symlink_to('/usr/bin/tr')
        self.renewed()
        self.write('docs/FORMAT.md', '# What goes in\n\nA file.\n')
        self.write('docs/LEFT_OUT.md', '# What is left out\n')

    def test_topics_are_listed_with_their_titles(self) -> None:
        listed = '  format       What goes in\n  left_out     What is left out\n'
        self.assertEqual(self.launch('help'), (0, 'mcsim help TOPIC shows a page:\n' + listed, ''))

    def test_a_page_is_shown_by_any_spelling(self) -> None:
        for topic in ('format', 'FORMAT', 'Format'):
            self.assertEqual(self.launch('help', topic), (0, '# What goes in\n\nA file.\n', ''))
        self.assertEqual(self.launch('help', 'left-out')[0], 0)

    def test_other_topics_are_refused(self) -> None:
        for topic in ('../README', 'sweeps', 'a b', '*'):
            self.assertEqual(self.launch('help', topic), (2, '', f'mcsim: there is no topic {topic}: mcsim help lists them\n'))

    def test_each_topic_has_a_page_that_is_installed(self) -> None:
        topics = re.search(r"^topics='(.*)'$", (TOP / 'launcher' / 'help.sh').read_text(), re.M)
        assert topics
        installed = {line.split()[0] for line in (TOP / 'launcher' / 'installed').read_text().splitlines() if line.startswith('docs/')}
        for topic in topics[1].split():
            self.assertTrue((TOP / 'docs' / f'{topic}.md').is_file(), topic)
            self.assertIn(f'docs/{topic}.md', installed)


if __name__ == '__main__':
    unittest.main()
