"""The check of Python, with made-up linters: it has to see what they find, and where one is missing or breaks."""
import contextlib
import io
import os
import pathlib
import tempfile
import unittest
from unittest import mock

from checks import common
from checks.common import Tally
from checks.program import lint

FINDS = """a.py:3: error: Unsupported operand types for + ("int" and "None")  [operator]
a.py:3: note: Right operand is of type "Optional[int]"
a.py:9:1: 'sys' imported but unused
b.py:1: error: Function is missing a type annotation  [no-untyped-def]
"""


class Lint(unittest.TestCase):
    def setUp(self) -> None:
        folder = tempfile.TemporaryDirectory()
        self.addCleanup(folder.cleanup)
        self.folder = pathlib.Path(folder.name)
        patched = mock.patch.dict(os.environ, {'PATH': str(self.folder)})
        patched.start()
        self.addCleanup(patched.stop)

    def seen(self, text: str | None) -> tuple[Tally, list[str]]:
        """What is counted and said of a linter that is these lines of the shell, or is not there, with three files."""
        if text is not None:
            (self.folder / 'made-up').write_text(f'#!/bin/sh\n{text}\n')
            (self.folder / 'made-up').chmod(0o755)
        count, said = common.Count(), io.StringIO()
        files = tuple(pathlib.Path(name) for name in ('a.py', 'b.py', 'c.py'))
        with contextlib.redirect_stdout(said):
            lint.look(lint.Linter(('made-up',), ('word',), files), count)
        return count.tally, said.getvalue().splitlines()

    def test_a_linter_that_finds_nothing_passes_each_file(self) -> None:
        self.assertEqual(self.seen('exit 0'), (Tally(passed=3), []))

    def test_each_finding_is_a_failure_and_a_note_is_none(self) -> None:
        tally, said = self.seen(f"while read -r line; do echo \"$line\"; done <<'END'\n{FINDS}END\nexit 1")
        lines = [line for line in FINDS.splitlines() if 'note' not in line]
        self.assertEqual((tally, said), (Tally(passed=1, failed=3), [f'failed: {line}' for line in lines]))

    def test_a_linter_that_breaks_is_a_failure(self) -> None:
        for text, said in (('echo "no such option" >&2; exit 2', 'no such option\n'), ('exit 1', ''), ("echo 'a.py:1: error: x'", 'a.py:1: error: x\n')):
            with self.subTest(text):
                tally, lines = self.seen(text)
                self.assertGreater(tally.failed, 0)
                self.assertIn(f'made-up ended with status {text[-1] if "exit" in text else 0}: {said}'.strip(), '\n'.join(lines))

    def test_a_linter_that_is_not_there_is_skipped_by_its_name(self) -> None:
        self.assertEqual(self.seen(None), (Tally(skipped=1), ['skipped: made-up, which is not installed']))


class Files(unittest.TestCase):
    def test_a_tool_without_an_ending_is_python_by_its_first_line(self) -> None:
        files = {str(path.relative_to(common.TOP)) for path in lint.linters()[1].files}
        for name in ('tools/view', 'tools/mcsim_tools/view.py', 'tools/tests/worked.py', 'checks/everything.py', 'checks/program/lint.py', 'examples/python/reports.py'):
            self.assertIn(name, files)
        self.assertFalse(any(name.endswith(('.html', '.css', '.js')) for name in files))


if __name__ == '__main__':
    unittest.main()
