"""Tests of links.py: where links lead, and how headings are named."""
from __future__ import annotations

import contextlib
import io
import pathlib
import tempfile
import unittest

from checks import common
from checks.pages import links


class Names(unittest.TestCase):
    def test_a_heading_has_small_letters_and_dashes(self) -> None:
        for heading, name in (('Run it', 'run-it'), ('Event loops, interrupts', 'event-loops-interrupts'), ('`mcs_run`: a call', 'mcs_run-a-call'),
                              ('[PROVED](PROVED.md) now', 'proved-now'), ('How much?', 'how-much'), ('A - B', 'a---b')):
            self.assertEqual(links.name_of(heading), name)

    def test_code_has_no_links(self) -> None:
        text = '[a](one.md)\n```\n[b](two.md)\n```\n`[c](three.md)` [`d`](four.md)\n[long\ntext](five.md#x)\n'
        self.assertEqual(list(links.links_in(text)), [(1, 'one.md'), (5, 'four.md'), (7, 'five.md#x')])

    def test_a_picture_may_be_a_link(self) -> None:
        self.assertEqual([target for _, target in links.links_in('[![a](a.svg)](a.html) ![b](b.svg)')], ['a.html', 'b.svg'])


class Pages(unittest.TestCase):
    def setUp(self) -> None:
        room = tempfile.TemporaryDirectory()
        self.addCleanup(room.cleanup)
        self.top = pathlib.Path(room.name)
        self.write('docs/A.md', '# A\n\n## Run it\n\n## Run it\n\n<a id="old-name"></a>\n\n```\n## In code\n```\n')

    def write(self, name: str, text: str) -> pathlib.Path:
        path = self.top / name
        path.parent.mkdir(exist_ok=True)
        path.write_text(text, encoding='utf-8')
        return path

    def why(self, target: str) -> str | None:
        return links.wrong(self.write('README.md', '# Top\n'), target)

    def test_links_that_lead_somewhere(self) -> None:
        for target in ('docs', 'docs/A.md', 'docs/A.md#run-it', 'docs/A.md#run-it-1', 'docs/A.md#old-name', '#top', 'https://example.org/none', 'mailto:a@b'):
            self.assertIsNone(self.why(target), target)

    def test_links_that_do_not(self) -> None:
        self.assertEqual(self.why('docs/B.md'), 'there is no docs/B.md')
        self.assertEqual(self.why('docs/A.md#run'), 'A.md has no heading run')
        self.assertEqual(self.why('docs/A.md#in-code'), 'A.md has no heading in-code')
        self.assertEqual(self.why('#run-it'), 'README.md has no heading run-it')

    def test_each_page_is_a_try(self) -> None:
        self.write('README.md', '[a](docs/A.md) [b](docs/B.md) [c](docs/C.md)\n')
        self.write('out/C.md', '[a](none.md)\n')
        count = common.Count()
        with contextlib.redirect_stdout(io.StringIO()):
            for page in links.pages(self.top):
                links.try_page(page, self.top, count)
        self.assertEqual(count.tally, common.Tally(passed=1, failed=2))


if __name__ == '__main__':
    unittest.main()
