"""The site of the pages, for a made-up repository: where links lead, and what is built."""
import pathlib
import tempfile
import unittest

from checks.common import Count
from checks.pages import site

README = """# Top

[a page](docs/A.md#words), [a mark](docs/A.md#spot), [a file](crates/one/src/lib.rt), [a crate](crates/one),
[files](crates/one/src), [elsewhere](https://example.org/a.md), `[code](docs/A.md)`, ![a picture](docs/p.svg)

```sh
echo [code](docs/A.md)
```
"""
PAGE = """# A

## Words

<a id="spot"></a>Here is [the top](../README.md) and [this](#words).
"""


class Site(unittest.TestCase):
    def setUp(self) -> None:
        folder = tempfile.TemporaryDirectory()
        self.addCleanup(folder.cleanup)
        self.place = pathlib.Path(folder.name).resolve()
        self.top = self.place / 'top'
        self.put('README.md', README)
        self.put('docs/A.md', PAGE)
        self.put('docs/p.svg', '<svg xmlns="http://www.w3.org/2000/svg" width="9" height="9"></svg>\n')
        self.put('crates/one/README.md', '# one\n')
        self.put('crates/one/src/lib.rt', 'fn unseen() {}\n```\n# no heading\n')

    def put(self, path: str, text: str) -> None:
        (self.top / path).parent.mkdir(parents=True, exist_ok=True)
        (self.top / path).write_text(text)

    def written(self) -> pathlib.Path:
        """The folder with what Sphinx reads."""
        site.write_sources(self.top, self.place / 'pages')
        return self.place / 'pages'

    def test_links_lead_to_pages_of_the_site(self) -> None:
        text = (self.written() / 'README.md').read_text()
        for wanted in (
            '[a page](docs/A.md#words)',
            '<a href="docs/A.html#spot">a mark</a>',
            '[a file](crates/one/src/lib.rt.md)',
            '[a crate](crates/one/README.md)',
            '[files](crates/one/src/index.md)',
            '[elsewhere](https://example.org/a.md)',
            '![a picture](docs/p.svg)',
        ):
            self.assertIn(wanted, text)

    def test_code_has_no_links(self) -> None:
        text = (self.written() / 'README.md').read_text()
        self.assertIn('`[code](docs/A.md)`', text)
        self.assertIn('echo [code](docs/A.md)\n', text)

    def test_files_and_folders_have_pages_that_search_leaves_out(self) -> None:
        folder = self.written()
        page = (folder / 'crates/one/src/lib.rt.md').read_text()
        self.assertTrue(page.startswith('---\norphan: true\nnosearch: true\n---\n'))
        self.assertIn('# crates/one/src/lib.rt\n', page)
        self.assertIn('fn unseen() {}', page)
        self.assertIn('- [lib.rt](lib.rt.md)\n', (folder / 'crates/one/src/index.md').read_text())

    def test_each_page_is_listed_once(self) -> None:
        text = (self.written() / 'index.md').read_text()
        for page in ('README.md', 'docs/A.md', 'crates/one/README.md'):
            self.assertEqual(text.splitlines().count(page), 1, page)

    def test_a_lost_link_is_seen(self) -> None:
        built = self.place / 'site'
        built.mkdir()
        (built / 'a.html').write_text('<a href="a.html#here">a</a> <a href="b.html">b</a> <a href="#gone">c</a> <p id="here">')
        self.assertEqual([*site.lost_links(built)], ['a.html: b.html#', 'a.html: #gone'])

    def built(self) -> Count:
        runner = site.python()
        if runner is None:
            self.skipTest('Sphinx or MyST is not installed')
        count = Count()
        site.build(self.top, self.place / 'site', runner, count)
        return count

    def test_the_site_is_built_without_a_warning(self) -> None:
        count = self.built()
        self.assertEqual(count.tally.failed, 0)
        self.assertIn('fn unseen', (self.place / 'site/crates/one/src/lib.rt.html').read_text())
        self.assertNotIn('unseen', (self.place / 'site/searchindex.js').read_text())

    def test_a_link_to_no_heading_is_a_warning(self) -> None:
        self.put('docs/A.md', PAGE.replace('#words', '#gone').replace('(../README.md)', '(../README.md#gone)'))
        self.assertGreater(self.built().tally.failed, 0)


if __name__ == '__main__':
    unittest.main()
