#!/usr/bin/env python3
"""Builds all pages of the repository as a site with search, offline, and checks that Sphinx has no warning and each link leads to a file.

The site is written to FOLDER, which may be absent or empty; without FOLDER it is built in a temporary folder and removed. Open FOLDER/index.html.

Pages link to each other as in the repository. A link to a folder leads to its page NAME/README.md, or else to a list of its files. A link to any other
file of the repository, such as crates/NAME/src/lib.rt, leads to a page with its text; search leaves these pages out. It needs Sphinx and MyST (Debian:
apt-get install python3-sphinx python3-myst-parser), and is skipped without them."""
from __future__ import annotations

import functools
import os
import pathlib
import re
import shutil
import sys
import tempfile
from collections.abc import Iterator
from typing import NamedTuple
from urllib.parse import unquote

sys.dont_write_bytecode = True
sys.path[0] = str(pathlib.Path(__file__).resolve().parents[2])
from checks import common
from checks.common import TOP, Count
from checks.pages import links

NEEDS = 'import sphinx, myst_parser'
# Debian's Python has Debian's Sphinx; another one may have its own
PYTHONS = ('/usr/bin/python3', sys.executable)
SECONDS = 1200
PICTURES = {'.svg', '.png', '.jpg', '.gif'}
# a piece of code, in which a bracket is no link, or a link with its target
PIECE = re.compile(r'(?P<code>^[ \t]*```.*?^[ \t]*```|(?<!`)`[^`\n]+`)|(?P<head>!?\[(?:[^\[\]]|\[[^\]]*\])*\]\()(?P<target>[^)\s]+)\)', re.M | re.S)
HREF = re.compile(r'<(?:a|img|link|script)\b[^>]*?\b(?:href|src)="([^"#?]*)(?:\?[^"#]*)?#?([^"]*)"')
ID = re.compile(r'\bid="([^"]+)"')
FENCE = '~' * 12
ASIDE = '---\norphan: true\nnosearch: true\n---\n'

CONFIG = '''# written by checks/pages/site.py
project = 'mcsim'
extensions = ['myst_parser']
source_suffix = {'.md': 'markdown'}
root_doc = 'index'
language = 'en'
myst_heading_anchors = 6
# a page of the repository need not begin with a heading of level 1, and Pygments need not know its code
suppress_warnings = ['myst.header', 'misc.highlighting_failure']
highlight_language = 'none'
html_theme = 'alabaster'
html_theme_options = {'page_width': '1200px', 'sidebar_width': '260px', 'body_max_width': '100%', 'show_powered_by': False}
html_sidebars = {'**': ['searchbox.html', 'globaltoc.html']}
html_show_sourcelink = False
html_copy_source = False
html_title = 'mcsim'

contents = {}


def share_contents(app, name, template, context, doctree):
    # contents beside a page mark it, if they have it. Those of files and folders have none of them, and are alike in one folder.
    if 'orphan' not in app.env.metadata.get(name, {}):
        return
    made, folder = context['toctree'], name.rpartition('/')[0]

    def toctree(**words):
        key = folder, *sorted(words.items())
        if key not in contents:
            contents[key] = made(**words)
        return contents[key]

    context['toctree'] = toctree


def setup(app):
    app.connect('html-page-context', share_contents)
'''


class Group(NamedTuple):
    """Pages that stand together in the list of contents."""

    title: str
    pages: tuple[pathlib.Path, ...]


def python() -> str | None:
    """A Python with Sphinx and MyST, if there is one."""
    found = (path for path in PYTHONS if common.is_program(pathlib.Path(path)))
    return next((path for path in found if common.run([path, '-c', NEEDS], seconds=60).status == 0), None)


def is_text(file: pathlib.Path) -> bool:
    try:
        file.read_text(encoding='utf-8')
    except UnicodeDecodeError:
        return False
    return True


@functools.cache
def marks_in(page: pathlib.Path) -> frozenset[str]:
    return frozenset(links.MARK.findall(page.read_text(encoding='utf-8')))


class Sources:
    """The folder that Sphinx reads: the pages, and pages for the files and folders that they link to."""

    def __init__(self, top: pathlib.Path, folder: pathlib.Path) -> None:
        self.top = top
        self.folder = folder
        self.asides: set[pathlib.Path] = set()

    def write(self, name: pathlib.Path, text: str) -> None:
        path = self.folder / name
        path.parent.mkdir(parents=True, exist_ok=True)
        path.write_text(text, encoding='utf-8')

    def add_page(self, page: pathlib.Path) -> None:
        """Adds a page of the repository."""
        text = page.read_text(encoding='utf-8')
        self.write(page.relative_to(self.top), PIECE.sub(lambda piece: self.turned(piece, page.parent), text))

    def turned(self, piece: re.Match[str], folder: pathlib.Path) -> str:
        """A piece of a page in this folder; a link leads to a page of the site."""
        if piece['code'] is not None:
            return piece[0]
        path, mark, name = piece['target'].partition('#')
        if '://' in path or path.startswith('mailto:') or not path:
            return piece[0]
        file = (folder / unquote(path)).resolve()
        if not file.is_relative_to(self.top) or not file.exists():
            return piece[0]
        target = os.path.relpath(self.page_of(file), folder)
        if file.suffix == '.md' and name in marks_in(file):
            # MyST knows the headings of a page, and not its marks
            return f'<a href="{target.removesuffix(".md")}.html#{name}">{piece["head"][1:-2]}</a>'
        return f'{piece["head"]}{target}{mark}{name})' if file.suffix == '.md' else f'{piece["head"]}{target})'

    def page_of(self, file: pathlib.Path) -> pathlib.Path:
        """The page of the site to which a link to this file or folder leads; it is written if the repository has none."""
        if file.is_dir():
            page = file / 'README.md'
            return page if page.is_file() else self.aside(file, file / 'index.md')
        if file.suffix == '.md':
            return file
        if file.suffix in PICTURES or not is_text(file):
            self.copy(file)
            return file
        return self.aside(file, file.with_name(f'{file.name}.md'))

    def copy(self, file: pathlib.Path) -> None:
        path = self.folder / file.relative_to(self.top)
        path.parent.mkdir(parents=True, exist_ok=True)
        shutil.copyfile(file, path)

    def aside(self, file: pathlib.Path, page: pathlib.Path) -> pathlib.Path:
        """Adds the page of a file or a folder."""
        if page not in self.asides:
            self.asides.add(page)
            text = self.listing(file) if file.is_dir() else f'{FENCE}\n{file.read_text(encoding="utf-8").rstrip()}\n{FENCE}\n'
            self.write(page.relative_to(self.top), f'{ASIDE}\n# {file.relative_to(self.top)}\n\n{text}')
        return page

    def listing(self, folder: pathlib.Path) -> str:
        """The files of a folder, each with its page."""
        files = sorted(file for file in folder.iterdir() if file.is_file() and file.suffix not in PICTURES and is_text(file))
        return ''.join(f'- [{file.name}]({os.path.relpath(self.page_of(file), folder)})\n' for file in files)


def groups(top: pathlib.Path) -> Iterator[Group]:
    """All pages of the repository, as the list of contents has them."""
    found = [page.relative_to(top) for page in links.pages(top)]
    first = pathlib.Path('README.md')
    docs = [page for page in found if page.parts[0] == 'docs' or len(page.parts) == 1]
    examples = [page for page in found if page.parts[0] == 'examples']
    crates = [page for page in found if page.parts[0] == 'crates']
    placed = {*docs, *examples, *crates}
    yield Group('Pages', tuple(sorted(docs, key=lambda page: (page != first, page))))
    yield Group('Examples', tuple(sorted(examples, key=lambda page: (page.name != 'README.md', page))))
    yield Group('Crates', tuple(crates))
    yield Group('Others', tuple(page for page in found if page not in placed))


def index(listed: list[Group]) -> str:
    """The page with which the site begins."""
    parts = ['# mcsim\n\nAll pages of the repository. The [README](README.md) comes first; {ref}`search` finds words.\n']
    for group in listed:
        pages = '\n'.join(str(page) for page in group.pages)
        if pages:
            parts.append(f'```{{toctree}}\n:maxdepth: 1\n:caption: {group.title}\n\n{pages}\n```\n')
    return '\n'.join(parts)


def write_sources(top: pathlib.Path, folder: pathlib.Path) -> list[pathlib.Path]:
    """Writes what Sphinx reads, and gives the pages that the site has to have."""
    sources = Sources(top, folder)
    listed = [*groups(top)]
    pages = [page for group in listed for page in group.pages]
    for page in pages:
        sources.add_page(top / page)
    sources.write(pathlib.Path('index.md'), index(listed))
    sources.write(pathlib.Path('conf.py'), CONFIG)
    return pages


def lost_links(site: pathlib.Path) -> Iterator[str]:
    """The links of a site that lead to no file of it, or to no place of a page."""
    pages = {page: page.read_text(encoding='utf-8') for page in sorted(site.rglob('*.html'))}
    places = {page: {*ID.findall(text), ''} for page, text in pages.items()}
    for page, text in pages.items():
        for target, place in HREF.findall(text):
            if '://' in target or target.startswith(('mailto:', 'data:')):
                continue
            file = pathlib.Path(os.path.normpath(page.parent / unquote(target))) if target else page
            if not file.exists() or (file in places and unquote(place) not in places[file]):
                yield f'{page.relative_to(site)}: {target}#{place}'


def build(top: pathlib.Path, site: pathlib.Path, runner: str, count: Count) -> None:
    """Builds the site of a repository, and checks it."""
    with tempfile.TemporaryDirectory() as place:
        folder = pathlib.Path(place) / 'pages'
        pages = write_sources(top, folder)
        words = [runner, '-m', 'sphinx', '-q', '-W', '--keep-going', '-b', 'html', '-d', f'{place}/kept', str(folder), str(site)]
        ran = common.run(words, seconds=SECONDS)
    said = (ran.stdout + ran.stderr).decode(errors='replace').strip()
    count.expect(f'Sphinx ended with status {ran.status}: {said}', ran.status == 0 and not said)
    for page in pages:
        count.expect(f'the site lacks {page}', (site / page.with_suffix('.html')).is_file())
    count.expect('the site has no search', (site / 'search.html').is_file() and (site / 'searchindex.js').is_file())
    lost = [*lost_links(site)]
    for link in lost:
        count.expect(f'a link leads to no file: {link}', False)
    count.add(passed=int(not lost))


def main() -> None:
    parser = common.asking(__doc__)
    parser.add_argument('folder', nargs='?', type=pathlib.Path, metavar='FOLDER', help='where the site is written [default: a temporary folder]')
    asked = parser.parse_args()
    count = Count()
    runner = python()
    if asked.folder and asked.folder.exists() and any(asked.folder.iterdir()):
        common.stop(f'{asked.folder} is not empty')
    if runner is None:
        count.skip('Sphinx or MyST is not installed')
    elif asked.folder:
        build(TOP, asked.folder, runner, count)
    else:
        with tempfile.TemporaryDirectory() as place:
            build(TOP, pathlib.Path(place) / 'site', runner, count)
    count.end()


if __name__ == '__main__':
    main()
