#!/usr/bin/env python3
"""Checks that each link of the pages leads to a file of the repository, and to a heading or a mark of it if it names one.

Links to other sites are not followed. The pages are all files NAME.md, those of crates too. A heading is named as GitHub does: small letters, digits,
`_` and `-`, with a `-` for each blank, and a number if it is there twice. A mark is the `id` of an HTML element."""
from __future__ import annotations

import functools
import os
import pathlib
import re
import sys
from collections.abc import Iterator

sys.dont_write_bytecode = True
sys.path[0] = str(pathlib.Path(__file__).resolve().parents[2])
from checks import common
from checks.common import TOP, Count

# folders that are no part of the repository
OTHERS = {'.git', 'out', 'node_modules'}
CODE = re.compile(r'^```.*?^```|`[^`\n]*`', re.M | re.S)
LINK = re.compile(r'\[(?:[^\[\]]|\[[^\]]*\])*\]\(([^)\s]+)\)')
HEADING = re.compile(r'^#{1,6} +(.*?) *$', re.M)
MARK = re.compile(r'<\w+ [^>]*\bid="([^"]+)"')


def prose(text: str) -> str:
    """A page without its code, line by line."""
    return CODE.sub(lambda found: '\n' * found[0].count('\n') if found[0].startswith('```') else 'code', text)


def name_of(heading: str) -> str:
    """The name of a heading in links."""
    words = re.sub(r'\[([^\]]*)\]\([^)]*\)', r'\1', heading).replace('`', '').lower()
    return re.sub(r'[^\w\- ]', '', words).replace(' ', '-')


@functools.cache
def names_in(page: pathlib.Path) -> frozenset[str]:
    """What a link may name in a page: its headings and its marks."""
    text = page.read_text(encoding='utf-8')
    names = set(MARK.findall(text))
    seen: dict[str, int] = {}
    for heading in HEADING.findall(re.sub(r'^```.*?^```', '', text, flags=re.M | re.S)):
        name = name_of(heading)
        many = seen[name] = seen.get(name, -1) + 1
        names.add(f'{name}-{many}' if many else name)
    return frozenset(names)


def links_in(text: str) -> Iterator[tuple[int, str]]:
    """The targets of the links of a page, with their lines."""
    plain = prose(text)
    for found in LINK.finditer(plain):
        yield plain.count('\n', 0, found.start(1)) + 1, found[1]


def wrong(page: pathlib.Path, target: str) -> str | None:
    """What is wrong with a link."""
    if '://' in target or target.startswith('mailto:'):
        return None
    path, _, name = target.partition('#')
    file = (page.parent / path).resolve() if path else page
    if not file.exists():
        return f'there is no {path}'
    if name and file.suffix == '.md' and name not in names_in(file):
        return f'{file.name} has no heading {name}'
    return None


def pages(top: pathlib.Path) -> list[pathlib.Path]:
    """The pages below a folder. The folders of others are not entered: what is in them may change meanwhile."""
    found = []
    for folder, folders, files in os.walk(top):
        folders[:] = [name for name in folders if name not in OTHERS]
        found += [pathlib.Path(folder, name) for name in files if name.endswith('.md')]
    return sorted(found)


def try_page(page: pathlib.Path, top: pathlib.Path, count: Count) -> None:
    found = [(line, target, why) for line, target in links_in(page.read_text(encoding='utf-8')) if (why := wrong(page, target))]
    for line, target, why in found:
        count.expect(f'{page.relative_to(top)}:{line}: {target}: {why}', False)
    count.add(passed=int(not found))


def main() -> None:
    common.asking(__doc__).parse_args()
    count = Count()
    for page in pages(TOP):
        try_page(page, TOP, count)
    count.end()


if __name__ == '__main__':
    main()
