#!/usr/bin/env python3
"""Checks that pages and comments are plain English: few conditional `where`, stilted phrases and long sentences, and lines of 100 columns.

STYLE.md has the rules. Each page is held by itself, and so are the comments of each crate's sources and its page. A sentence breaks a rule if it has the
word `where`, which is for places; if it has a phrase of STILTED; if it begins with a word of OPENINGS; or if it has more than 30 words. A page may have
two of each kind in 1,000 words, and 2 % of long sentences; one of each is always allowed. Long sentences of crates are not counted.

A line has at most 100 columns. Tables, blocks of code, headings, pictures and HTML comments are left out, and so are the targets of links and a line
that is one piece of code. Of CHANGELOG.md the newest entry alone is held. What is not rewritten yet stands in EXEMPT.

With PATH (a page, a source, or a crate's folder) these alone are looked at, exempt or not. `--lines` names each sentence and line with the rule that it
breaks, `--figures` writes the figures of each group."""
from __future__ import annotations

import argparse
import pathlib
import re
import sys
from collections.abc import Callable, Iterable, Iterator, Mapping
from typing import NamedTuple

sys.dont_write_bytecode = True
sys.path[0] = str(pathlib.Path(__file__).resolve().parents[2])
from checks import common
from checks.common import TOP, Count

# pages and crates that are not rewritten yet
EXEMPT: frozenset[str] = frozenset()
# written by a script, of comments that are held where they stand
GENERATED = ('docs/BELIEVE.md',)
CHANGES = 'CHANGELOG.md'
PAGES = ('README.md', 'STYLE.md', 'CONTRIBUTING.md', CHANGES, 'bin/README.md', 'checks/README.md', 'docs/*.md', 'examples/*.md')

# for each 1,000 words
EACH = 2
LONG_SHARE = 0.02
LONG_WORDS = 30
COLUMNS = 100
# comments that wait for the next change of their crate, since one there has the crates above proved again
WAITING: Mapping[str, Mapping[str, int]] = {
    'mcs_check: comments': {'wide': 1}, 'mcs_check_forever: comments': {'wide': 1}, 'mcs_check_lines: comments': {'wide': 1},
    'mcs_ever_found: comments': {'stilted': 5},
}
# a cell of a table with fewer words is a name, not a sentence
CELL_WORDS = 4

STILTED = re.compile('|'.join((
    r'\b(?:is|are) told\b', r'\btells? (?:of|that|what|which|whether|how)\b', r'\bwant of memory\b', r'\bso (?:many|much)\b', r'\bwhoever\b', r'\bof which\b',
    r'\bin place of\b', r'\bthat which\b', r'\bcomes? to\b', r'\bgrowth (?:of memory )?(?:is|was) refused\b', r'\b(?:is|are) answered\b',
    r'\banswers? (?:with|that|none|whether|how)\b', r'\bthereby\b', r'\bbehind (?:it|them|the|an?)\b', r'\bno more than\b', r'\bat hand\b',
    r'\bas it (?:stands|was|were)\b', r"\bof (?:its|our|their|one's) own\b", r'\bstands? (?:in|on|for|before|behind)\b', r'\bhas no (?:answer|word)\b', r'\banew\b',
    r'\b(?:is )?to be had\b', r'\bin the words of\b', r'\bby itself\b', r'\bowes?\b', r'\bspeaks? of\b', r'\bsays? (?:so|of|it|this) of\b',
    r'\bnone (?:is|are|of)\b', r'\bnothing (?:is|else|was)\b', r'\bgoes? on\b', r'\bgive[sn]? out\b', r'\bthe (?:lesser|greater) of\b',
    r'\bof a (?:run|core|system) is\b', r'\bmoment 0\b',
)), re.I)
OPENINGS = re.compile(
    r'(?:Of|With|Behind|By|So|That|What|Where|Whose|Whoever|The same|As before|Those of|For so|From|Beside|Below|None|Nor|In place of|To it)\b')
WHERE = re.compile(r'\bwhere\b', re.I)

COMMENT = re.compile(r'\s*//[/!] ?(.*)')
ANY_COMMENT = re.compile(r'\s*//')
BLANKED = re.compile(r'<!--.*?-->|^[ \t]*```.*?^[ \t]*```[^\n]*$', re.M | re.S)
ITEM = re.compile(r'\s*(?:[-*]|\d+\.) +(.*)')
NO_PROSE = ('#', '![')
# a link that stands for itself, a picture, or one piece of code: these have no place to break
NO_BREAK = re.compile(r'(?:\s*(?:[-*] )?`[^`]+`[.,:;]?|\[[^\]]+\]: .*)$')
TARGET = re.compile(r'\]\([^)]*\)')


class Block(NamedTuple):
    """A paragraph, an item of a list or a cell of a table, with the number of its first line."""

    line: int
    text: str


class Broken(NamedTuple):
    """A rule that a sentence or a line breaks."""

    rule: str
    line: int
    what: str
    text: str


class Figures(NamedTuple):
    """What a group of files has."""

    words: int
    sentences: int
    broken: tuple[tuple[pathlib.Path, Broken], ...]

    def many(self, rule: str) -> int:
        return sum(found.rule == rule for _, found in self.broken)


class Group(NamedTuple):
    """Files that are held together: a page, or the comments of a crate."""

    name: str
    files: tuple[pathlib.Path, ...]
    counts_long: bool = True


# ---- what a file has


def newest(text: str) -> str:
    """The head of a page of changes and its first entry."""
    entries = [found.start() for found in re.finditer(r'^## ', text, re.M)]
    return text[:entries[1]] if len(entries) > 1 else text


def of_page(path: pathlib.Path) -> str:
    """The text of a page; blocks of code and HTML comments are lines without text."""
    text = path.read_text(encoding='utf-8')
    return BLANKED.sub(lambda found: '\n' * found[0].count('\n'), newest(text) if path.name == CHANGES else text)


def of_source(path: pathlib.Path) -> str:
    """The doc comments of a source, each at its line."""
    found = (COMMENT.match(line) for line in path.read_text(encoding='utf-8').splitlines())
    return '\n'.join(comment[1] if comment else '' for comment in found)


def prose(path: pathlib.Path) -> str:
    return of_source(path) if path.suffix == '.rt' else of_page(path)


def pieces(text: str) -> Iterator[tuple[int, str]]:
    """The lines of a text with their numbers; an empty one ends a block."""
    for number, line in enumerate(text.splitlines(), 1):
        if line.startswith('|'):
            for cell in line.strip('|').split('|'):
                yield number, cell.strip() if len(cell.split()) >= CELL_WORDS else ''
                yield number, ''
        elif item := ITEM.match(line):
            yield number, ''
            yield number, item[1]
        else:
            yield number, '' if line.startswith(NO_PROSE) else line.strip()


def blocks(text: str) -> Iterator[Block]:
    first, lines = 0, list[str]()
    for number, line in (*pieces(text), (0, '')):
        if line:
            first = first if lines else number
            lines.append(line)
        elif lines:
            yield Block(first, ' '.join(lines))
            lines = []


def sentences(text: str) -> list[str]:
    text = re.sub(r'\[([^\]]*)\]\([^)]*\)', r'\1', re.sub(r'`[^`]*`', 'X', text))
    return [sentence for sentence in re.split(r'(?<=[.!?:;])\s+', text) if len(sentence.split()) > 1]


# ---- rules


def rules_broken(sentence: str) -> Iterator[tuple[str, str]]:
    """The rules that a sentence breaks, each with what breaks it."""
    for word in WHERE.findall(sentence):
        yield 'where', word
    for phrase in STILTED.finditer(sentence):
        yield 'stilted', phrase[0]
    if opening := OPENINGS.match(sentence):
        yield 'opening', opening[0]
    if len(sentence.split()) > LONG_WORDS:
        yield 'long', f'{len(sentence.split())} words'


def is_long(line: str) -> bool:
    """Whether a line of a page has more columns than it may."""
    if line.startswith(('|', *NO_PROSE)) or NO_BREAK.match(line):
        return False
    return len(TARGET.sub(']', line)) > COLUMNS


def wide_lines(path: pathlib.Path) -> Iterator[Broken]:
    if path.suffix == '.rt':
        lines = path.read_text(encoding='utf-8').splitlines()
        wide = [(number, line) for number, line in enumerate(lines, 1) if ANY_COMMENT.match(line) and len(line) > COLUMNS]
    else:
        wide = [(number, line) for number, line in enumerate(of_page(path).splitlines(), 1) if is_long(line)]
    for number, line in wide:
        yield Broken('wide', number, f'{len(line)} columns', line.strip())


def figures(group: Group) -> Figures:
    words, many, broken = 0, 0, list[tuple[pathlib.Path, Broken]]()
    for path in group.files:
        for block in blocks(prose(path)):
            for sentence in sentences(block.text):
                words += len(sentence.split())
                many += 1
                broken += [(path, Broken(rule, block.line, what, sentence)) for rule, what in rules_broken(sentence)]
        broken += [(path, found) for found in wide_lines(path)]
    return Figures(words, many, tuple(broken))


def allowed(group: Group, found: Figures) -> dict[str, int]:
    """How many of each kind a group may have."""
    each = max(1, EACH * found.words // 1000)
    most = {'where': each, 'stilted': each, 'opening': each, 'wide': 0, **WAITING.get(group.name, {})}
    return {**most, 'long': max(1, int(LONG_SHARE * found.sentences))} if group.counts_long else most


def faults(group: Group) -> list[str]:
    found = figures(group)
    return [f'{rule} {found.many(rule)}, at most {most}' for rule, most in allowed(group, found).items() if found.many(rule) > most]


# ---- what is held


def crate_groups(crate: pathlib.Path) -> Iterator[Group]:
    if sources := tuple(sorted((crate / 'src').rglob('*.rt'))):
        yield Group(f'{crate.name}: comments', sources, counts_long=False)
    if (crate / 'README.md').exists():
        yield Group(f'{crate.name}: page', (crate / 'README.md',), counts_long=False)


def pages(top: pathlib.Path) -> list[pathlib.Path]:
    found = (path for form in PAGES for path in sorted(top.glob(form)))
    return [path for path in found if str(path.relative_to(top)) not in GENERATED]


def held(top: pathlib.Path = TOP) -> Iterator[Group]:
    for page in pages(top):
        yield Group(str(page.relative_to(top)), (page,))
    for crate in sorted((top / 'crates').iterdir()):
        yield from crate_groups(crate)


def groups_of(path: pathlib.Path) -> Iterator[Group]:
    """What a path names: a crate's folder, another folder, or a file."""
    if (path / 'src').is_dir():
        yield from crate_groups(path)
    elif path.is_dir():
        for file in sorted(file for file in path.rglob('*') if file.suffix in ('.md', '.rt')):
            yield Group(str(file), (file,))
    else:
        yield Group(str(path), (path,), counts_long=path.suffix != '.rt')


def is_exempt(group: Group) -> bool:
    return group.name.partition(':')[0] in EXEMPT


# ---- what is written


def tell_lines(group: Group) -> None:
    for path, found in figures(group).broken:
        if group.counts_long or found.rule != 'long':
            print(f'{path}:{found.line}: [{found.rule}: {found.what}] {found.text}')


def tell_figures(group: Group) -> None:
    found = figures(group)
    each = ' '.join(f'{rule} {found.many(rule)}' for rule in ('where', 'stilted', 'opening', 'long', 'wide'))
    print(f'{group.name}: words {found.words} sentences {found.sentences} {each}')


def hold(groups: Iterable[Group], count: Count) -> None:
    for group in groups:
        found = faults(group)
        count.expect(f'{group.name}: {"; ".join(found)} (checks/pages/prose.py --lines)', not found)


def unneeded(groups: Iterable[Group]) -> list[str]:
    """What is exempt, and is plain already."""
    bad = {group.name.partition(':')[0] for group in groups if is_exempt(group) and faults(group)}
    return sorted(EXEMPT - bad)


def parsed() -> argparse.Namespace:
    parser = common.asking(__doc__)
    parser.add_argument('paths', nargs='*', type=pathlib.Path, metavar='PATH')
    parser.add_argument('--lines', action='store_true', help='names each sentence and line that breaks a rule')
    parser.add_argument('--figures', action='store_true', help='writes the figures of each group')
    return parser.parse_args()


def main() -> int:
    asked = parsed()
    named = [group for path in asked.paths for group in groups_of(path)]
    groups = named or list(held())
    shown: list[Callable[[Group], None]] = [tell for tell, wanted in ((tell_lines, asked.lines), (tell_figures, asked.figures)) if wanted]
    for tell in shown:
        for group in groups:
            tell(group)
    if shown:
        return 0
    count = Count()
    hold(groups if named else (group for group in groups if not is_exempt(group)), count)
    for name in [] if named else unneeded(groups):
        print(f'{name} is plain already, and needs no exemption')
    count.end()


if __name__ == '__main__':
    sys.exit(main())
