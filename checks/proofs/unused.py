#!/usr/bin/env python3
"""Lists public functions that nothing outside their crate reaches, and laws and lemmas that nothing cites; each of them needs a reason.

A public function or method is reached if a crate that names its crate in crates.txt, or one that hands it on by `pub use`, imports it, or names it after
`::`, or calls a method of its name; one of the library for C, if include/ has its name. A law is a public function with an empty body, whose contract is what it says: it is cited if
another place of the sources, README.md or a page of docs/ names it or its statement in specs/laws. A lemma is a public one in proofs/; it is cited if its own file, another proof, a definition or a source names
it outside of its own text, after an import of its file or by its path. Answers.antt and Invariants.antt are left out, since the prover reads them by
their names, and so are test crates and main.rt.

checks/proofs/unused.csv has the reason of each that is left. It fails for one without a reason, and for a reason whose function or lemma is used, or
gone. With --list it lists all of them with their reasons. The last line is 'N passed, M failed'."""
from __future__ import annotations

import collections
import csv
import pathlib
import re
import sys
from collections.abc import Iterator, Mapping, Sequence
from typing import NamedTuple

sys.dont_write_bytecode = True
sys.path[0] = str(pathlib.Path(__file__).resolve().parents[2])
from checks import common
from checks.common import TOP, Count
from checks.proofs import edits_table

TABLE = TOP / 'checks' / 'proofs' / 'unused.csv'
TESTS = 'mcs_tests_'
# files whose lemmas the prover reads by their names
BY_NAME = ('Answers.antt', 'Invariants.antt')
NOT_CODE = re.compile(r'//[^\n]*|"(?:\\.|[^"\\])*"')
FUNCTION = re.compile(r'^([ \t]*)pub (?:const |unsafe |extern "" )*fn (\w+)', re.M)
# a law: no argument and nothing between the braces of its body
LAW = re.compile(r'^pub fn (\w+)\(\)((?:\s*(?:ensures|requires)[^;{}]*\{[^{}]*\})+)\s*\{\}', re.M)
LEMMA = re.compile(r'^( *)pub ([^\s:(){}]+) :', re.M)
IMPORT = re.compile(r'^\s*(?:pub )?(?:ghost )?use ([\w.]+?)(?:\.\{([^}]*)\}| as (\w+))?;?$', re.M)
PATH = re.compile(r'\b\w+::proofs::[\w:]+')
TOKEN = re.compile(r'[^\s(){}\[\],;.]+')
TREE = re.compile(r'\buse ([^;]+);')


class Item(NamedTuple):
    """A public function, law or lemma, and what it is."""

    crate: str
    kind: str
    name: str


class Source(NamedTuple):
    """A file of a crate: its place in it, and its text without comments and texts in quotes."""

    crate: str
    place: str
    text: str

    @property
    def path(self) -> str:
        """The path by which others import it."""
        return f'Rattle.{self.crate}.{self.place.removesuffix(".antt").replace("/", ".")}'


def code_of(path: pathlib.Path) -> str:
    """The text of a source without comments and texts in quotes."""
    text = path.read_text(encoding='utf-8')
    if path.suffix == '.antt':
        return re.sub('--.*', '', text) if '--' in text else text
    return NOT_CODE.sub(lambda found: '""' if found[0].startswith('"') else '', text)


class Sources:
    """The crates of a checkout, with what they have."""

    def __init__(self, top: pathlib.Path) -> None:
        self.needs = edits_table.below((top / 'crates.txt').read_text(encoding='utf-8'))
        self.files: list[Source] = []
        for crate in self.needs:
            folder = top / 'crates' / crate
            self.files += [Source(crate, str(path.relative_to(folder)), code_of(path)) for path in edits_table.files_of(folder)]
        pages = [path.read_text(encoding='utf-8') for path in [top / 'README.md', *sorted((top / 'docs').glob('*.md'))]]
        self.on_pages = {word for page in pages for word in re.findall(r'\w+', page)}
        self.headers = '\n'.join(path.read_text(encoding='utf-8') for path in sorted((top / 'include').glob('*')) if path.is_file())

    def of(self, crate: str, ending: str) -> list[Source]:
        return [file for file in self.files if file.crate == crate and file.place.endswith(ending)]

    def above(self, crate: str) -> list[str]:
        """The crates that name a crate, or one that hands on what is public in it."""
        given = {crate} | {file.crate for file in self.files if f'pub use {crate}::' in file.text}
        return [name for name, needs in self.needs.items() if given.intersection(needs)]


# ---- public functions


def last_names(tree: str) -> Iterator[str]:
    """The names that a `use` brings, of its tree of braces."""
    for name in re.findall(r'\w+(?= *(?:[,};]|$))|\w+(?= as )', tree):
        yield name


class Reached:
    """What the sources of a crate reach of others: names after `use` and `::`, and methods that they call."""

    def __init__(self, files: Sequence[Source]) -> None:
        self.names: set[str] = set()
        for file in files:
            for tree in TREE.findall(file.text):
                self.names.update(last_names(tree))
            self.names.update(re.findall(r'(?:::|\.)\s*(\w+)', TREE.sub('', file.text)))


def functions(files: Sequence[Source]) -> Iterator[str]:
    """The public functions of a crate, without laws."""
    for file in files:
        laws = dict(LAW.findall(file.text))
        yield from (name for _, name in FUNCTION.findall(file.text) if name not in laws and not file.place.endswith('main.rt'))


def unreached(sources: Sources) -> Iterator[Item]:
    reached = {crate: Reached(sources.of(crate, '.rt')) for crate in sources.needs}
    headers = set(re.findall(r'\w+', sources.headers))
    for crate in sources.needs:
        if crate.startswith(TESTS):
            continue
        outside = set().union(headers, *(reached[name].names for name in sources.above(crate)))
        yield from (Item(crate, 'function', name) for name in dict.fromkeys(functions(sources.of(crate, '.rt'))) if name not in outside)


# ---- laws and lemmas


def statements(sources: Sources, crate: str, contract: str) -> set[str]:
    """The definitions of a crate's laws that the contract of a law names."""
    laws = [file.text for file in sources.of(crate, '.antt') if file.place.startswith('specs/laws/')]
    return {name for name in re.findall(r'\b[A-Z]\w+', contract) if any(re.search(rf'^(?:abbrev |pub |\s)*{name} :', text, re.M) for text in laws)}


def uncited_laws(sources: Sources) -> Iterator[Item]:
    """Laws that neither another place of the sources nor a page names, by themselves or by what they state."""
    words: collections.Counter[str] = collections.Counter()
    for file in sources.files:
        if file.place.endswith('.rt'):
            # (an export is no use)
            words.update(re.findall(r'\w+', TREE.sub('', file.text)))
    for crate in sources.needs:
        for name, contract in (law for file in sources.of(crate, '.rt') for law in LAW.findall(file.text)):
            if words[name] < 2 and not sources.on_pages & {name, *statements(sources, crate, contract)}:
                yield Item(crate, 'law', name)


def is_worked(file: Source) -> bool:
    """Whether a file has worked values, which are there to be proved and not to be cited."""
    return file.crate == 'mcs_worked' or file.place.rpartition('/')[2].startswith('Worked')


def own_text(text: str, start: int, indent: str, name: str) -> tuple[int, int]:
    """The span of a lemma: its type and its equations, which are indented further or begin with its name."""
    end = len(text)
    at = text.find('\n', start) + 1 or end
    while at < end:
        stop = text.find('\n', at) + 1 or end
        line = text[at:stop]
        goes_on = not line.strip() or line.startswith(f'{indent} ') or re.match(rf'{indent}{re.escape(name)}[\s(={{]', line)
        if not goes_on:
            return start, at
        at = stop
    return start, end


def cited_by(file: Source) -> Iterator[tuple[str, str]]:
    """The lemmas of other files that a file imports (rt tidy drops an import that it does not use) or names by their paths."""
    for path, names, short in IMPORT.findall(file.text):
        if '.proofs.' not in path or path.startswith('Rattle.std'):
            continue
        if names:
            yield from ((path, name) for name in re.split(r'[\s,]+', names))
        elif short:
            yield from ((path, name) for name in re.findall(rf'\b{short}\.([^\s(){{}}\[\],;.]+)', file.text))
        else:
            above, _, name = path.rpartition('.')
            yield above, name
    for path in PATH.findall(file.text):
        *parts, name = path.split('::')
        yield '.'.join(['Rattle', file.crate if parts[0] == 'crate' else parts[0], *parts[1:]]), name


def is_uncited(file: Source, found: re.Match[str]) -> bool:
    """Whether a file that has a lemma names it nowhere else. (A field of a record has no equation, and is no lemma.)"""
    start, end = own_text(file.text, found.start(), found[1], found[2])
    text = file.text[start:end]
    has_equation = re.search(rf'^{found[1]}{re.escape(found[2])}[\s(={{]', text, re.M)
    rest = f'{file.text[:start]} {file.text[end:]}'
    return bool(has_equation) and found[2] not in TOKEN.findall(IMPORT.sub('', rest))


def uncited_lemmas(sources: Sources) -> Iterator[Item]:
    cited = {named for file in sources.files for named in cited_by(file)}
    for file in sources.files:
        if not file.place.startswith('proofs/') or file.place.endswith(BY_NAME) or file.crate.startswith(TESTS) or is_worked(file):
            continue
        for found in LEMMA.finditer(file.text):
            if (file.path, found[2]) not in cited and is_uncited(file, found):
                yield Item(file.crate, 'lemma', f'{file.place.removeprefix("proofs/").removesuffix(".antt")}.{found[2]}')


# ---- reasons


def unused(sources: Sources) -> list[Item]:
    return [*unreached(sources), *uncited_laws(sources), *uncited_lemmas(sources)]


def read(table: pathlib.Path) -> dict[Item, str]:
    """The reasons of a table."""
    with table.open(newline='', encoding='utf-8') as file:
        return {Item(row['crate'], row['kind'], row['name']): row['reason'] for row in csv.DictReader(file)}


def judged(found: Sequence[Item], reasons: Mapping[Item, str]) -> Count:
    """Counts what is unused with a reason, and names what has none, and reasons for what is used or gone."""
    count = Count()
    for item in found:
        count.expect(f'{item.crate}: nothing uses the {item.kind} {item.name}, and checks/proofs/unused.csv has no reason for it', bool(reasons.get(item)))
    for item in reasons.keys() - set(found):
        count.expect(f'{item.crate}: the {item.kind} {item.name} is used, or gone: checks/proofs/unused.csv has a reason for it', False)
    return count


def main() -> None:
    parser = common.asking(__doc__)
    parser.add_argument('--list', action='store_true', help='lists what is unused, with its reason')
    is_list = parser.parse_args().list
    found, reasons = unused(Sources(TOP)), read(TABLE)
    if is_list:
        for item in found:
            print(*item, reasons.get(item, ''), sep=',')
    judged(found, reasons).end()


if __name__ == '__main__':
    main()
