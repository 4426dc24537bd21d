#!/usr/bin/env python3
"""Checks that what docs/PROVED.md and docs/ARCHITECTURE.md name is in the sources: clauses of contracts, functions, definitions and files.

A citation is `CRATE::FUNCTION` or `CRATE::TYPE::FUNCTION`, and then the names of its clauses in parentheses. The function has to be in the crate and its
contract has to have each of these clauses; without names it has to have one clause, which has no name. A clause is an `ensures` of the function, or a
`ghost` item of the block that implements its trait. Each row of a table whose last column is `Carried by` has to cite something.

A name in code that is a link to a file of this repository has to be a word of that file, or the file's name."""
from __future__ import annotations

import pathlib
import re
import sys
from collections.abc import Iterator, Sequence
from typing import NamedTuple

sys.dont_write_bytecode = True
sys.path[0] = str(pathlib.Path(__file__).resolve().parents[2])
from checks import common
from checks.common import TOP, Count

PAGES = (TOP / 'docs' / 'PROVED.md', TOP / 'docs' / 'ARCHITECTURE.md')
CARRIED = 'Carried by'

CITATION = re.compile(r'`([a-z]\w*)::((?:\w+::)?\w+)`(?: \((`\w+`(?:, `\w+`)*)\))?')
PLACE = re.compile(r'\[`([^`\]]+)`\]\(([^)#\s]+)\)')

FUNCTION = re.compile(r'(\s*)(?:pub(?:\([a-z]+\))? )?(?:(?:const|unsafe|extern "C") )*fn (\w+)')
CLAUSE = re.compile(r'\s*ensures(?: (\w+))? \{')
GHOST = re.compile(r'    ghost (\w+) = ')
BLOCK = re.compile(r'(?:impl|(?:pub(?:\([a-z]+\))? )?trait)\b')


class Citation(NamedTuple):
    """A function that a page names, and the clauses of it."""

    crate: str
    function: str
    clauses: tuple[str, ...]

    def __str__(self) -> str:
        return f'{self.crate}::{self.function}' + (f' ({", ".join(self.clauses)})' if self.clauses else '')


class Contract(NamedTuple):
    """The clauses of a function; the name of one without a name is empty."""

    function: str
    clauses: tuple[str, ...]
    of_block: tuple[str, ...]


# ---- sources


def without_parameters(text: str) -> str:
    """A line without what stands in angle brackets."""
    before = ''
    while before != text:
        before, text = text, re.sub(r'<[^<>]*>', '', text.replace('->', ''))
    return text


def type_of(line: str) -> str:
    """The type that a block is of, or the trait that it declares."""
    words: list[str] = re.findall(r'[\w:]+', without_parameters(line).partition(' where')[0].partition('{')[0])
    if 'trait' in words:
        return words[words.index('trait') + 1].rstrip(':')
    return words[-1].rpartition('::')[2]


def clauses_from(lines: Sequence[str], first: int) -> tuple[str, ...]:
    """The names of the clauses of a function, which begin below its first line."""
    names = list[str]()
    for line in lines[first:]:
        if clause := CLAUSE.match(line):
            names.append(clause[1] or '')
        elif not line.strip() or line.strip() in ('{', '{}') or line.endswith(' {') and not names:
            break
    return tuple(names)


def contracts_in(text: str) -> Iterator[Contract]:
    lines = text.splitlines()
    block, ghosts = '', list[str]()
    for number, line in enumerate(lines):
        if BLOCK.match(line):
            block, ghosts = type_of(line), []
        elif line.startswith('}'):
            block, ghosts = '', []
        elif ghost := GHOST.match(line):
            ghosts.append(ghost[1])
        elif found := FUNCTION.match(line):
            name = f'{block}::{found[2]}' if found[1] and block else found[2]
            yield Contract(name, clauses_from(lines, number), tuple(ghosts))


def contracts_of(crate: pathlib.Path) -> dict[str, list[Contract]]:
    """The functions of a crate, by name."""
    found: dict[str, list[Contract]] = {}
    for path in sorted((crate / 'src').rglob('*.rt')):
        for contract in contracts_in(path.read_text(encoding='utf-8')):
            found.setdefault(contract.function, []).append(contract)
    return found


def has(contract: Contract, clauses: Sequence[str]) -> bool:
    """Whether a contract has these clauses, or, if there are none, one alone and without a name."""
    return set(clauses) <= {*contract.clauses, *contract.of_block} if clauses else contract.clauses == ('',)


class Sources:
    """The contracts of crates, each read once."""

    def __init__(self, crates: pathlib.Path) -> None:
        self.crates = crates
        self.known: dict[str, dict[str, list[Contract]]] = {}

    def wrong(self, citation: Citation) -> str | None:
        """What is wrong with a citation."""
        if citation.crate not in self.known:
            self.known[citation.crate] = contracts_of(self.crates / citation.crate)
        named = self.known[citation.crate].get(citation.function, [])
        if not named:
            return f'{citation}: there is no such function'
        if not any(has(contract, citation.clauses) for contract in named):
            return f'{citation}: its clauses are {[name or "one without a name" for name in named[0].clauses]}'
        return None


# ---- pages


def citations_in(text: str) -> list[Citation]:
    return [Citation(crate, function, tuple(re.findall(r'\w+', clauses))) for crate, function, clauses in CITATION.findall(text)]


def claims_in(text: str) -> Iterator[str]:
    """The rows of the tables of claims."""
    for table in re.findall(rf'^\|[^\n]*\| {CARRIED} \|\n\|[-|]+\|\n((?:\|.*\n)+)', text, re.M):
        yield from table.splitlines()


def is_in(name: str, target: pathlib.Path) -> bool:
    """Whether a file has this name, or this word."""
    if not target.exists() or name in (target.name, target.stem):
        return target.exists()
    return target.is_file() and re.search(rf'(?<!\w){re.escape(name)}(?!\w)', target.read_text(encoding='utf-8', errors='replace')) is not None


def try_page(page: pathlib.Path, sources: Sources, count: Count) -> None:
    text = page.read_text(encoding='utf-8')
    for citation in citations_in(text):
        wrong = sources.wrong(citation)
        count.expect(f'{page.name}: {wrong}', wrong is None)
    for row in claims_in(text):
        count.expect(f'{page.name}: a claim that cites nothing: {row}', bool(citations_in(row)))
    for name, target in PLACE.findall(text):
        count.expect(f'{page.name}: {target} has no {name}', '://' in target or is_in(name, page.parent / target))


def main() -> None:
    common.asking(__doc__).parse_args()
    count, sources = Count(), Sources(TOP / 'crates')
    for page in PAGES:
        try_page(page, sources, count)
    count.end()


if __name__ == '__main__':
    main()
