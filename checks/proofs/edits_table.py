#!/usr/bin/env python3
"""Checks the table of wrong bodies, checks/proofs/edits.csv, which `edits.py --table` writes as it tries them, and the numbers of edits on two pages.

The table has a row for each edit of crates/*/must-fail and crates/*/edits that was tried: its crate, its name, what came of it, the CPU seconds, the
goal that refused it, and the digest of the sources on which it was tried. The digest sums src, specs and proofs of the crate and of those
below it, without lines that are a comment alone. A row is stale if the sources have another digest now, or the edit has another text.

A row fails if the prover did not refuse the edit for a goal, and if its edit is gone. Stale rows and edits without a row are counted for each crate;
with --release they fail too, and so does a missing table. README.md and CONTRIBUTING.md say how many edits there are, and how many of them the gate
tries. With --write these numbers are put there, and rows whose edit is gone are dropped; without it such a number or row fails. The last line is
'N passed, M failed'."""
from __future__ import annotations

import collections
import csv
import functools
import hashlib
import os
import pathlib
import re
import sys
import tempfile
from collections.abc import Iterable, Sequence
from typing import NamedTuple

sys.dont_write_bytecode = True
sys.path[0] = str(pathlib.Path(__file__).resolve().parents[2])
from checks import common
from checks.common import TOP, Count

TABLE = TOP / 'checks' / 'proofs' / 'edits.csv'
PLACES = ('edits', 'must-fail')
# the place of the edits that the gate tries
OF_GATE = 'must-fail'
# what may come of an edit that shows what a contract catches
REFUSED = ('refused', 'gave up')
COMMENT = re.compile(rb'\s*(//|--)')


class Counts(NamedTuple):
    """How many edits there are: those that the gate tries, the others, and all."""

    of_gate: int
    others: int
    all: int


# where the pages say these numbers: the words around each, with the number's name in its place
SAYINGS = (
    ('README.md', 'tries {of_gate} of {all} wrong bodies'),
    ('CONTRIBUTING.md', 'tries the {of_gate} edits of `must-fail`'),
    ('CONTRIBUTING.md', 'the other {others} edits'),
)


class Row(NamedTuple):
    """What came of an edit, and on which sources."""

    crate: str
    edit: str
    verdict: str
    seconds: str
    goal: str
    digest: str

    @property
    def name(self) -> str:
        return f'{self.crate}/{self.edit}'


def goal_of(why: str) -> str:
    """The goal that a refusal names, without its place in a file."""
    return re.sub(r'^(note: )?\S+:\d+:\d+: (error: )?', '', why).strip()


def below(crates: str) -> dict[str, list[str]]:
    """The crates of crates.txt, each with the libraries that it names."""
    return {name: needs.split() for name, needs in re.findall(r'^([a-z]\w*)[^:\n]*:(.*)$', crates, re.M)}


def cone(crate: str, known: dict[str, list[str]]) -> list[str]:
    """A crate and those below it that stand here, by name."""
    found, left = set(), [crate]
    while left:
        name = left.pop()
        if name in known and name not in found:
            found.add(name)
            left += known[name]
    return sorted(found)


def without_comments(text: bytes) -> bytes:
    """The lines of a source that are no comment alone."""
    return b'\n'.join(line for line in text.split(b'\n') if not COMMENT.match(line))


def files_of(crate: pathlib.Path) -> list[pathlib.Path]:
    folders = [crate / folder for folder in ('src', 'specs', 'proofs')]
    return sorted(path for folder in folders for path in folder.rglob('*') if path.suffix in ('.rt', '.antt'))


@functools.lru_cache(maxsize=None)
def own_digest(crate: pathlib.Path) -> str:
    """The digest of a crate's own sources."""
    parts = [os.fsencode(path.relative_to(crate)) + b'\0' + without_comments(path.read_bytes()) for path in files_of(crate)]
    return hashlib.sha256(b'\0\0'.join(parts)).hexdigest()


class Sources:
    """The crates of a checkout, and the digests of what an edit of a crate is tried on."""

    def __init__(self, top: pathlib.Path) -> None:
        self.top = top
        self.known = below((top / 'crates.txt').read_text())

    def edits(self) -> dict[str, pathlib.Path]:
        """The file of each edit, by crate and name."""
        found = [edit for place in PLACES for edit in self.top.glob(f'crates/*/{place}/*.edit')]
        return {f'{edit.parent.parent.name}/{edit.stem}': edit for edit in sorted(found)}

    def counts(self) -> Counts:
        """How many edits there are."""
        edits = self.edits().values()
        of_gate = sum(edit.parent.name == OF_GATE for edit in edits)
        return Counts(of_gate, len(edits) - of_gate, len(edits))

    def sums(self, crate: str) -> bytes:
        """The digests of a crate and of those below it."""
        return ' '.join(own_digest(self.top / 'crates' / name) for name in cone(crate, self.known)).encode()

    def of_crate(self, crate: str) -> str:
        """The digest of a crate and those below it, in 16 digits."""
        return hashlib.sha256(self.sums(crate)).hexdigest()[:16]

    def digest(self, crate: str, edit: pathlib.Path) -> str:
        """The digest of an edit, its crate and those below that, in 16 digits."""
        return hashlib.sha256(self.sums(crate) + edit.read_bytes()).hexdigest()[:16]


def read(table: pathlib.Path) -> dict[str, Row]:
    """The rows of a table by crate and edit; none if there is no table."""
    if not table.is_file():
        return {}
    with table.open(newline='') as file:
        return {row.name: row for row in (Row(**each) for each in csv.DictReader(file))}


def write_rows(table: pathlib.Path, fields: Sequence[str], rows: Iterable[tuple[str, ...]]) -> None:
    """Writes a table in order of its rows, whole or not at all."""
    with tempfile.NamedTemporaryFile('w', newline='', dir=table.parent, delete=False) as file:
        writer = csv.writer(file, lineterminator='\n')
        writer.writerow(fields)
        writer.writerows(sorted(rows))
    os.chmod(file.name, 0o644)
    os.replace(file.name, table)


def write(table: pathlib.Path, rows: Iterable[Row]) -> None:
    write_rows(table, Row._fields, rows)


def standing(rows: dict[str, Row], sources: Sources) -> dict[str, Row]:
    """The rows whose edit is there."""
    edits = sources.edits()
    return {name: row for name, row in rows.items() if name in edits}


def by_crate(names: Iterable[str]) -> str:
    """How many edits each crate has among these."""
    counts = collections.Counter(name.split('/')[0] for name in names)
    return ', '.join(f'{crate} {many}' for crate, many in sorted(counts.items()))


def pattern_of(saying: str) -> str:
    """What finds a saying with any numbers, on one line or several."""
    words = re.escape(re.sub(r'\{\w+\}', 'NUMBER', saying)).replace(r'\ ', r'\s+')
    return words.replace('NUMBER', r'(\d[\d,]*)')


def with_counts(page: str, saying: str, counts: Counts) -> str:
    """A page that has the numbers of today in a saying, and its lines as they were."""
    names = re.findall(r'\{(\w+)\}', saying)

    def said(found: re.Match[str]) -> str:
        text = found[0]
        for at, name in reversed([*enumerate(names, 1)]):
            begin, end = (place - found.start() for place in found.span(at))
            text = f'{text[:begin]}{getattr(counts, name):,}{text[end:]}'
        return text

    return re.sub(pattern_of(saying), said, page)


def hold_pages(count: Count, top: pathlib.Path, counts: Counts, is_written: bool) -> None:
    """Holds the numbers of the pages to the edits, or writes them."""
    for name, saying in SAYINGS:
        text = (top / name).read_text(encoding='utf-8')
        if not re.search(pattern_of(saying), text):
            count.expect(f'{name} does not say: {saying}', False)
            continue
        right = with_counts(text, saying, counts)
        if is_written and text != right:
            (top / name).write_text(right, encoding='utf-8')
        wanted = saying.format(**counts._asdict())
        count.expect(f'{name} has other numbers: {wanted}; --write puts them there', is_written or text == right)


def judged(rows: dict[str, Row], sources: Sources, is_release: bool) -> Count:
    """Counts the rows that stand, and names what fails."""
    count = Count()
    edits = sources.edits()
    stale = sorted(name for name, row in rows.items() if name in edits and row.digest != sources.digest(row.crate, edits[name]))
    missing = sorted(edits.keys() - rows.keys())
    for name, row in sorted(rows.items()):
        count.expect(f'{name}: there is no such edit; --write drops its row', name in edits)
        count.expect(f'{name}: {row.verdict}: {row.goal}', row.verdict in REFUSED)
    print(f'{len(edits)} edits, {len(rows) - len(stale)} tried on these sources, {len(stale)} stale, {len(missing)} not tried')
    for what, names in (('stale', stale), ('not tried', missing)):
        if names:
            print(f'{what}: {by_crate(names)}')
    if is_release and not rows:
        count.expect('checks/proofs/edits.csv has no rows: ./test --all-edits writes them', False)
    elif is_release:
        for name in stale + missing:
            count.expect(f'{name}: not tried on these sources', False)
    return count


def main(words: Sequence[str]) -> None:
    parser = common.asking(__doc__)
    parser.add_argument('--release', action='store_true', help='fail if a row is stale or an edit has none')
    parser.add_argument('--write', action='store_true', help='put the numbers of edits on README.md and CONTRIBUTING.md, and drop rows whose edit is gone')
    asked = parser.parse_args(words)
    sources, rows = Sources(TOP), read(TABLE)
    if asked.write:
        rows = standing(rows, sources)
        write(TABLE, rows.values())
    count = judged(rows, sources, asked.release)
    hold_pages(count, TOP, sources.counts(), asked.write)
    count.end()


if __name__ == '__main__':
    main(sys.argv[1:])
