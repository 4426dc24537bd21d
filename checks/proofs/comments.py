#!/usr/bin/env python3
"""Checks that comments on items and fields are doc comments; with --write, makes them so.

The rule is: `///` on each item and field that needs a word, whoever sees it, and `//` inside bodies alone. An item is a function, a type, a trait, a constant
or a block of an `impl`; a field is that of a struct or a variant. Each file of crates/*/src counts as one try."""
from __future__ import annotations

import argparse
import pathlib
import re
import sys
from collections.abc import Iterator, Sequence

sys.dont_write_bytecode = True
sys.path[0] = str(pathlib.Path(__file__).resolve().parents[2])
from checks.common import TOP, Count

PLAIN = re.compile(r'(\s*)//(?![/!])')
ITEM = re.compile(r'\s*(?:pub(?:\([a-z]+\))? )?(?:(?:const |unsafe )*fn|struct|enum|trait|const|static|type|impl|mod)\b')
FIELD = re.compile(r'\s*(?:pub(?:\([a-z]+\))? )?[a-z_][a-z0-9_]*: \S.*$')
# what holds items, and what holds fields: a type, or a variant of one
HOLDS_ITEMS = re.compile(r'(?:pub(?:\([a-z]+\))? )?(?:impl|trait|mod)\b')
TYPE = re.compile(r'(?:pub(?:\([a-z]+\))? )?(?:struct|enum)\b')
VARIANT = re.compile(r'[A-Z]\w* \{')


def indent(line: str) -> int:
    return len(line) - len(line.lstrip())


def holder(lines: Sequence[str], number: int) -> int | None:
    """The number of the line that opens the block in which a line stands, or None at the top of a file."""
    depth = indent(lines[number])
    for above in range(number - 1, -1, -1):
        line = lines[above].strip()
        # where the head of a block has many lines, its first one opens it
        if depth and line and indent(lines[above]) < depth and not line.startswith(('{', '}', ')', 'where', 'requires', 'ensures')):
            return above
    return None


def has_fields(lines: Sequence[str], opens: int) -> bool:
    line = lines[opens].strip()
    if VARIANT.match(line):
        outer = holder(lines, opens)
        return outer is not None and TYPE.match(lines[outer].strip()) is not None
    return TYPE.match(line) is not None


def plain_comments(lines: Sequence[str]) -> Iterator[range]:
    """The numbers of the lines of each comment that should be a doc comment."""
    number = 0
    while number < len(lines):
        first = number
        while number < len(lines) and PLAIN.match(lines[number]):
            number += 1
        past, told = number, number
        while told < len(lines) and lines[told].strip().startswith('#['):
            told += 1
        if past > first and told < len(lines):
            opens = holder(lines, told)
            item = ITEM.match(lines[told]) and (opens is None or HOLDS_ITEMS.match(lines[opens].strip()))
            field = FIELD.match(lines[told]) and opens is not None and has_fields(lines, opens)
            if item or field:
                yield range(first, past)
        number = max(number, first + 1)


def mended(lines: list[str]) -> list[str]:
    for comment in plain_comments(lines):
        for number in comment:
            lines[number] = PLAIN.sub(r'\1///', lines[number], count=1)
    return lines


def main() -> None:
    parser = argparse.ArgumentParser(description=__doc__, formatter_class=argparse.RawDescriptionHelpFormatter)
    parser.add_argument('--write', action='store_true', help='makes each of them a doc comment')
    asked = parser.parse_args()
    count = Count()
    for path in sorted(pathlib.Path(TOP).glob('crates/*/src/**/*.rt')):
        lines = path.read_text().split('\n')
        if asked.write:
            path.write_text('\n'.join(mended(list(lines))))
            lines = path.read_text().split('\n')
        found = [comment.start + 1 for comment in plain_comments(lines)]
        count.expect('\n'.join(f'{path.relative_to(TOP)}:{line}: a comment on an item or a field begins with ///' for line in found), not found)
    count.end()


if __name__ == '__main__':
    main()
