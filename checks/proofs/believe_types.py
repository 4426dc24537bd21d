"""Types and traits of src/, and the types of specs/, as rows of a table: one row for each type, each variant of which something is said, and each promise of a trait."""
from __future__ import annotations

import re
from collections.abc import Iterable, Iterator, Sequence
from typing import NamedTuple

from checks.proofs.believe_definitions import Definition, indent_of, is_source
from checks.proofs.believe_text import split_outside

HEAD = '| Type, variant | What it is |\n|---|---|\n'
# the head of a type: its name, and the name with the types that it takes
DECLARED = re.compile(r'(?:pub(?:\(\w+\))? )?(struct|enum|trait) ((\w+)(?:<.*?>)?)(.*)')
# the head of a type of specs/; what takes values, or stands in a module that does, is a claim
OF_SPECS = re.compile(r'pub (record|data) (\w+) : Type 0 where$')
# how contracts see a type
SEEN = re.compile(r'ghost (Value|view|invariant) = \{ (.*?) \};')
ROW = re.compile(r'^\| \[`(\w+)[^`]*`\]\(\.\./crates/([^)]*)\)', re.M)


def is_type(definition: Definition) -> bool:
    """Whether the page has this as a row of its table."""
    return is_source(definition.place) or bool(OF_SPECS.match(definition.lines[0]))


class Member(NamedTuple):
    """A field, a variant or a promise of a trait: its text on one line, and what is said of it."""

    text: str
    said: str


def joined(lines: Iterable[str]) -> str:
    """The text of several lines on one."""
    return ' '.join(' '.join(lines).split()).replace('( ', '(').replace(', )', ')').replace(', }', ' }')


def small(text: str) -> str:
    """A text that goes on where a sentence began."""
    return text[:1].lower() + text[1:] if text[1:2].islower() or text[1:2] == ' ' else text


def members_of(lines: Sequence[str]) -> Iterator[Member]:
    """The members of the lines between the braces of a type or a trait."""
    said: list[str] = []
    text: list[str] = []
    depth = indent_of(lines[0]) if lines else 0
    for at, line in enumerate(lines):
        if line.lstrip().startswith(('//', '--')):
            said.append(line.strip().lstrip('/-').strip())
            continue
        text.append(line)
        following = next((other for other in lines[at + 1:] if not other.lstrip().startswith(('//', '--'))), None)
        if following is None or (indent_of(following) == depth and not following.lstrip().startswith('}')):
            yield Member(joined(text).rstrip(',;'), ' '.join(said))
            said, text = [], []


def cell(text: str) -> str:
    """A text as a cell of a table has it."""
    return text.replace('|', '\\|')


# what a comment says of how contracts see a type: the row says it in full
SEES = re.compile(r' ?Contracts see [^.]*\.')


def view_of(model: Sequence[str]) -> str:
    """How contracts see a type, as a sentence."""
    seen = dict(SEEN.findall(joined(model)))
    said = ''
    if 'view' in seen:
        value = f' {as_code(seen["Value"])}:' if 'Value' in seen else ''
        said = f' Contracts see{value} {as_code(seen["view"].removeprefix("λ a. "))}.'
    if 'invariant' in seen:
        said += f' Each value meets {as_code(seen["invariant"].removeprefix("λ a. "))}.'
    return said


def as_code(text: str) -> str:
    return f'`{text}`'


def promises(member: Member) -> bool:
    """Whether a member of a trait is of use to a contract."""
    return member.text.startswith('ghost') or 'ensures' in member.text or 'requires' in member.text


def sentence(text: str) -> str:
    """A text as a sentence."""
    begun = text[:1].upper() + text[1:]
    return begun if not text or text.endswith('.') else f'{begun}.'


def split(definition: Definition) -> tuple[list[str], list[str]]:
    """The lines between the braces of a type, and those of how contracts see it."""
    lines = list(definition.lines)
    own = next((at for at, line in enumerate(lines) if at and line.startswith('impl')), len(lines))
    body = lines[1:own]
    return [line for line in body if line != '}'], lines[own:]


def rust_like(definition: Definition) -> Definition:
    """A type of specs/ as src/ would write it."""
    found = OF_SPECS.match(definition.lines[0])
    if not found:
        return definition
    kind, name = found.groups()
    lines = [as_field(line) if kind == 'record' else as_variant(line) for line in definition.lines[1:]]
    return definition._replace(lines=(f'{"struct" if kind == "record" else "enum"} {name} {{', *lines, '}'))


def as_field(line: str) -> str:
    """A field of a type of specs/."""
    return line if line.lstrip().startswith('--') else line.replace('pub ', '', 1).replace(' :', ':', 1)


def as_variant(line: str) -> str:
    """A variant of a type of specs/."""
    if line.lstrip().startswith('--'):
        return line
    name, _, kind = line.partition(' : ')
    holds = split_outside(kind, '→')[:-1]
    return f'{name}({", ".join(holds)})' if holds else name


def rows_of(definition: Definition, said: str) -> Iterator[str]:
    """The rows of a type or a trait, of which this is said."""
    definition = rust_like(definition)
    found = DECLARED.match(definition.lines[0])
    assert found, definition.place
    kind, name, bare, rest = found.groups()
    body, model = split(definition)
    members = [*members_of(body)]
    seen = view_of(model)
    said = SEES.sub('', said) if seen else said
    link = f'[`{name}`](../crates/{definition.place.file})'
    if kind == 'struct':
        fields = [member.text.removeprefix('pub ') for member in members]
        shape = f'{{ {", ".join(fields)} }}' if fields else rest.rstrip(';').replace('pub ', '')
        told = ' '.join(f'{as_code(field.partition(":")[0])}: {small(sentence(member.said))}' for field, member in zip(fields, members) if member.said)
        yield row(f'{link} {as_code(shape)}' if shape else link, f'{sentence(said)} {told}'.strip() + seen)
        return
    silent = [member.text for member in members if kind == 'enum' and not member.said]
    yield row(f'{link} {as_code(" | ".join(silent))}' if silent else link, sentence(said) + seen)
    for member in members:
        if kind == 'enum' and member.said:
            yield row(as_code(f'{bare}.{member.text}'), sentence(member.said))
        elif kind == 'trait' and promises(member):
            text = member.text.removeprefix('ghost ')
            told = member.said or 'A value for contracts: each type with this trait defines it.'
            yield row(as_code(f'{bare}: {text}'), sentence(told))


def row(first: str, second: str) -> str:
    return f'| {cell(first)} | {cell(second)} |'


def types_in(region: str) -> Iterator[tuple[str, str]]:
    """The types of which a region has a row: the file and the name of each."""
    return ((file, name) for name, file in ROW.findall(region))
