#!/usr/bin/env python3
"""Checks that docs/mcsim.schema.json, which editors read, accepts and refuses what the program does, on some 8,000 changed examples.

Each example and each worked system that the program accepts is valid by the schema. Then each example, and some worked systems of version 3, are changed
in one place: a required key is
taken out, a key is added, a value becomes one of another kind, or one past an end of its range. Whatever the program refuses for that, the schema
refuses too. What a schema cannot say stays with the program alone: how values fit one another (a core within `cores`, a budget within its period,
names that are defined once, a wait that is not last, dates that rise), and that 1.0 is no integer.

It needs the Python package jsonschema (Debian's python3-jsonschema); without it all of it is skipped."""
from __future__ import annotations

import copy
import json
import pathlib
import sys
from collections.abc import Callable, Iterator
from typing import Any, cast

sys.dont_write_bytecode = True
sys.path[0] = str(pathlib.Path(__file__).resolve().parents[2])
from checks import common
from checks.common import DATA, TOP, Count

try:
    import jsonschema
    import tomllib
except ImportError as lacking:
    LACKING: str | None = lacking.name
else:
    LACKING = None

SCHEMA = json.loads((TOP / 'docs' / 'mcsim.schema.json').read_text())
TABLES = ('context', 'note', 'thread', 'order', 'link', 'server', 'source', 'chain')
# systems of version 3 that are changed: together they have a server, sources and a chain
CHANGED = ('at_and_count', 'chain_of_two_cores', 'handlers_of_a_server')
# the line with which an example begins, by its folder
BOUND = {
    DATA / 'examples': '#:schema ../../../../docs/mcsim.schema.json',
    TOP / 'examples' / 'systems': '#:schema ../../docs/mcsim.schema.json',
    TOP / 'docs': '#:schema mcsim.schema.json',
}
# a value of each kind
KINDS = {'boolean': True, 'number': 1.5, 'string': 'x!', 'array': [], 'object': {}}
MOST_ITEMS = 1024
MOST_ROWS = 4096

System = dict[str, Any]
Part = dict[str, Any]


def text_of(value: object) -> str:
    """A value as TOML, tables inline."""
    if isinstance(value, dict):
        return '{' + ', '.join(f'{key} = {text_of(inner)}' for key, inner in value.items()) + '}'
    if isinstance(value, list):
        return '[' + ', '.join(map(text_of, value)) + ']'
    return json.dumps(value)


def definition(part: Part) -> Part:
    if '$ref' not in part:
        return part
    found: Part = SCHEMA['definitions'][part['$ref'].rsplit('/', 1)[1]]
    return found


def resolved(part: Part) -> Part:
    """A part of the schema with what it refers to."""
    for inner in part.get('allOf', [part]):
        part = part | definition(inner)
    return part


def wrong_values(part: Part) -> Iterator[object]:
    """Values that this part of the schema is to refuse: of other kinds, and past the ends of its range."""
    part = resolved(part)
    yield from (value for kind, value in KINDS.items() if kind != part['type'])
    if part['type'] == 'integer':
        least, most = (part['minimum'], part['maximum']) if 'minimum' in part else (min(part['enum']), max(part['enum']))
        yield from (least - 1, most + 1)
    elif part['type'] == 'string':
        yield from (1, '', 'x!', 'x' * 33, 'ü')
    elif part['type'] == 'array':
        is_numbers = definition(part['items'])['type'] == 'integer'
        yield from [1, ['x'], *([[-1], [1.5], [True], [[0]], [2**40], [0, 0]] if is_numbers else [[1]])]
        if 'minItems' in part:
            yield []


# a place of a system: its name, its part of the schema, and what finds its table in a system
Place = tuple[str, Part, Callable[[System], System]]


def row_of(table: str, row: int) -> Callable[[System], System]:
    return lambda whole: cast(System, whole[table][row])


def places_of(system: System) -> Iterator[Place]:
    yield 'top', SCHEMA, lambda whole: whole
    for table in TABLES:
        for row in range(len(system.get(table, []))):
            yield f'{table} {row + 1}', SCHEMA['definitions'][table], row_of(table, row)


def changed(system: System, place: Place, change: Callable[[System], object]) -> System:
    """A copy of the system that is changed in this place."""
    other = copy.deepcopy(system)
    change(place[2](other))
    return other


def changes_in(system: System, place: Place) -> Iterator[tuple[str, System]]:
    """The changes in one place, in words, each with the system so changed."""
    where, part, _ = place
    for key in part['required']:
        yield f'{where}: no {key}', changed(system, place, lambda table: table.pop(key))
    yield f'{where}: another key', changed(system, place, lambda table: table.update(other=1))
    for key, inner in part['properties'].items():
        for value in wrong_values(inner):
            yield f'{where}: {key} = {text_of(value)}', changed(system, place, lambda table: table.update({key: value}))


def one_thread(script: list[str], version: int = 1) -> System:
    return {
        'version': version, 'cores': 1, 'delay': 1,
        'context': [{'name': 'a', 'core': 0, 'budget': 2, 'period': 5}],
        'note': [{'name': 'n', 'core': 0}],
        'thread': [{'name': 'A', 'context': 'a', 'priority': 5, 'script': script}],
    }


ITEMS = [
    'compute 1', 'compute 5', '  yield ', 'compute  1099511627776', 'compute 1099511627777', 'compute 10995116277760', 'compute 0', 'compute 05', 'compute -1',
    'compute', 'compute 5 6', 'compute x', 'compute\t5', 'Compute 5', 'signal n 1', ' signal  n   4294967295  ', 'signal n 4294967296', 'signal n 0', 'signal n 01',
    'signal n', 'signal 1', 'signal n 0 x', 'signal n! 1', 'wait', 'wait n n', 'wait n!', 'yield 1', 'sleep 1', '', ' ',
]
NEW_ITEMS = [
    'on 1', ' on  4294967295  ', 'on 4294967296', 'on 0', 'on 01', 'on -1', 'on', 'on 1 2', 'on x', 'On 1', 'call v 1', '  call  v   4294967295 ',
    'call v 4294967296', 'call v 0', 'call v 01', 'call v', 'call 1', 'call', 'call v 1 2', 'call v! 1', 'spin', '  spin ', 'spin 1', 'Spin',
]
SERVER = {'name': 'v', 'core': 0, 'priority': 1, 'script': ['compute 1']}
# what versions 2 and 3 add, in a system of one thread
ADDED: list[Callable[[System], object]] = [
    lambda system: system.update(link=[]), lambda system: system.update(server=[]), lambda system: system.update(source=[]),
    lambda system: system.update(chain=[]), lambda system: system['context'][0].update(mode='sporadic'), lambda system: system['note'][0].update(word=0),
]


class Trial:
    """The schema beside a program."""

    def __init__(self, program: pathlib.Path) -> None:
        jsonschema.Draft7Validator.check_schema(SCHEMA)
        self.is_valid: Callable[[System], bool] = jsonschema.Draft7Validator(SCHEMA).is_valid
        self.program = program
        self.count = Count()

    def fault_of(self, system: System) -> str | None:
        """The program's fault, or None where it runs the system."""
        text = ''.join(f'{key} = {text_of(value)}\n' for key, value in system.items())
        ran = common.run([self.program, '--horizon', '0'], text.encode())
        return ran.stderr.decode().strip() if ran.status else None

    def agree(self, what: str, system: System) -> None:
        fault = self.fault_of(system)
        self.count.expect(f'{what}: the program says {fault}', self.is_valid(system) == (fault is None))

    def files(self) -> None:
        """What the program accepts is valid, and each example names the schema."""
        for file in sorted({*DATA.glob('*/*.toml'), *(file for folder in BOUND for file in folder.glob('*.toml'))}):
            text = file.read_text()
            if file.parent in BOUND:
                self.count.expect(f'{file.name}: its first line is not {BOUND[file.parent]}', text.split('\n', 1)[0] == BOUND[file.parent])
            try:
                system = tomllib.loads(text)
            except tomllib.TOMLDecodeError:
                continue
            if self.fault_of(system) is None:
                self.count.expect(f'{file.name}: refused by the schema', self.is_valid(system))

    def scripts(self) -> None:
        for item in ITEMS:
            self.agree(f'item {item!r}', one_thread([item, 'compute 1']))
        for item in (*ITEMS, *NEW_ITEMS):
            self.agree(f'item {item!r} in version 2', one_thread([item, 'compute 1'], 2))
            # the first item is a wait, so that a handler may follow
            script = ['wait n', item, 'compute 1']
            self.agree(f'item {item!r} in version 3', one_thread(script, 3) | {'server': [SERVER]})
            self.agree(f'item {item!r} of a server', one_thread(['compute 1'], 3) | {'server': [SERVER, SERVER | {'name': 'w', 'script': script}]})
        for items in (0, MOST_ITEMS, MOST_ITEMS + 1):
            self.agree(f'a script of {items} items', one_thread(['compute 1'] * items))
            self.agree(f'a server of {items} items', one_thread(['compute 1'], 3) | {'server': [SERVER | {'script': ['compute 1'] * items}]})

    def versions(self) -> None:
        """What a version adds is refused by both in those before it."""
        for version in (1, 2, 3):
            for place, add in enumerate(ADDED):
                system = one_thread(['compute 1'], version)
                add(system)
                self.agree(f'version {version} with addition {place}', system)

    def rows(self) -> None:
        """A row too many is refused by both."""
        for table in TABLES:
            system: System = one_thread(['compute 1'], 3) | {table: [{}] * (MOST_ROWS + 1)}
            refused = self.fault_of(system) == f'mcsim: too many at {table}'
            self.count.expect(f'{MOST_ROWS + 1} rows of {table}', refused and not self.is_valid(system))

    def changes(self, file: pathlib.Path) -> None:
        """A change in any place of an example is refused by both."""
        system = tomllib.loads(file.read_text())
        for place in places_of(system):
            for what, other in changes_in(system, place):
                fault = self.fault_of(other)
                self.count.expect(f'{file.name}, {what}: the program says {fault}', fault is not None and not self.is_valid(other))


def main() -> None:
    words = common.asking_program(__doc__).parse_args()
    if LACKING:
        count = Count()
        count.skip(f'the schema, since the Python package {LACKING} is not installed')
        count.end()
    trial = Trial(common.built_program(words.program))
    trial.files()
    trial.scripts()
    trial.versions()
    trial.rows()
    for file in [*sorted((DATA / 'examples').glob('*.toml')), *(DATA / 'events' / f'{name}.toml' for name in CHANGED)]:
        trial.changes(file)
    trial.count.end()


if __name__ == '__main__':
    main()
