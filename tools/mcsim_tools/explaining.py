"""What the first fault of a system's file means: its line, the key, what may stand there, and what was probably meant.

The program finds the fault (docs/FORMAT.md has the order of its tests) and names it and its place in one line. Here the place becomes a line of
the file, and the fault a few facts, from the file itself and from docs/mcsim.schema.json."""
from __future__ import annotations

import codecs
import difflib
import json
import pathlib
import re
from collections.abc import Callable, Iterable, Iterator, Sequence
from dataclasses import dataclass
from typing import Any, NamedTuple, Optional

from . import tables
from .positions import Node, Position, Reader, read

TOOLS = pathlib.Path(__file__).resolve().parent.parent
# in the repository, and as it is installed
SCHEMAS = (TOOLS.parent / 'docs' / 'mcsim.schema.json', TOOLS.parents[2] / 'share' / 'mcsim' / 'mcsim.schema.json')
LINE = re.compile(
    r'mcsim: (?P<kind>.+?) at (?P<section>file|top|context|note|thread|order|link|source|server|chain)'
    r'(?: (?P<row>\d+))?(?: (?P<key>[a-z_]+|\?))?(?: item (?P<item>\d+))?'
)
# what a row of each section is called
ROWS = {
    'top': 'the top', 'context': 'a context', 'note': 'a notification', 'server': 'a server', 'thread': 'a thread', 'source': 'a source',
    'order': 'an order', 'link': 'a link', 'chain': 'a chain',
}
# the first version that lists a key, for keys that version 1 does not list
SINCE = {
    ('top', 'link'): 2, ('context', 'mode'): 2, ('top', 'server'): 3, ('top', 'source'): 3, ('top', 'chain'): 3, ('note', 'word'): 3,
}
# keys whose values number cores
CORES = ('core', 'maker', 'home')
OLD_ITEMS = {'compute': 'compute N', 'signal': 'signal NOTE BADGE', 'wait': 'wait NOTE', 'yield': 'yield'}
NEW_ITEMS = {'on': 'on BADGES', 'call': 'call SERVER BADGE', 'spin': 'spin'}
NUMBERS = {
    'compute': 'N is 1 to 2^40', 'signal': 'BADGE is 1 to 4,294,967,295', 'on': 'BADGES is 1 to 4,294,967,295',
    'call': 'BADGE is 1 to 4,294,967,295',
}
# what is named by a row of each section
WHAT = {'note': 'notification'}
KINDS = {'integer': 'an integer', 'string': 'a text', 'array': 'an array'}
NEAR = 0.5
# a word that is longer has no nearest one; names and unknown keys that are told; bytes up to which Python's reader of TOML is asked
LONGEST_WORD, MOST_NAMED, MOST_UNKNOWN, LONGEST_ASKED = 64, 20, 3, 2**21


class Fault(NamedTuple):
    """A fault and its place, as the program names them."""

    kind: str
    section: str
    row: int
    key: Optional[str]
    item: int

    def __str__(self) -> str:
        parts = [self.section, str(self.row) if self.row else None, self.key, f'item {self.item}' if self.item else None]
        return f'{self.kind} at {" ".join(filter(None, parts))}'


def fault_of(line: str) -> Optional[Fault]:
    """The fault that a line of the program tells, or None where it tells another thing."""
    found = LINE.fullmatch(line.strip())
    return None if found is None else Fault(found['kind'], found['section'], int(found['row'] or 0), found['key'], int(found['item'] or 0))


def schema_of_files() -> Optional[dict[str, Any]]:
    """The schema of systems' files, where it is to be had."""
    found = next((path for path in SCHEMAS if path.is_file()), None)
    if found is None:
        return None
    schema: dict[str, Any] = json.loads(found.read_text(encoding='utf-8'))
    return schema


def nearest(word: str, known: Iterable[str]) -> Optional[str]:
    """The known word that is most like this one, if any is."""
    if len(word) > LONGEST_WORD:
        return None
    words = {other.lower(): other for other in known}
    found = difflib.get_close_matches(word.lower(), words, 1, NEAR)
    return words[found[0]] if found else None


def meant(word: str, known: Iterable[str]) -> str:
    near = nearest(word, known)
    return f'; the nearest is {near}' if near else ''


def amount(number: int) -> str:
    """A number as the pages write it."""
    return '2^40' if number == 2**40 else f'{number:,}'


def named(names: Iterable[str]) -> str:
    listed = list(names)
    return ', '.join(listed[:MOST_NAMED]) + (f' and {len(listed) - MOST_NAMED:,} more' if len(listed) > MOST_NAMED else '') or 'none'


def kind_of(node: Node) -> str:
    """What a value is."""
    if node.kind != 'other':
        return {'table': 'a table', 'array': 'an array', 'text': 'a text'}[node.kind]
    if node.text in ('true', 'false'):
        return f'a boolean, {node.text}'
    plain = re.fullmatch(r'[+-]?(?:0x[0-9A-Fa-f_]+|0o[0-7_]+|0b[01_]+|[0-9_]+)', node.text)
    return f'{"an integer" if plain else "no integer"}, {node.text}'


def number_of(node: Optional[Node]) -> Optional[int]:
    try:
        return int(node.text, 0) if node and node.kind == 'other' else None
    except ValueError:
        return None


def text_of(node: Optional[Node]) -> str:
    return node.text if node else ''


@dataclass
class Case:
    """A fault beside the file in which it lies."""

    fault: Fault
    tree: Reader
    schema: dict[str, Any]

    @property
    def root(self) -> Node:
        return self.tree.root

    def rows(self, section: str) -> Sequence[Node]:
        array = self.root.get(section)
        return array.items if array else []

    @property
    def row(self) -> Optional[Node]:
        """The table of the fault's place."""
        if self.fault.section == 'top':
            return self.root
        rows = self.rows(self.fault.section)
        return rows[self.fault.row - 1] if 0 < self.fault.row <= len(rows) else None

    def value(self, key: str) -> Optional[Node]:
        return self.row.get(key) if self.row else None

    @property
    def item(self) -> str:
        """The text of the fault's item."""
        script = self.value('script')
        return script.items[self.fault.item - 1].text if script and self.fault.item <= len(script.items) else ''

    def setting(self, key: str) -> Optional[int]:
        """A number at the top, or its default."""
        found = number_of(self.root.get(key))
        return self.schema['properties'][key].get('default') if found is None else found

    def properties(self, section: Optional[str] = None) -> dict[str, Any]:
        """The keys that a section lists, that of the fault where none is given, with what the schema says of them."""
        section = section or self.fault.section
        listed = self.schema['properties'] if section == 'top' else self.schema['definitions'][section]['properties']
        version = self.setting('version') or 0
        return {key: part for key, part in listed.items() if SINCE.get((section, key), 1) <= max(version, 1)}

    def items(self) -> dict[str, str]:
        """The items of the file's version."""
        return OLD_ITEMS | NEW_ITEMS if self.setting('version') == 3 else OLD_ITEMS

    def unknown_keys(self) -> list[str]:
        return [key for key in self.row.keys if key not in self.properties()] if self.row else []

    def earlier(self, is_same: Callable[[Node], bool]) -> Optional[int]:
        """The line of the first earlier row that has what this one has."""
        found = next(filter(is_same, self.rows(self.fault.section)[: self.fault.row - 1]), None)
        return None if found is None else self.tree.position(found.at).line

    def wanted(self, key: str) -> str:
        """What the schema wants at a key: its kind and its range."""
        part = self.properties().get(key, {})
        for inner in part.get('allOf', [part]):
            if '$ref' in inner:
                part = {**self.schema['definitions'][inner['$ref'].rsplit('/', 1)[1]], **part}
        kind = KINDS.get(part.get('type', ''), 'a value')
        if 'enum' in part:
            return f'{kind}: {" or ".join(map(str, part["enum"]))}'
        if key in CORES:
            cores = self.setting('cores')
            return f'{kind}, 0 to {cores - 1} (cores - 1)' if cores else f'{kind}, 0 to cores - 1'
        if 'minimum' in part:
            return f'{kind}, {amount(part["minimum"])} to {amount(part["maximum"])}'
        if key == 'script':
            return f'{kind} of texts, 1 to 1,024 of them'
        if key == 'at' and part.get('type') == 'array':
            return f'{kind} of integers, 1 to 1,024 of them'
        if part.get('type') == 'array':
            return f'{kind} of tables, at most {amount(part["maxItems"])}'
        return f'{kind} of 1 to 32 characters of A-Z a-z 0-9 _ -' if 'pattern' in part else kind

    def meaning(self, key: str) -> str:
        return str(self.properties().get(key, {}).get('description', '')).rstrip('.')

    def told(self, key: str) -> str:
        """What is wanted at a key, and what the key means."""
        return '. '.join(filter(None, [self.wanted(key), self.meaning(key)]))

    def place(self) -> Optional[int]:
        """Where in the text the fault lies; where that can't be told, where its row or its section begins."""
        section = self.root.keys.get(self.fault.section)
        if not self.row:
            return section.at if section else None
        if self.fault.key == '?':
            return next((self.row.keys[key].at for key in self.unknown_keys()), self.row.at)
        node = self.row.get(self.fault.key) if self.fault.key else None
        if node and 0 < self.fault.item <= len(node.items):
            return node.items[self.fault.item - 1].at
        return node.at if node else self.row.at

    def position(self) -> Optional[Position]:
        """The line and the column of the fault."""
        place = self.place()
        return None if place is None else self.tree.position(place)


def plain_text(text: bytes) -> str:
    """The characters of a text, without a mark of the byte order at its head."""
    return text.removeprefix(codecs.BOM_UTF8).decode(errors='replace')


def not_toml(text: bytes) -> tuple[Optional[Position], list[str]]:
    """Where a text is no TOML, and what Python's reader says of it."""
    try:
        plain = text.removeprefix(codecs.BOM_UTF8).decode()
    except UnicodeDecodeError as error:
        before = text.removeprefix(codecs.BOM_UTF8)[: error.start].decode()
        return Position(before.count('\n') + 1, len(before.rpartition('\n')[2]) + 1), ['the file is no UTF-8 from here on']
    tree = read(plain)
    place, said = tables.refusal(plain) if len(plain) <= LONGEST_ASKED else (None, '')
    lost, refused = tree.lost, None if place is None else tree.position(place)
    facts = ['no TOML from here on: a quote, a bracket or a brace may be open, or a comma lacking'] if lost and (refused is None or lost <= refused) else []
    where = f' at {refused.line}:{refused.column}' if refused else ''
    return min(filter(None, (lost, refused)), default=None), [*facts, *([f"Python's reader of TOML says{where}: {said}"] if said else [])]


def line_of(text: bytes, said: str) -> Optional[int]:
    """The line of the place that a line of the program tells, from 1; None where it cannot be told."""
    fault, schema = fault_of(f'mcsim: {said}'), schema_of_files()
    if fault is None or schema is None:
        return None
    position = not_toml(text)[0] if fault.kind == 'not TOML' else Case(fault, read(plain_text(text)), schema).position()
    return position.line if position else None


def unknown_key(case: Case) -> Iterator[str]:
    listed = case.properties()
    for key in case.unknown_keys()[:MOST_UNKNOWN]:
        since = SINCE.get((case.fault.section, key))
        if since:
            versions = 'versions 2 and 3' if since == 2 else 'version 3 alone'
            yield f'{key} is a key of {versions}, and this file says version = {case.setting("version")}'
            continue
        sections = {'top', *case.properties('top')}
        others = [what for section, what in ROWS.items() if section in sections and key in case.properties(section)]
        if others:
            yield f'{key} is no key of {ROWS[case.fault.section]}, but of {" and of ".join(others)}'
            continue
        yield f'{key} is no key of {ROWS[case.fault.section]}{meant(key, listed)}'
        near = nearest(key, listed)
        if near:
            yield f'{near}: {case.told(near)}'
    yield f'keys of {ROWS[case.fault.section]}: {named(listed)}'


def missing_key(case: Case) -> Iterator[str]:
    key = case.fault.key or ''
    yield f'{key} is required: {case.told(key)}'


def wrong_kind(case: Case) -> Iterator[str]:
    fault = case.fault
    if fault.item:
        if fault.key == 'at':
            yield 'each number of at is an integer'
        else:
            yield f'an item is a text in quotes: {named(case.items().values())}'
    elif fault.key:
        node = case.value(fault.key)
        yield f'{fault.key} is {case.wanted(fault.key)}' + (f'; here stands {kind_of(node)}' if node else '')
    elif fault.row:
        yield f'each row of {fault.section} is a table'
    else:
        yield f'{fault.section} is an array of tables: [[{fault.section}]] with two brackets, or {fault.section} = [{{ .. }}, ..]'


def out_of_at(case: Case, at: Node) -> Iterator[str]:
    number = case.fault.item
    if not number:
        yield 'at has one number or more'
        return
    here = at.items[number - 1].text if number <= len(at.items) else ''
    before = number_of(at.items[number - 2]) if 1 < number <= len(at.items) + 1 else None
    period = number_of(case.value('period'))
    yield f'each number of at lies below the period{f", {amount(period)}" if period is not None else ""}; here stands {here}'
    if before is not None:
        yield f'and each is above the one before, which is {amount(before)}'


def out_of_range(case: Case) -> Iterator[str]:
    key = case.fault.key or ''
    at = case.value('at')
    if case.fault.section == 'source' and key == 'at' and at:
        yield from out_of_at(case, at)
        return
    node = case.value(key)
    yield f'{key} is {case.wanted(key)}' + (f'; here stands {node.text}' if node and node.text else '')
    if key == 'mode':
        near = nearest(text_of(node), ('sporadic', 'bandwidth'))
        if near:
            yield f'the nearest is {near}'
    elif case.meaning(key):
        yield case.meaning(key)


def count_of(array: Optional[Node]) -> int:
    return array.count if array else 0


def too_many(case: Case) -> Iterator[str]:
    fault = case.fault
    if fault.key == 'script' and fault.item:
        yield 'a script has at most 1,024 steps: one for each item, and for a call those of the server for its badge and two more'
    elif fault.key == 'script':
        yield f'a script has at most 1,024 items; this one has {amount(count_of(case.value("script")))}'
    elif fault.key == 'at':
        yield 'a source has at most 1,024 numbers in at, and all sources together 4,096; an absent at counts 1'
    elif fault.section == 'server':
        together = sum(count_of(case.root.get(section)) for section in ('note', 'server'))
        yield f'notifications and servers together are at most 4,096; here are {amount(together)}'
    else:
        yield f'there are at most 4,096 rows; here are {amount(count_of(case.root.get(fault.section)))}'


def bad_name(case: Case) -> Iterator[str]:
    name = text_of(case.value('name'))
    wrong = ''.join(dict.fromkeys(re.findall(r'[^A-Za-z0-9_-]', name)))
    yield 'a name is 1 to 32 characters of A-Z a-z 0-9 _ -'
    yield f'this one has {len(name)} characters' + (f', and {wrong!r} is none of these' if wrong else '')


def double_name(case: Case) -> Iterator[str]:
    name = text_of(case.value('name'))
    line = case.earlier(lambda row: text_of(row.get('name')) == name)
    if line is None:
        note = row_named(case, 'note', name)
        where = f', in line {case.tree.position(note.at).line}' if note else ''
        yield f'a notification has the name {name}{where}: notifications and servers have one name space'
        return
    yield f'the name {name} stands first in line {line}'


def unknown_name(case: Case) -> Iterator[str]:
    key = case.fault.key or ''
    words = case.item.split()
    if key != 'script':
        section, name = key, text_of(case.value(key))
    else:
        section, name = 'server' if words[:1] == ['call'] else 'note', ''.join(words[1:2])
    what = WHAT.get(section, section)
    known = case.rows(section)
    if section == 'server' and case.fault.section == 'server':
        what, known = 'earlier server', known[: case.fault.row - 1]
    names = [text_of(row.get('name')) for row in known]
    yield f'no {what} has the name {name}{meant(name, names)}'
    yield f'names of {what}s: {named(names)}'


def unknown_word(case: Case) -> Iterator[str]:
    word = ''.join(case.item.split(' ')[:1])
    if word in NEW_ITEMS and word not in case.items():
        yield f'{word} is a word of version 3 alone, and this file says version = {case.setting("version")}'
    else:
        yield f'{word or "nothing"} is no word of an item{meant(word, case.items())}'
    yield f'items: {named(case.items().values())}'


def bad_parts(case: Case) -> Iterator[str]:
    word = (case.item.split() or [''])[0]
    yield f'the item is {case.items().get(word, word)}; here stands {case.item.strip()}'
    if word in NUMBERS:
        yield f'{NUMBERS[word]}, in digits without a sign and without a leading zero'


def wait_is_last(case: Case) -> Iterator[str]:
    yield 'the last item of a script is no wait: put the wait first, which waits for each round in its turn, or let an item follow it'
    if case.setting('version') == 3:
        yield 'nor does a wait stand directly before an on, but where it is the first item'


def on_without_wait(case: Case) -> Iterator[str]:
    yield 'on begins a handler for a badge of the word that the first item waits for: the first item of the script is to be a wait'


def no_wait(case: Case) -> Iterator[str]:
    thread = text_of(case.value('thread'))
    if case.fault.key == 'badges':
        yield f'the badges of a chain are those of the word that begins a round: the first item of {thread} is to be a wait, or badges 0'
    else:
        yield f'{thread} never waits, so no interrupt can begin one of its rounds'


def of_control(case: Case) -> Iterator[str]:
    budget, period, least = number_of(case.value('budget')), number_of(case.value('period')), case.setting('min_budget')
    yield {
        'zero budget': 'a budget is at least 1',
        'budget too small': f'budget is {budget}, and min_budget at the top {least}: a budget is at least min_budget',
        'budget over period': f'budget is {budget}, and period {period}: a budget is at most its period (where it is the same, the context is round robin)',
        'period too long': 'a period is at most 2^40',
        'too many refills': 'extra_refills is at most 64: the list has two refills and so many more',
    }[case.fault.kind.partition(': ')[2]]


def context_taken(case: Case) -> Iterator[str]:
    name = text_of(case.value('context'))
    yield f'the thread in line {case.earlier(lambda row: text_of(row.get("context")) == name)} has the context {name}: each thread has its own'
    threads = case.rows('thread')
    taken = {text_of(row.get('context')) for row in threads}
    free = [text_of(row.get('name')) for row in case.rows('context') if text_of(row.get('name')) not in taken]
    yield f'contexts without a thread: {named(free)}'


def row_named(case: Case, section: str, name: str) -> Optional[Node]:
    return next((row for row in case.rows(section) if text_of(row.get('name')) == name), None)


def other_core(case: Case) -> Iterator[str]:
    context = row_named(case, 'context', text_of(case.value('context')))
    core = text_of(context.get('core') if context else None)
    if case.fault.section == 'order':
        yield f'the context {text_of(case.value("context"))} is on core {core}, and the order on core {text_of(case.value("core"))}'
        return
    words = case.item.split()
    note = ''.join(words[1:2])
    if case.fault.section == 'server':
        core = text_of(case.value('core'))
    runs = f'the {case.fault.section} runs on core {core}'
    if words[:1] == ['call']:
        server = row_named(case, 'server', note)
        yield f'{note} is on core {text_of(server.get("core") if server else None)}, and {runs}: a server is called on its own core alone'
        return
    home = row_named(case, 'note', note)
    yield f'{note} is at home on core {text_of(home.get("core") if home else None)}, and {runs}: a {case.fault.section} waits at home alone'
    yield 'put the notification on the core of the thread that waits; threads of any core may signal it'


def kind_change(case: Case) -> Iterator[str]:
    context = row_named(case, 'context', text_of(case.value('context')))
    old = [text_of(context.get(key) if context else None) for key in ('budget', 'period')]
    new = [text_of(case.value(key)) for key in ('budget', 'period')]
    yield f'the context has {old[0]} in {old[1]}, and the order gives {new[0]} in {new[1]}'
    yield 'budget equal to period is round robin, and an order neither makes a context so nor ends it'


def self_link(case: Case) -> Iterator[str]:
    yield 'a link goes to another core: signals to a notification of the own core take no time'


def double_link(case: Case) -> Iterator[str]:
    pair = [text_of(case.value(key)) for key in ('maker', 'home')]
    line = case.earlier(lambda row: [text_of(row.get(key)) for key in ('maker', 'home')] == pair)
    yield f'the link from core {pair[0]} to core {pair[1]} stands first in line {line}'


def mode_of_slice(case: Case) -> Iterator[str]:
    yield f'budget and period are both {text_of(case.value("period"))}: such a context is round robin and has no other mode'


FACTS: dict[str, Callable[[Case], Iterator[str]]] = {
    'unknown key': unknown_key, 'missing key': missing_key, 'wrong kind': wrong_kind, 'out of range': out_of_range, 'too many': too_many,
    'bad name': bad_name, 'double name': double_name, 'unknown name': unknown_name, 'wait is last': wait_is_last, 'control': of_control,
    'context taken': context_taken, 'other core': other_core, 'kind change': kind_change, 'self link': self_link, 'double link': double_link,
    'mode of slice': mode_of_slice, 'on without wait': on_without_wait, 'no wait': no_wait, 'bad item: unknown word': unknown_word, 'bad item': bad_parts,
}


def facts_of(case: Case) -> list[str]:
    """What there is to say of a fault; nothing of one that is not known here."""
    kind = case.fault.kind
    found = FACTS.get(kind) or FACTS.get(kind.partition(':')[0])
    return list(found(case)) if found else []


def whom(case: Case) -> str:
    """The name of a fault's row, if it has one that is not at fault."""
    name = case.value('name') if case.fault.section != 'top' and case.fault.key != 'name' else None
    return name.text if name is not None and name.kind == 'text' else ''
